//! What starts a rule.

use crate::refs::{DeviceRef, GroupRef, InputDeviceRef, InputRef, InputSelector, LampRef, LightTarget};
use crate::time::{DaySet, DurationMs, SolarEvent, TimeOfDay};

#[derive(Debug, Clone, Copy, PartialEq, Eq)]
pub enum InputEventMatch {
    Press,
    Release,
    ShortPress,
    DoublePress,
    LongPressStart,
    LongPressRepeat,
    LongPressStop,
    ButtonFree,
    ButtonStuck,
    Movement,
    NoMovement,
    AnyEvent,
    Raw { data: u16 },
}

#[derive(Debug, Clone, Copy, PartialEq, Eq)]
pub enum OccupancyState {
    Occupied,
    Vacant,
}

#[derive(Debug, Clone, Copy, PartialEq, Eq)]
pub enum CrossDirection {
    Above,
    Below,
}

#[derive(Debug, Clone, Copy, PartialEq, Eq)]
pub enum PowerTransition {
    On,
    Off,
}

#[derive(Debug, Clone, Copy, PartialEq, Eq)]
pub enum GroupAggregate {
    AnyOn,
    AllOff,
}

#[derive(Debug, Clone, Copy, PartialEq, Eq)]
pub enum OnlineTransition {
    GoesOffline,
    ComesOnline,
}

#[derive(Debug, Clone, Copy, PartialEq, Eq)]
pub enum OverrideTransition {
    Starts,
    Clears,
}

#[derive(Debug, Clone, PartialEq, Eq)]
pub enum Trigger {
    InputEvent { source: InputSelector, event: InputEventMatch },
    InputOccupancy { source: InputRef, becomes: OccupancyState },
    InputLightCross { source: InputRef, direction: CrossDirection, threshold: u16 },
    InputPositionChange { source: InputRef },
    InputDevicePowerCycled { device: InputDeviceRef },
    InputDeviceManualConfigChanged { device: InputDeviceRef },
    AtTime { time: TimeOfDay, days: DaySet },
    AtSolar { event: SolarEvent, offset_ms: i32 },
    Every { period_ms: DurationMs },
    LampTurns { lamp: LampRef, to: PowerTransition },
    LampLevelCross { lamp: LampRef, direction: CrossDirection, threshold: u8 },
    GroupBecomes { group: GroupRef, becomes: GroupAggregate },
    SceneRecalled { adapter_id: u8, scene: u8 },
    DeviceOnlineTransition { device: DeviceRef, transition: OnlineTransition },
    HclOverride { target: LightTarget, transition: OverrideTransition },
    TimerFires { timer: String },
    ControllerStarts,
    ControllerBecomesActive,
    RuleFails { rule: String },
    HttpTrigger,
    MqttMessage { topic: String, payload: Option<String> },
}

impl Trigger {
    pub fn mqtt_topic(&self) -> Option<&str> {
        match self {
            Trigger::MqttMessage { topic, .. } => Some(topic),
            _ => None,
        }
    }
}

/// The different topics that the triggers name, by their bytes.
pub fn distinct_mqtt_topics<'a>(triggers: impl IntoIterator<Item = &'a Trigger>) -> Vec<&'a str> {
    let mut topics = Vec::new();
    for topic in triggers.into_iter().filter_map(Trigger::mqtt_topic) {
        if !topics.contains(&topic) {
            topics.push(topic);
        }
    }
    topics
}

#[derive(Debug, Clone, Copy, PartialEq, Eq)]
pub enum TriggerKind {
    InputEvent,
    InputOccupancy,
    InputLightCross,
    InputPositionChange,
    InputDevicePowerCycled,
    InputDeviceManualConfigChanged,
    AtTime,
    AtSolar,
    Every,
    LampTurns,
    LampLevelCross,
    GroupBecomes,
    SceneRecalled,
    DeviceOnlineTransition,
    HclOverride,
    TimerFires,
    ControllerStarts,
    ControllerBecomesActive,
    RuleFails,
    HttpTrigger,
    MqttMessage,
}
