//! What a text says: the records of its triggers and conditions.

use crate::days::Days;

/// One of the words that a form offers as a choice, as it is written in the text.
pub type Choice = &'static str;

/// A lamp, group, device or input device.
#[derive(Debug, Clone, Copy, PartialEq, Eq)]
pub struct Ref {
    pub adapter: u32,
    pub number: u32,
}

/// One instance of an input device.
#[derive(Debug, Clone, Copy, PartialEq, Eq)]
pub struct Instance {
    pub device: Ref,
    pub instance: u32,
}

/// What ARGS selects.
#[derive(Debug, Clone, Copy, PartialEq, Eq)]
pub enum Selector {
    Instance(Instance),
    Group { adapter: u32, group: u32, instance_type: Option<u32> },
}

#[derive(Debug, Clone, Copy, PartialEq, Eq)]
pub enum Event {
    Named(Choice),
    Raw(u32),
}

#[derive(Debug, Clone, Copy, PartialEq, Eq)]
pub enum Target {
    Lamp(Ref),
    Group(Ref),
    Broadcast(u32),
}

/// Sunrise or sunset and the signed offset in milliseconds.
#[derive(Debug, Clone, Copy, PartialEq, Eq)]
pub struct Solar {
    pub event: Choice,
    pub offset: i32,
}

/// A time bound: a TIME in minutes since midnight, or a SOLAR.
#[derive(Debug, Clone, Copy, PartialEq, Eq)]
pub enum Bound {
    Clock(u32),
    Solar(Solar),
}

#[derive(Debug, Clone, Copy, PartialEq, Eq)]
pub enum Reading<'a> {
    Lamp(Ref, Choice),
    Group(Ref, Choice),
    Input(Instance, Choice),
    /// Of `time`, `sun` or `event`, the first word, which needs no reference.
    Plain(Choice, Choice),
    Var(&'a [u8]),
}

#[derive(Debug, Clone, Copy, PartialEq, Eq)]
pub enum Value<'a> {
    Literal(i64),
    Reading(Reading<'a>),
    Offset(Reading<'a>, i64),
}

/// A comparison, by its short name: eq, ne, ge, le, gt, lt.
pub type Comparison = &'static str;

#[derive(Debug, Clone, Copy, PartialEq, Eq)]
pub enum Trigger<'a> {
    InputEvent(Selector, Event),
    InputOccupancy(Instance, Choice),
    InputLightCross(Instance, Choice, u32),
    InputPositionChange(Instance),
    InputDevicePowerCycled(Ref),
    InputDeviceManualConfigChanged(Ref),
    At(Bound, Days),
    Every(u32),
    LampTurns(Ref, Choice),
    LampLevelCross(Ref, Choice, u32),
    GroupBecomes(Ref, Choice),
    SceneRecalled { adapter: u32, scene: u32 },
    DeviceGoesOffline(Ref),
    DeviceComesOnline(Ref),
    HclOverride(Target, Choice),
    TimerFires(&'a [u8]),
    ControllerStarts,
    ControllerBecomesActive,
    RuleFails(&'a [u8]),
    Http,
    Mqtt(&'a [u8]),
}

#[derive(Debug, Clone, Copy, PartialEq, Eq)]
pub enum Condition<'a> {
    TimeInRange(Bound, Bound),
    DayIn(Days),
    SunIs(Choice),
    LampIs(Ref, Choice),
    /// The property, level or cct, stands behind the lamp.
    LampCompare(Ref, Choice, Comparison, Value<'a>),
    GroupState(Ref, Choice),
    InputOccupancy(Instance, Choice),
    InputLight(Instance, Choice, Value<'a>),
    HclState(Target, Choice),
    DeviceOnline(Ref),
    RuleEnabled(&'a [u8]),
    LastFiredOlderThan(&'a [u8], u32),
    TimerRunning(&'a [u8]),
    ControllerActive,
    VarText(&'a [u8], Comparison, &'a [u8]),
    VarValue(&'a [u8], Comparison, Value<'a>),
}

/// A reading of a whole text.
#[derive(Debug, Clone, PartialEq, Eq)]
pub struct Lists<'a> {
    pub triggers: Vec<Trigger<'a>>,
    pub conditions: Vec<Condition<'a>>,
}
