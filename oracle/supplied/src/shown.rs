//! The lines of the replay format for triggers and conditions, from the values that the supplied Rust gave.

use dali2rust_rules_model::{
    Cmp, Condition, CrossDirection, GroupAggregate, GroupRef, HclState, InputDeviceRef, InputEventMatch, InputRef,
    InputSelector, LampRef, LightTarget, OccupancyState, OnlineTransition, OverrideTransition, PowerTransition,
    Reading, SolarEvent, TimeBound, TimeOfDay, Trigger, ValueExpr, VarOperand,
};

pub fn trigger(trigger: &Trigger) -> String {
    match trigger {
        Trigger::InputEvent { source, event: e } => format!("input_event {} {}", selector(source), event(e)),
        Trigger::InputOccupancy { source, becomes } => {
            format!("input_occupancy {} {}", input(source), occupancy(matches!(becomes, OccupancyState::Occupied)))
        }
        Trigger::InputLightCross { source, direction, threshold } => {
            format!("input_light_cross {} {} {threshold}", input(source), cross(*direction))
        }
        Trigger::InputPositionChange { source } => format!("input_position_change {}", input(source)),
        Trigger::InputDevicePowerCycled { device } => format!("input_device_power_cycled {}", input_device(device)),
        Trigger::InputDeviceManualConfigChanged { device } => {
            format!("input_device_manual_config_changed {}", input_device(device))
        }
        Trigger::AtTime { time, .. } => format!("at_time {}", minutes(time)),
        Trigger::AtSolar { event, offset_ms } => format!("at_solar {} {offset_ms}", solar(*event)),
        Trigger::Every { period_ms } => format!("every {}", period_ms.0),
        Trigger::LampTurns { lamp: l, to } => {
            format!("lamp_turns {} {}", lamp(l), on_off(matches!(to, PowerTransition::On)))
        }
        Trigger::LampLevelCross { lamp: l, direction, threshold } => {
            format!("lamp_level_cross {} {} {threshold}", lamp(l), cross(*direction))
        }
        Trigger::GroupBecomes { group: g, becomes } => format!("group_becomes {} {}", group(g), aggregate(*becomes)),
        other => rarer_trigger(other),
    }
}

fn rarer_trigger(trigger: &Trigger) -> String {
    match trigger {
        Trigger::SceneRecalled { adapter_id, scene } => format!("scene_recalled {adapter_id} {scene}"),
        Trigger::DeviceOnlineTransition { device, transition } => {
            let word = match transition {
                OnlineTransition::GoesOffline => "goes_offline",
                OnlineTransition::ComesOnline => "comes_online",
            };
            format!("device_online {} {} {word}", device.adapter_id, device.short_address)
        }
        Trigger::HclOverride { target: t, transition } => {
            let word = match transition {
                OverrideTransition::Starts => "starts",
                OverrideTransition::Clears => "clears",
            };
            format!("hcl_override {} {word}", target(t))
        }
        Trigger::TimerFires { timer } => format!("timer_fires {}", hex(timer)),
        Trigger::ControllerStarts => "controller_starts".into(),
        Trigger::ControllerBecomesActive => "controller_becomes_active".into(),
        Trigger::RuleFails { rule } => format!("rule_fails {}", hex(rule)),
        Trigger::HttpTrigger => "http_trigger".into(),
        Trigger::MqttMessage { topic, payload: None } => format!("mqtt {}", hex(topic)),
        other => panic!("no line of the replay format shows {other:?}"),
    }
}

pub fn condition(condition: &Condition) -> String {
    match condition {
        Condition::TimeInRange { start, end } => format!("time_in_range {} {}", bound(start), bound(end)),
        Condition::DayIn { .. } => panic!("no line of the replay format shows {condition:?}"),
        Condition::SunIs { up } => format!("sun_is {}", if *up { "up" } else { "down" }),
        Condition::LampIs { lamp: l, on } => format!("lamp_is {} {}", lamp(l), on_off(*on)),
        Condition::LampLevel { lamp: l, cmp, value: v } => {
            format!("lamp_level {} {} {}", lamp(l), compared(*cmp), value(v))
        }
        Condition::LampCct { lamp: l, cmp, value: v } => {
            format!("lamp_cct {} {} {}", lamp(l), compared(*cmp), value(v))
        }
        Condition::GroupState { group: g, state } => format!("group_state {} {}", group(g), aggregate(*state)),
        Condition::InputOccupancy { input: i, occupied } => {
            format!("input_occupancy {} {}", input(i), occupancy(*occupied))
        }
        Condition::InputLight { input: i, above, threshold } => {
            format!("input_light {} {} {}", input(i), if *above { "above" } else { "below" }, value(threshold))
        }
        other => rarer_condition(other),
    }
}

fn rarer_condition(condition: &Condition) -> String {
    match condition {
        Condition::HclState { target: t, state } => {
            let word = match state {
                HclState::Enabled => "enabled",
                HclState::Overridden => "overridden",
            };
            format!("hcl_state {} {word}", target(t))
        }
        Condition::DeviceOnline { device } => format!("device_online {} {}", device.adapter_id, device.short_address),
        Condition::RuleEnabled { rule } => format!("rule_enabled {}", hex(rule)),
        Condition::LastFiredOlderThan { rule, than_ms } => {
            format!("last_fired_older_than {} {}", hex(rule), than_ms.0)
        }
        Condition::TimerRunning { timer } => format!("timer_running {}", hex(timer)),
        Condition::ControllerActive => "controller_active".into(),
        Condition::VarCompare { name, cmp, value: VarOperand::Text(text) } => {
            format!("var_compare {} {} text {}", hex(name), compared(*cmp), hex(text))
        }
        Condition::VarCompare { name, cmp, value: VarOperand::Value(v) } => {
            format!("var_compare {} {} value {}", hex(name), compared(*cmp), value(v))
        }
        other => panic!("no line of the replay format shows {other:?}"),
    }
}

fn value(value: &ValueExpr) -> String {
    match value {
        ValueExpr::Literal(number) => format!("literal {number}"),
        ValueExpr::Reading(r) => format!("reading {}", reading(r)),
        ValueExpr::Offset { reading: r, delta } => format!("offset {} {delta}", reading(r)),
    }
}

fn reading(reading: &Reading) -> String {
    match reading {
        Reading::LampLevel { lamp: l } => format!("lamp_level {}", lamp(l)),
        Reading::LampCct { lamp: l } => format!("lamp_cct {}", lamp(l)),
        Reading::LampIsOn { lamp: l } => format!("lamp_is_on {}", lamp(l)),
        Reading::LampLastLevel { lamp: l } => format!("lamp_last_level {}", lamp(l)),
        Reading::GroupAnyOn { group: g } => format!("group_any_on {}", group(g)),
        Reading::GroupAllOff { group: g } => format!("group_all_off {}", group(g)),
        Reading::GroupMemberCount { group: g } => format!("group_member_count {}", group(g)),
        Reading::InputOccupied { input: i } => format!("input_occupied {}", input(i)),
        Reading::InputLight { input: i } => format!("input_light {}", input(i)),
        Reading::InputPosition { input: i } => format!("input_position {}", input(i)),
        Reading::InputLastEventAge { input: i } => format!("input_last_event_age {}", input(i)),
        Reading::TimeNow => "time_now".into(),
        Reading::TimeHour => "time_hour".into(),
        Reading::TimeMinute => "time_minute".into(),
        Reading::TimeWeekday => "time_weekday".into(),
        Reading::SunRise => "sun_rise".into(),
        Reading::SunSet => "sun_set".into(),
        Reading::SunIsUp => "sun_is_up".into(),
        Reading::EventValue => "event_value".into(),
        Reading::EventDevice => "event_device".into(),
        Reading::EventInstance => "event_instance".into(),
        Reading::EventOption => "event_option".into(),
        Reading::Var { name } => format!("var {}", hex(name)),
    }
}

fn event(event: &InputEventMatch) -> String {
    match event {
        InputEventMatch::Press => "press".into(),
        InputEventMatch::Release => "release".into(),
        InputEventMatch::ShortPress => "short_press".into(),
        InputEventMatch::DoublePress => "double_press".into(),
        InputEventMatch::LongPressStart => "long_press_start".into(),
        InputEventMatch::LongPressRepeat => "long_press_repeat".into(),
        InputEventMatch::LongPressStop => "long_press_stop".into(),
        InputEventMatch::ButtonFree => "button_free".into(),
        InputEventMatch::ButtonStuck => "button_stuck".into(),
        InputEventMatch::Movement => "movement".into(),
        InputEventMatch::NoMovement => "no_movement".into(),
        InputEventMatch::AnyEvent => "any_event".into(),
        InputEventMatch::Raw { data } => format!("raw {data}"),
    }
}

fn selector(selector: &InputSelector) -> String {
    match selector {
        InputSelector::Instance(i) => format!("instance {}", input(i)),
        InputSelector::Group(g) => {
            let kind = g.instance_type.map_or("-".into(), |t| t.to_string());
            format!("group {} {} {kind}", g.adapter_id, g.instance_group)
        }
    }
}

fn target(target: &LightTarget) -> String {
    match target {
        LightTarget::Lamp(l) => format!("lamp {}", lamp(l)),
        LightTarget::Group(g) => format!("group {}", group(g)),
        LightTarget::Broadcast { adapter_id } => format!("broadcast {adapter_id}"),
    }
}

fn bound(bound: &TimeBound) -> String {
    match bound {
        TimeBound::Clock(time) => format!("clock {}", minutes(time)),
        TimeBound::Solar { event, offset_ms } => format!("solar {} {offset_ms}", solar(*event)),
    }
}

fn lamp(lamp: &LampRef) -> String {
    format!("{} {}", lamp.adapter_id, lamp.id)
}

fn group(group: &GroupRef) -> String {
    format!("{} {}", group.adapter_id, group.id)
}

fn input(input: &InputRef) -> String {
    format!("{} {} {}", input.adapter_id, input.device_short_address, input.instance_number)
}

fn input_device(device: &InputDeviceRef) -> String {
    format!("{} {}", device.adapter_id, device.device_short_address)
}

fn minutes(time: &TimeOfDay) -> u32 {
    u32::from(time.hour) * 60 + u32::from(time.minute)
}

fn solar(event: SolarEvent) -> &'static str {
    match event {
        SolarEvent::Sunrise => "sunrise",
        SolarEvent::Sunset => "sunset",
    }
}

fn compared(cmp: Cmp) -> &'static str {
    match cmp {
        Cmp::Eq => "eq",
        Cmp::Ne => "ne",
        Cmp::Ge => "ge",
        Cmp::Le => "le",
        Cmp::Gt => "gt",
        Cmp::Lt => "lt",
    }
}

fn cross(direction: CrossDirection) -> &'static str {
    match direction {
        CrossDirection::Above => "above",
        CrossDirection::Below => "below",
    }
}

fn aggregate(state: GroupAggregate) -> &'static str {
    match state {
        GroupAggregate::AnyOn => "any_on",
        GroupAggregate::AllOff => "all_off",
    }
}

fn occupancy(occupied: bool) -> &'static str {
    if occupied { "occupied" } else { "vacant" }
}

fn on_off(on: bool) -> &'static str {
    if on { "on" } else { "off" }
}

/// `x` and the bytes in lower-case hex.
fn hex(text: &str) -> String {
    text.bytes().fold(String::from("x"), |out, byte| out + &format!("{byte:02x}"))
}
