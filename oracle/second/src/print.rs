//! The replay format (docs/REPLAY.md).

use crate::buffer::{kept_behind, Buffer};
use crate::days::Days;
use crate::join::{Joined, Refused};
use crate::model::*;
use crate::reader::Read;
use crate::refusal::Refusal;

/// The answer to one case.
pub fn answer(id: u64, buffer: &Buffer, result: &Read<Lists>) -> String {
    let mut lines = vec![format!("case {id}")];
    lines.extend(left_in(buffer));
    match result {
        Err(r) => lines.push(format!("refused {}", refusal(r))),
        Ok(lists) => {
            lines.push(format!("accepted {} {}", lists.triggers.len(), lists.conditions.len()));
            lines.extend(lists.triggers.iter().map(|t| format!("T {}", trigger(t))));
            lines.extend(lists.conditions.iter().map(|c| format!("C {}", condition(c))));
        }
    }
    lines.iter().map(|line| format!("{line}\n")).collect()
}

/// The answer to one join (document 02 §3): what both buffers hold, then the refusal with the text that it is of, or each entry with the
/// text that it is taken from.
pub fn joined(id: u64, buffers: [&Buffer; 2], result: &Result<Joined, Refused>) -> String {
    let mut lines = vec![format!("case {id}")];
    lines.extend(buffers.into_iter().flat_map(left_in));
    match result {
        Err(r) => lines.push(format!("refused {} {}", r.which, refusal(&r.refusal))),
        Ok(lists) => {
            lines.push(format!("accepted {} {}", lists.triggers.len(), lists.conditions.len()));
            lines.extend(lists.triggers.iter().map(|(from, t)| format!("T {from} {}", trigger(t))));
            lines.extend(lists.conditions.iter().map(|(from, c)| format!("C {from} {}", condition(c))));
        }
    }
    lines.iter().map(|line| format!("{line}\n")).collect()
}

/// The answer to one `write` or `back` line (document 02 §7, §10), with a buffer of so many bytes: whether the bytes past what was written stayed, then the
/// refusal, or the length and the bytes.
pub fn written(id: u64, size: usize, result: &Read<Vec<u8>>) -> String {
    let (bytes, said) = match result {
        Err(r) => (&[][..], format!("refused {}", refusal(r))),
        Ok(bytes) => (&bytes[..], format!("written {} {}", bytes.len(), hex(bytes))),
    };
    format!("case {id}\nbuffer {}\n{said}\n", if kept_behind(bytes, size) { "kept" } else { "changed" })
}

/// The answer to one `rows` line (document 02 §10).
pub fn converted(id: u64, result: &Read<Vec<Trigger>>) -> String {
    let said = match result {
        Err(r) => vec![format!("refused {}", refusal(r))],
        Ok(triggers) => [format!("accepted {} 0", triggers.len())].into_iter().chain(triggers.iter().map(|t| format!("T {}", trigger(t)))).collect(),
    };
    format!("case {id}\n{}\n", said.join("\n"))
}

/// The token lines of a buffer and its `buffer` line.
fn left_in(buffer: &Buffer) -> Vec<String> {
    let kept = format!("buffer {}", if buffer.kept() { "kept" } else { "changed" });
    buffer.records().into_iter().map(token).chain([kept]).collect()
}

fn refusal(r: &Refusal) -> String {
    format!("{} {} {} {}", r.number, r.place.line, r.place.column, r.detail)
}

/// "A token line gives line and column apart, however the record holds them."
fn token(record: &[u32]) -> String {
    let (place, words) = record.split_last().expect("a record has words");
    let (line, column) = cases::line_and_column(*place);
    words.iter().chain([&line, &column]).fold("token".to_string(), |line, word| format!("{line} {word}"))
}

/// NAME and TEXT: `x` and the bytes in lower-case hex.
fn hex(bytes: &[u8]) -> String {
    bytes.iter().fold("x".to_string(), |field, byte| format!("{field}{byte:02x}"))
}

fn reference(r: &Ref) -> String {
    format!("{} {}", r.adapter, r.number)
}

fn instance(i: &Instance) -> String {
    format!("{} {}", reference(&i.device), i.instance)
}

fn selector(s: &Selector) -> String {
    match s {
        Selector::Instance(i) => format!("instance {}", instance(i)),
        Selector::Group { adapter, group, instance_type: Some(t) } => format!("group {adapter} {group} {t}"),
        Selector::Group { adapter, group, instance_type: None } => format!("group {adapter} {group} -"),
    }
}

fn event(e: &Event) -> String {
    match e {
        Event::Named(name) => name.to_string(),
        Event::Raw(data) => format!("raw {data}"),
    }
}

fn target(t: &Target) -> String {
    match t {
        Target::Lamp(r) => format!("lamp {}", reference(r)),
        Target::Group(r) => format!("group {}", reference(r)),
        Target::Broadcast(adapter) => format!("broadcast {adapter}"),
    }
}

fn bound(b: &Bound) -> String {
    match b {
        Bound::Clock(minutes) => format!("clock {minutes}"),
        Bound::Solar(s) => format!("solar {} {}", s.event, s.offset),
    }
}

/// ` on DAYS`, "only where fewer than seven days are in the set".
fn on(days: &Days) -> String {
    if *days == Days::ALL { String::new() } else { format!(" on {}", days.digits()) }
}

/// A reading is written as its first word and its property, and then its reference.
fn reading(r: &Reading) -> String {
    match r {
        Reading::Lamp(lamp, property) => format!("lamp_{property} {}", reference(lamp)),
        Reading::Group(group, property) => format!("group_{property} {}", reference(group)),
        Reading::Input(input, property) => format!("input_{property} {}", instance(input)),
        Reading::Plain(first, property) => format!("{first}_{property}"),
        Reading::Var(name) => format!("var {}", hex(name)),
    }
}

fn value(v: &Value) -> String {
    match v {
        Value::Literal(number) => format!("literal {number}"),
        Value::Reading(r) => format!("reading {}", reading(r)),
        Value::Offset(r, delta) => format!("offset {} {delta}", reading(r)),
    }
}

fn trigger(t: &Trigger) -> String {
    match t {
        Trigger::InputEvent(s, e) => format!("input_event {} {}", selector(s), event(e)),
        Trigger::InputOccupancy(i, state) => format!("input_occupancy {} {state}", instance(i)),
        Trigger::InputLightCross(i, side, most) => format!("input_light_cross {} {side} {most}", instance(i)),
        Trigger::InputPositionChange(i) => format!("input_position_change {}", instance(i)),
        Trigger::InputDevicePowerCycled(r) => format!("input_device_power_cycled {}", reference(r)),
        Trigger::InputDeviceManualConfigChanged(r) => {
            format!("input_device_manual_config_changed {}", reference(r))
        }
        Trigger::At(Bound::Clock(minutes), days) => format!("at_time {minutes}{}", on(days)),
        Trigger::At(Bound::Solar(s), days) => format!("at_solar {} {}{}", s.event, s.offset, on(days)),
        Trigger::Every(ms) => format!("every {ms}"),
        Trigger::LampTurns(r, state) => format!("lamp_turns {} {state}", reference(r)),
        Trigger::LampLevelCross(r, side, level) => format!("lamp_level_cross {} {side} {level}", reference(r)),
        Trigger::GroupBecomes(r, state) => format!("group_becomes {} {state}", reference(r)),
        Trigger::SceneRecalled { adapter, scene } => format!("scene_recalled {adapter} {scene}"),
        Trigger::DeviceGoesOffline(r) => format!("device_online {} goes_offline", reference(r)),
        Trigger::DeviceComesOnline(r) => format!("device_online {} comes_online", reference(r)),
        Trigger::HclOverride(t, change) => format!("hcl_override {} {change}", target(t)),
        Trigger::TimerFires(name) => format!("timer_fires {}", hex(name)),
        Trigger::ControllerStarts => "controller_starts".to_string(),
        Trigger::ControllerBecomesActive => "controller_becomes_active".to_string(),
        Trigger::RuleFails(name) => format!("rule_fails {}", hex(name)),
        Trigger::Http => "http_trigger".to_string(),
        Trigger::Mqtt(topic) => format!("mqtt {}", hex(topic)),
    }
}

fn condition(c: &Condition) -> String {
    match c {
        Condition::TimeInRange(from, to) => format!("time_in_range {} {}", bound(from), bound(to)),
        Condition::DayIn(days) => format!("day_in {}", days.digits()),
        Condition::SunIs(state) => format!("sun_is {state}"),
        Condition::LampIs(r, state) => format!("lamp_is {} {state}", reference(r)),
        Condition::LampCompare(r, property, cmp, v) => {
            format!("lamp_{property} {} {cmp} {}", reference(r), value(v))
        }
        Condition::GroupState(r, state) => format!("group_state {} {state}", reference(r)),
        Condition::InputOccupancy(i, state) => format!("input_occupancy {} {state}", instance(i)),
        Condition::InputLight(i, side, v) => format!("input_light {} {side} {}", instance(i), value(v)),
        Condition::HclState(t, state) => format!("hcl_state {} {state}", target(t)),
        Condition::DeviceOnline(r) => format!("device_online {}", reference(r)),
        Condition::RuleEnabled(name) => format!("rule_enabled {}", hex(name)),
        Condition::LastFiredOlderThan(name, ms) => format!("last_fired_older_than {} {ms}", hex(name)),
        Condition::TimerRunning(name) => format!("timer_running {}", hex(name)),
        Condition::ControllerActive => "controller_active".to_string(),
        Condition::VarText(name, cmp, text) => format!("var_compare {} {cmp} text {}", hex(name), hex(text)),
        Condition::VarValue(name, cmp, v) => format!("var_compare {} {cmp} value {}", hex(name), value(v)),
    }
}
