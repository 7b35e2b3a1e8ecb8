//! The words of an entry that was read from a text.

use super::{COMPARISONS, GROUP, HCL, NO_TYPE, OCCUPANCY, ON_OFF, OVERRIDE, RAW, READINGS, SIDES, SUN, UP_DOWN};
use crate::model::*;
use crate::triggers::EVENTS;
use cases::{Row, ENTRY};

/// The row of a trigger that was read from this text, the first or the second.
pub fn trigger_row(from: u32, text: &[u8], trigger: &Trigger) -> Row {
    row(from, text, |laid| laid.trigger(trigger))
}

pub fn condition_row(from: u32, text: &[u8], condition: &Condition) -> Row {
    row(from, text, |laid| laid.condition(condition))
}

fn row(from: u32, text: &[u8], lay: impl FnOnce(&mut Laid)) -> Row {
    let mut laid = Laid { words: Vec::with_capacity(ENTRY), text };
    lay(&mut laid);
    laid.words.resize(ENTRY, 0);
    Row { from, words: laid.words.try_into().expect("no entry has more words") }
}

/// Words that are laid down one behind the other, and the text that the names are parts of.
struct Laid<'t> {
    words: Vec<u32>,
    text: &'t [u8],
}

impl Laid<'_> {
    fn put<const N: usize>(&mut self, words: [u32; N]) {
        self.words.extend(words);
    }

    fn code(&mut self, list: &[Choice], choice: Choice) {
        let at = list.iter().position(|&known| known == choice).expect("a choice of the list");
        self.put([at as u32 + 1]);
    }

    fn reference(&mut self, r: &Ref) {
        self.put([r.adapter, r.number]);
    }

    fn instance(&mut self, i: &Instance) {
        self.put([i.device.adapter, i.device.number, i.instance]);
    }

    /// "A range of the text's bytes": where the name itself stands, not another of the same bytes.
    fn name(&mut self, name: &[u8]) {
        let start = name.as_ptr().addr() - self.text.as_ptr().addr();
        self.put([start as u32, name.len() as u32]);
    }

    fn solar(&mut self, solar: &Solar) {
        self.code(SUN, solar.event);
        self.put([solar.offset.cast_unsigned()]);
    }

    fn bound(&mut self, bound: &Bound) {
        match bound {
            Bound::Clock(minutes) => self.put([1, *minutes, 0]),
            Bound::Solar(solar) => {
                self.put([2]);
                self.solar(solar);
            }
        }
    }

    fn target(&mut self, target: &Target) {
        match target {
            Target::Lamp(r) => self.put([1, r.adapter, r.number]),
            Target::Group(r) => self.put([2, r.adapter, r.number]),
            Target::Broadcast(adapter) => self.put([3, *adapter, 0]),
        }
    }

    fn event(&mut self, event: &Event) {
        match event {
            Event::Named(name) => {
                self.code(EVENTS, name);
                self.put([0]);
            }
            Event::Raw(data) => self.put([RAW, *data]),
        }
    }

    fn reading(&mut self, reading: &Reading) {
        let (first, property) = match reading {
            Reading::Lamp(_, property) => ("lamp", *property),
            Reading::Group(_, property) => ("group", *property),
            Reading::Input(_, property) => ("input", *property),
            Reading::Plain(first, property) => (*first, *property),
            Reading::Var(_) => ("var", ""),
        };
        let code = READINGS.iter().position(|known| *known == (first, property)).expect("a reading of the list");
        self.put([code as u32 + 1]);
        let end = self.words.len() + 3;
        match reading {
            Reading::Lamp(r, _) | Reading::Group(r, _) => self.reference(r),
            Reading::Input(i, _) => self.instance(i),
            Reading::Plain(..) => {}
            Reading::Var(name) => self.name(name),
        }
        self.words.resize(end, 0);
    }

    fn number(&mut self, number: i64) {
        let bits = number.cast_unsigned();
        self.put([bits as u32, (bits >> 32) as u32]);
    }

    fn value(&mut self, value: &Value) {
        match value {
            Value::Literal(number) => {
                self.put([1, 0, 0, 0, 0]);
                self.number(*number);
            }
            Value::Reading(reading) => {
                self.put([2]);
                self.reading(reading);
            }
            Value::Offset(reading, number) => {
                self.put([3]);
                self.reading(reading);
                self.number(*number);
            }
        }
    }

    fn trigger(&mut self, trigger: &Trigger) {
        match trigger {
            Trigger::InputEvent(Selector::Instance(i), event) => {
                self.put([1, 1]);
                self.instance(i);
                self.event(event);
            }
            Trigger::InputEvent(Selector::Group { adapter, group, instance_type }, event) => {
                self.put([1, 2, *adapter, *group, instance_type.unwrap_or(NO_TYPE)]);
                self.event(event);
            }
            Trigger::InputOccupancy(i, state) => {
                self.put([2]);
                self.instance(i);
                self.code(OCCUPANCY, state);
            }
            Trigger::InputLightCross(i, side, threshold) => {
                self.put([3]);
                self.instance(i);
                self.code(SIDES, side);
                self.put([*threshold]);
            }
            Trigger::InputPositionChange(i) => {
                self.put([4]);
                self.instance(i);
            }
            Trigger::InputDevicePowerCycled(r) => self.put([5, r.adapter, r.number]),
            Trigger::InputDeviceManualConfigChanged(r) => self.put([6, r.adapter, r.number]),
            Trigger::At(Bound::Clock(minutes), days) => self.put([7, *minutes, days.sum()]),
            Trigger::At(Bound::Solar(solar), days) => {
                self.put([8]);
                self.solar(solar);
                self.put([days.sum()]);
            }
            Trigger::Every(period) => self.put([9, *period]),
            Trigger::LampTurns(r, state) => {
                self.put([10, r.adapter, r.number]);
                self.code(ON_OFF, state);
            }
            Trigger::LampLevelCross(r, side, threshold) => {
                self.put([11, r.adapter, r.number]);
                self.code(SIDES, side);
                self.put([*threshold]);
            }
            Trigger::GroupBecomes(r, state) => {
                self.put([12, r.adapter, r.number]);
                self.code(GROUP, state);
            }
            Trigger::SceneRecalled { adapter, scene } => self.put([13, *adapter, *scene]),
            Trigger::DeviceGoesOffline(r) => self.put([14, r.adapter, r.number, 1]),
            Trigger::DeviceComesOnline(r) => self.put([14, r.adapter, r.number, 2]),
            Trigger::HclOverride(target, change) => {
                self.put([15]);
                self.target(target);
                self.code(OVERRIDE, change);
            }
            Trigger::TimerFires(name) => {
                self.put([16]);
                self.name(name);
            }
            Trigger::ControllerStarts => self.put([17]),
            Trigger::ControllerBecomesActive => self.put([18]),
            Trigger::RuleFails(name) => {
                self.put([19]);
                self.name(name);
            }
            Trigger::Http => self.put([20]),
            Trigger::Mqtt(topic) => {
                self.put([21]);
                self.name(topic);
            }
        }
    }

    fn condition(&mut self, condition: &Condition) {
        match condition {
            Condition::TimeInRange(from, to) => {
                self.put([1]);
                self.bound(from);
                self.bound(to);
            }
            Condition::SunIs(state) => {
                self.put([2]);
                self.code(UP_DOWN, state);
            }
            Condition::LampIs(r, state) => {
                self.put([3, r.adapter, r.number]);
                self.code(ON_OFF, state);
            }
            Condition::LampCompare(r, property, comparison, value) => {
                self.put([if *property == "level" { 4 } else { 5 }, r.adapter, r.number]);
                self.code(COMPARISONS, comparison);
                self.value(value);
            }
            Condition::GroupState(r, state) => {
                self.put([6, r.adapter, r.number]);
                self.code(GROUP, state);
            }
            Condition::InputOccupancy(i, state) => {
                self.put([7]);
                self.instance(i);
                self.code(OCCUPANCY, state);
            }
            Condition::InputLight(i, side, value) => {
                self.put([8]);
                self.instance(i);
                self.code(SIDES, side);
                self.value(value);
            }
            Condition::HclState(target, state) => {
                self.put([9]);
                self.target(target);
                self.code(HCL, state);
            }
            Condition::DeviceOnline(r) => self.put([10, r.adapter, r.number]),
            Condition::RuleEnabled(name) => {
                self.put([11]);
                self.name(name);
            }
            Condition::LastFiredOlderThan(name, age) => {
                self.put([12]);
                self.name(name);
                self.put([*age]);
            }
            Condition::TimerRunning(name) => {
                self.put([13]);
                self.name(name);
            }
            Condition::ControllerActive => self.put([14]),
            Condition::VarText(name, comparison, text) => {
                self.put([15]);
                self.name(name);
                self.code(COMPARISONS, comparison);
                self.put([4]);
                self.name(text);
            }
            Condition::VarValue(name, comparison, value) => {
                self.put([15]);
                self.name(name);
                self.code(COMPARISONS, comparison);
                self.value(value);
            }
            Condition::DayIn(days) => self.put([16, days.sum()]),
        }
    }
}
