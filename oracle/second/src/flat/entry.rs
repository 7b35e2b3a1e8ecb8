//! An entry from the words of a row.

use super::{COMPARISONS, GROUP, HCL, NO_TYPE, OCCUPANCY, ONLINE, ON_OFF, OVERRIDE, RAW, READINGS, SIDES, SUN, UP_DOWN};
use crate::days::Days;
use crate::lexer::MOST_RUN;
use crate::model::*;
use crate::reader::{MOST_NAME, MOST_VAR_TEXT};
use crate::references::{HIGHEST_ADAPTER, HIGHEST_OF_ARGS};
use crate::refusal::Place;
use crate::sheet::Kind;
use crate::topics;
use crate::triggers::{EVENTS, HIGHEST_DATA, HIGHEST_LEVEL, HIGHEST_LIGHT, HIGHEST_SCENE, SHORTEST_PERIOD};
use cases::Row;

const HIGHEST_MINUTE: u32 = 24 * 60 - 1;

/// The words of a row from some place on, and the text in which its names stand. Each part takes its words; nothing comes of words that
/// no text gives.
struct Words<'a, 'w> {
    left: &'w [u32],
    text: &'a [u8],
}

/// The trigger of a row; nothing if "by itself no text could give" it "under any sheet".
pub fn trigger<'a>(row: &Row, texts: [&'a [u8]; 2]) -> Option<Trigger<'a>> {
    whole(row, texts, |words| words.trigger())
}

/// The condition of a row, likewise.
pub fn condition<'a>(row: &Row, texts: [&'a [u8]; 2]) -> Option<Condition<'a>> {
    whole(row, texts, |words| words.condition())
}

/// The kind, the reference and the choice of a trigger about a lamp that turns on or off, a group that becomes any_on or all_off, or a device that goes
/// offline or comes online; nothing for the words of another. The reference is as the words have it, and may be past its bounds.
pub fn named_trigger(row: &Row) -> Option<(Kind, Ref, Choice)> {
    let [kind, adapter, number, code, rest @ ..] = row.words;
    let (kind, choices) = match kind {
        10 => (Kind::Lamp, ON_OFF),
        12 => (Kind::Group, GROUP),
        14 => (Kind::Device, ONLINE),
        _ => return None,
    };
    let choice = *choices.get(usize::try_from(code).ok()?.checked_sub(1)?)?;
    rest.iter().all(|&word| word == 0).then_some((kind, Ref { adapter, number }, choice))
}

/// "FROM (1 or 2: the text in which the entry's names stand)." Words that the entry does not name are 0.
fn whole<'a, T>(row: &Row, [first, second]: [&'a [u8]; 2], entry: impl FnOnce(&mut Words<'a, '_>) -> Option<T>) -> Option<T> {
    let text = match row.from {
        1 => first,
        2 => second,
        _ => return None,
    };
    let mut words = Words { left: &row.words, text };
    let entry = entry(&mut words)?;
    words.left.iter().all(|&word| word == 0).then_some(entry)
}

impl<'a> Words<'a, '_> {
    fn word(&mut self) -> Option<u32> {
        let (word, left) = self.left.split_first()?;
        self.left = left;
        Some(*word)
    }

    fn at_most(&mut self, most: u32) -> Option<u32> {
        self.word().filter(|&word| word <= most)
    }

    fn zeros(&mut self, count: usize) -> Option<()> {
        (0..count).try_for_each(|_| self.at_most(0).map(drop))
    }

    /// One of a list, from 1 on.
    fn code<T: Copy>(&mut self, list: &[T]) -> Option<T> {
        let code = self.word()?.checked_sub(1)?;
        list.get(usize::try_from(code).ok()?).copied()
    }

    fn adapter(&mut self) -> Option<u32> {
        self.at_most(HIGHEST_ADAPTER)
    }

    fn reference(&mut self, kind: Kind) -> Option<Ref> {
        Some(Ref { adapter: self.adapter()?, number: self.at_most(kind.highest())? })
    }

    fn instance(&mut self) -> Option<Instance> {
        Some(Instance { device: self.reference(Kind::Input)?, instance: self.at_most(HIGHEST_OF_ARGS)? })
    }

    /// What can stand between the quotes of a string; "a name outside its text" cannot.
    fn string(&mut self) -> Option<&'a str> {
        let (start, length) = (usize::try_from(self.word()?).ok()?, usize::try_from(self.word()?).ok()?);
        let bytes = self.text.get(start..start.checked_add(length)?)?;
        std::str::from_utf8(bytes).ok().filter(|string| !string.contains(['"', '\n']))
    }

    fn name(&mut self) -> Option<&'a [u8]> {
        self.string().map(str::as_bytes).filter(|name| (1..=MOST_NAME).contains(&name.len()))
    }

    fn topic(&mut self) -> Option<&'a [u8]> {
        self.string().filter(|topic| topics::judge(topic, Place::NONE).is_ok()).map(str::as_bytes)
    }

    fn var_text(&mut self) -> Option<&'a [u8]> {
        self.string().map(str::as_bytes).filter(|text| text.len() <= MOST_VAR_TEXT)
    }

    fn days(&mut self) -> Option<Days> {
        Days::of_sum(self.word()?)
    }

    fn milliseconds(&mut self, least: u32) -> Option<u32> {
        self.word().filter(|&word| word >= least)
    }

    fn minutes(&mut self) -> Option<Bound> {
        self.at_most(HIGHEST_MINUTE).map(Bound::Clock)
    }

    /// SUN OFFSET: "milliseconds, of 32 bits in two's complement".
    fn solar(&mut self) -> Option<Bound> {
        Some(Bound::Solar(Solar { event: self.code(SUN)?, offset: self.word()?.cast_signed() }))
    }

    fn bound(&mut self) -> Option<Bound> {
        match self.word()? {
            1 => {
                let minutes = self.minutes()?;
                self.zeros(1)?;
                Some(minutes)
            }
            2 => self.solar(),
            _ => None,
        }
    }

    fn selector(&mut self) -> Option<Selector> {
        match self.word()? {
            1 => self.instance().map(Selector::Instance),
            2 => Some(Selector::Group { adapter: self.adapter()?, group: self.at_most(HIGHEST_OF_ARGS)?, instance_type: self.instance_type()? }),
            _ => None,
        }
    }

    fn instance_type(&mut self) -> Option<Option<u32>> {
        match self.word()? {
            NO_TYPE => Some(None),
            word => (word <= HIGHEST_OF_ARGS).then_some(Some(word)),
        }
    }

    /// "The data is 0 except for a raw event."
    fn event(&mut self) -> Option<Event> {
        if self.left.first() == Some(&RAW) {
            self.word()?;
            return self.at_most(HIGHEST_DATA).map(Event::Raw);
        }
        let event = self.code(EVENTS)?;
        self.zeros(1)?;
        Some(Event::Named(event))
    }

    fn target(&mut self) -> Option<Target> {
        match self.word()? {
            1 => self.reference(Kind::Lamp).map(Target::Lamp),
            2 => self.reference(Kind::Group).map(Target::Group),
            3 => {
                let adapter = self.adapter()?;
                self.zeros(1)?;
                Some(Target::Broadcast(adapter))
            }
            _ => None,
        }
    }

    /// A reading's code and what stands in a, b and c.
    fn reading(&mut self) -> Option<Reading<'a>> {
        let (first, property) = self.code(&READINGS)?;
        let (reading, rest) = match first {
            "lamp" => (Reading::Lamp(self.reference(Kind::Lamp)?, property), 1),
            "group" => (Reading::Group(self.reference(Kind::Group)?, property), 1),
            "input" => (Reading::Input(self.instance()?, property), 0),
            "var" => (Reading::Var(self.name()?), 1),
            _ => (Reading::Plain(first, property), 3),
        };
        self.zeros(rest)?;
        Some(reading)
    }

    /// Low and high. A number of a text is a digit run, perhaps with a sign before it.
    fn number(&mut self) -> Option<i64> {
        let (low, high) = (u64::from(self.word()?), u64::from(self.word()?));
        let number = (high << 32 | low).cast_signed();
        (number.unsigned_abs() <= MOST_RUN).then_some(number)
    }

    fn value(&mut self) -> Option<Value<'a>> {
        match self.word()? {
            1 => {
                self.zeros(4)?;
                self.number().map(Value::Literal)
            }
            2 => {
                let reading = self.reading()?;
                self.zeros(2)?;
                Some(Value::Reading(reading))
            }
            3 => Some(Value::Offset(self.reading()?, self.number()?)),
            _ => None,
        }
    }

    fn trigger(&mut self) -> Option<Trigger<'a>> {
        Some(match self.word()? {
            1 => Trigger::InputEvent(self.selector()?, self.event()?),
            2 => Trigger::InputOccupancy(self.instance()?, self.code(OCCUPANCY)?),
            3 => Trigger::InputLightCross(self.instance()?, self.code(SIDES)?, self.at_most(HIGHEST_LIGHT)?),
            4 => Trigger::InputPositionChange(self.instance()?),
            5 => Trigger::InputDevicePowerCycled(self.reference(Kind::Input)?),
            6 => Trigger::InputDeviceManualConfigChanged(self.reference(Kind::Input)?),
            7 => Trigger::At(self.minutes()?, self.days()?),
            8 => Trigger::At(self.solar()?, self.days()?),
            9 => Trigger::Every(self.milliseconds(SHORTEST_PERIOD)?),
            10 => Trigger::LampTurns(self.reference(Kind::Lamp)?, self.code(ON_OFF)?),
            11 => Trigger::LampLevelCross(self.reference(Kind::Lamp)?, self.code(SIDES)?, self.at_most(HIGHEST_LEVEL)?),
            12 => Trigger::GroupBecomes(self.reference(Kind::Group)?, self.code(GROUP)?),
            13 => Trigger::SceneRecalled { adapter: self.adapter()?, scene: self.at_most(HIGHEST_SCENE)? },
            14 => {
                let device = self.reference(Kind::Device)?;
                self.code(&[Trigger::DeviceGoesOffline(device), Trigger::DeviceComesOnline(device)])?
            }
            15 => Trigger::HclOverride(self.target()?, self.code(OVERRIDE)?),
            16 => Trigger::TimerFires(self.name()?),
            17 => Trigger::ControllerStarts,
            18 => Trigger::ControllerBecomesActive,
            19 => Trigger::RuleFails(self.name()?),
            20 => Trigger::Http,
            21 => Trigger::Mqtt(self.topic()?),
            _ => return None,
        })
    }

    fn condition(&mut self) -> Option<Condition<'a>> {
        Some(match self.word()? {
            1 => Condition::TimeInRange(self.bound()?, self.bound()?),
            2 => Condition::SunIs(self.code(UP_DOWN)?),
            3 => Condition::LampIs(self.reference(Kind::Lamp)?, self.code(ON_OFF)?),
            4 => Condition::LampCompare(self.reference(Kind::Lamp)?, "level", self.code(COMPARISONS)?, self.value()?),
            5 => Condition::LampCompare(self.reference(Kind::Lamp)?, "cct", self.code(COMPARISONS)?, self.value()?),
            6 => Condition::GroupState(self.reference(Kind::Group)?, self.code(GROUP)?),
            7 => Condition::InputOccupancy(self.instance()?, self.code(OCCUPANCY)?),
            8 => Condition::InputLight(self.instance()?, self.code(SIDES)?, self.value()?),
            9 => Condition::HclState(self.target()?, self.code(HCL)?),
            10 => Condition::DeviceOnline(self.reference(Kind::Device)?),
            11 => Condition::RuleEnabled(self.name()?),
            12 => Condition::LastFiredOlderThan(self.name()?, self.milliseconds(0)?),
            13 => Condition::TimerRunning(self.name()?),
            14 => Condition::ControllerActive,
            15 => self.var_compare()?,
            16 => Condition::DayIn(self.days()?),
            _ => return None,
        })
    }

    /// NAME CMP OPERAND: "a VALUE, or 4, start, length".
    fn var_compare(&mut self) -> Option<Condition<'a>> {
        let (name, comparison) = (self.name()?, self.code(COMPARISONS)?);
        if self.left.first() == Some(&4) {
            self.word()?;
            return Some(Condition::VarText(name, comparison, self.var_text()?));
        }
        Some(Condition::VarValue(name, comparison, self.value()?))
    }
}
