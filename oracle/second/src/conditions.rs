//! The forms of a condition.

use crate::lexer::Kind as TokenKind;
use crate::model::Condition;
use crate::reader::{one_of, Read, Reader};
use crate::refusal::Refusal;
use crate::sheet::Kind;

impl<'a> Reader<'a> {
    /// The first word is taken and then compared: 21.
    pub fn condition(&mut self) -> Read<Condition<'a>> {
        let (word, place) = self.any_word()?;
        match word {
            b"controller" => self.expect_words(&["is", "active"]).map(|()| Condition::ControllerActive),
            b"timer" => self.timer_running(),
            b"rule" => self.rule_enabled(),
            b"last_fired" => self.last_fired(),
            b"device" => self.device_online(),
            b"sun" => self.sun_is(),
            b"time" => self.time_in_range(),
            b"group" => self.group_state(),
            b"hcl" => self.hcl_state(),
            b"lamp" => self.lamp_condition(),
            b"input" => self.input_condition(),
            b"var" => self.var_condition(),
            b"day" => self.day_in(),
            _ => Err(Refusal::new(21, place)),
        }
    }

    fn timer_running(&mut self) -> Read<Condition<'a>> {
        let name = self.quoted()?;
        self.expect_words(&["is", "running"])?;
        Ok(Condition::TimerRunning(name))
    }

    fn rule_enabled(&mut self) -> Read<Condition<'a>> {
        let name = self.quoted()?;
        self.expect_words(&["is", "enabled"])?;
        Ok(Condition::RuleEnabled(name))
    }

    fn last_fired(&mut self) -> Read<Condition<'a>> {
        let name = self.quoted()?;
        self.expect_words(&["older", "than"])?;
        let age = self.expect(TokenKind::Duration)?;
        Ok(Condition::LastFiredOlderThan(name, age.number))
    }

    fn device_online(&mut self) -> Read<Condition<'a>> {
        let device = self.reference(Kind::Device)?;
        self.expect_words(&["is", "online"])?;
        Ok(Condition::DeviceOnline(device))
    }

    fn sun_is(&mut self) -> Read<Condition<'a>> {
        self.expect_word("is")?;
        Ok(Condition::SunIs(self.choice(&["up", "down"])?))
    }

    fn time_in_range(&mut self) -> Read<Condition<'a>> {
        self.expect_word("in")?;
        let from = self.bound()?;
        self.expect(TokenKind::Points)?;
        Ok(Condition::TimeInRange(from, self.bound()?))
    }

    /// "`day in` takes one as a condition", document 02 §1. `in` is the one fixed word here: another is 20.
    fn day_in(&mut self) -> Read<Condition<'a>> {
        self.met_days = true;
        self.expect_word("in")?;
        Ok(Condition::DayIn(self.days()?))
    }

    fn group_state(&mut self) -> Read<Condition<'a>> {
        let group = self.reference(Kind::Group)?;
        Ok(Condition::GroupState(group, self.choice(&["any_on", "all_off"])?))
    }

    fn hcl_state(&mut self) -> Read<Condition<'a>> {
        self.expect_word("is")?;
        let state = self.choice(&["enabled", "overridden"])?;
        self.expect_word("for")?;
        Ok(Condition::HclState(self.target()?, state))
    }

    /// "A lamp property in a condition is judged after the comparison and the value."
    fn lamp_condition(&mut self) -> Read<Condition<'a>> {
        let lamp = self.reference(Kind::Lamp)?;
        if self.take_word("is") {
            return Ok(Condition::LampIs(lamp, self.choice(&["on", "off"])?));
        }
        self.expect(TokenKind::Point)?;
        let (word, place) = self.any_word()?;
        let comparison = self.comparison()?;
        let value = self.value()?;
        let property = one_of(word, &["level", "cct"]).ok_or(Refusal::new(21, place))?;
        Ok(Condition::LampCompare(lamp, property, comparison, value))
    }

    /// 30 is asked after `)`. `.light` is a fixed word here: another is 20.
    fn input_condition(&mut self) -> Read<Condition<'a>> {
        let input = self.instance()?;
        if self.take_word("is") {
            return Ok(Condition::InputOccupancy(input, self.choice(&["occupied", "vacant"])?));
        }
        self.expect(TokenKind::Point)?;
        self.expect_word("light")?;
        let side = self.choice(&["above", "below"])?;
        Ok(Condition::InputLight(input, side, self.value()?))
    }

    fn var_condition(&mut self) -> Read<Condition<'a>> {
        let name = self.quoted()?;
        let comparison = self.comparison()?;
        if self.at_kind(TokenKind::String) {
            return Ok(Condition::VarText(name, comparison, self.var_text()?));
        }
        Ok(Condition::VarValue(name, comparison, self.value()?))
    }
}
