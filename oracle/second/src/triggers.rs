//! The forms of a trigger.

use crate::days::Days;
use crate::lexer::Kind as TokenKind;
use crate::model::{Choice, Event, Trigger};
use crate::reader::{one_of, Read, Reader};
use crate::references::one_instance;
use crate::refusal::{Place, Refusal};
use crate::sheet::Kind;

pub const HIGHEST_SCENE: u32 = 15;
pub const HIGHEST_LEVEL: u32 = 254;
pub const HIGHEST_LIGHT: u32 = 1_023;
pub const HIGHEST_DATA: u32 = 1_023;
pub const SHORTEST_PERIOD: u32 = 1_000;

/// The events that have a word of their own.
pub const EVENTS: &[Choice] = &[
    "press", "release", "short_press", "double_press", "long_press_start", "long_press_repeat", "long_press_stop",
    "button_free", "button_stuck", "movement", "no_movement", "any_event",
];

impl<'a> Reader<'a> {
    /// The first word is taken and then compared: 21.
    pub fn trigger(&mut self) -> Read<Trigger<'a>> {
        let (word, place) = self.any_word()?;
        match word {
            b"timer" => self.timer_fires(),
            b"rule" => self.rule_fails(),
            b"controller" => self.controller_trigger(),
            b"http" => self.expect_word("trigger").map(|()| Trigger::Http),
            b"every" => self.every(),
            b"at" => self.at(),
            b"scene" => self.scene_recalled(),
            b"device" => self.device_trigger(),
            b"group" => self.group_becomes(),
            b"hcl" => self.hcl_override(),
            b"lamp" => self.lamp_trigger(),
            b"input" => self.input_trigger(),
            b"mqtt" => self.mqtt(place),
            _ => Err(Refusal::new(21, place)),
        }
    }

    /// `mqtt` and a quoted topic. "A following `is` stays with 40, at that `is`", and 66 comes after it.
    fn mqtt(&mut self, mqtt: Place) -> Read<Trigger<'a>> {
        let topic = self.topic()?;
        if self.at_word("is") {
            return self.refuse(40);
        }
        self.given.topics.name(topic, mqtt)?;
        Ok(Trigger::Mqtt(topic))
    }

    fn timer_fires(&mut self) -> Read<Trigger<'a>> {
        let name = self.quoted()?;
        self.expect_word("fires")?;
        Ok(Trigger::TimerFires(name))
    }

    fn rule_fails(&mut self) -> Read<Trigger<'a>> {
        let name = self.quoted()?;
        self.expect_word("fails")?;
        Ok(Trigger::RuleFails(name))
    }

    /// `starts`, or `becomes active`; not one of the listed pairs, so that another word is 20.
    fn controller_trigger(&mut self) -> Read<Trigger<'a>> {
        if self.take_word("starts") {
            return Ok(Trigger::ControllerStarts);
        }
        self.expect_words(&["becomes", "active"])?;
        Ok(Trigger::ControllerBecomesActive)
    }

    /// 35, at the duration.
    fn every(&mut self) -> Read<Trigger<'a>> {
        let period = self.expect(TokenKind::Duration)?;
        if period.number < SHORTEST_PERIOD {
            return Err(Refusal::new(35, period.place));
        }
        Ok(Trigger::Every(period.number))
    }

    /// "After `at` and its TIME or SOLAR, `on` takes a day set", document 02 §1.
    fn at(&mut self) -> Read<Trigger<'a>> {
        let bound = self.bound()?;
        if !self.take_word("on") {
            return Ok(Trigger::At(bound, Days::ALL));
        }
        self.met_days = true;
        Ok(Trigger::At(bound, self.days()?))
    }

    /// The scene's number is no id of R: it is judged at once.
    fn scene_recalled(&mut self) -> Read<Trigger<'a>> {
        self.expect(TokenKind::Open)?;
        let scene = self.integer(HIGHEST_SCENE)?;
        let adapter = self.adapter_clause()?;
        self.expect(TokenKind::Close)?;
        self.expect_word("recalled")?;
        Ok(Trigger::SceneRecalled { adapter: self.or_primary(adapter), scene })
    }

    fn device_trigger(&mut self) -> Read<Trigger<'a>> {
        let device = self.reference(Kind::Device)?;
        if self.take_word("goes") {
            self.expect_word("offline")?;
            return Ok(Trigger::DeviceGoesOffline(device));
        }
        self.expect_words(&["comes", "online"])?;
        Ok(Trigger::DeviceComesOnline(device))
    }

    fn group_becomes(&mut self) -> Read<Trigger<'a>> {
        let group = self.reference(Kind::Group)?;
        self.expect_word("becomes")?;
        Ok(Trigger::GroupBecomes(group, self.choice(&["any_on", "all_off"])?))
    }

    fn hcl_override(&mut self) -> Read<Trigger<'a>> {
        self.expect_word("override")?;
        let change = self.choice(&["starts", "clears"])?;
        self.expect_word("for")?;
        Ok(Trigger::HclOverride(self.target()?, change))
    }

    /// `.level` is a fixed word here: another is 20.
    fn lamp_trigger(&mut self) -> Read<Trigger<'a>> {
        let lamp = self.reference(Kind::Lamp)?;
        if self.take_word("turns") {
            return Ok(Trigger::LampTurns(lamp, self.choice(&["on", "off"])?));
        }
        self.expect(TokenKind::Point)?;
        self.expect_words(&["level", "crosses"])?;
        let side = self.choice(&["above", "below"])?;
        Ok(Trigger::LampLevelCross(lamp, side, self.integer(HIGHEST_LEVEL)?))
    }

    /// 30 is asked after `becomes` or `.`.
    fn input_trigger(&mut self) -> Read<Trigger<'a>> {
        if self.take_word("device") {
            return self.input_device_trigger();
        }
        let (selector, open) = self.selector()?;
        if self.take_word("is") {
            return Ok(Trigger::InputEvent(selector, self.event()?));
        }
        if self.take_word("becomes") {
            let input = one_instance(selector, open)?;
            return Ok(Trigger::InputOccupancy(input, self.choice(&["occupied", "vacant"])?));
        }
        self.expect(TokenKind::Point)?;
        let input = one_instance(selector, open)?;
        if self.choice(&["light", "position"])? == "position" {
            self.expect_word("changes")?;
            return Ok(Trigger::InputPositionChange(input));
        }
        self.expect_word("crosses")?;
        let side = self.choice(&["above", "below"])?;
        Ok(Trigger::InputLightCross(input, side, self.integer(HIGHEST_LIGHT)?))
    }

    fn input_device_trigger(&mut self) -> Read<Trigger<'a>> {
        let device = self.input_device()?;
        if self.take_word("power") {
            self.expect_word("cycled")?;
            return Ok(Trigger::InputDevicePowerCycled(device));
        }
        self.expect_words(&["manual", "config", "changed"])?;
        Ok(Trigger::InputDeviceManualConfigChanged(device))
    }

    /// EVENT: any word, taken and then compared.
    fn event(&mut self) -> Read<Event> {
        let (word, place) = self.any_word()?;
        if word == b"event" {
            return self.raw_event();
        }
        one_of(word, EVENTS).map(Event::Named).ok_or(Refusal::new(21, place))
    }

    /// What follows `event`: (data=0..1023).
    fn raw_event(&mut self) -> Read<Event> {
        self.expect(TokenKind::Open)?;
        self.expect_word("data")?;
        self.expect(TokenKind::Assign)?;
        let data = self.integer(HIGHEST_DATA)?;
        self.expect(TokenKind::Close)?;
        Ok(Event::Raw(data))
    }
}
