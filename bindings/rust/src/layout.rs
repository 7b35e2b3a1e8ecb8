//! An answer's words as types: the layout of `include/tergyosul.h`, nine rows of twelve.
//!
//! Every code is looked up, so that no word can make a value outside the types. The proved library gives no other code; if
//! one comes, another library was linked, and the reading stops with a panic.

use crate::rule::*;
use crate::{Days, JoinRefusal, Joined, Refusal, Text, ANSWER_WORDS};

const ROW: usize = 12;
const FIRST_TRIGGER: usize = 1;
const FIRST_CONDITION: usize = 5;
const NO_TYPE: u32 = u32::MAX;
/// Where in row 0 an answer of joining says which text it speaks of; the text of each trigger follows, then that of the
/// conditions.
pub const WHICH: usize = 6;

#[cold]
pub fn broken() -> ! {
    panic!("the answer does not follow its layout")
}

/// An adapter that stands alone.
pub fn adapter(word: u32) -> u8 {
    u8::try_from(word).unwrap_or_else(|_| broken())
}

/// The rule, or the refusal, that an answer has.
pub fn rule(answer: &[u32; ANSWER_WORDS]) -> Result<Rule, Refusal> {
    let mut head = Words::of_row(answer, 0);
    let refusal = Refusal { number: head.word(), line: head.word(), column: head.word(), detail: head.word() };
    if refusal.number != 0 {
        return Err(refusal);
    }
    let mut rule = Rule {
        triggers: [Trigger::HttpTrigger; MOST],
        trigger_count: head.count(),
        conditions: [Condition::ControllerActive; MOST],
        condition_count: head.count(),
        words: *answer,
    };
    for (i, trigger) in rule.triggers.iter_mut().enumerate().take(rule.trigger_count) {
        *trigger = Words::of_row(answer, FIRST_TRIGGER + i).trigger();
    }
    for (i, condition) in rule.conditions.iter_mut().enumerate().take(rule.condition_count) {
        *condition = Words::of_row(answer, FIRST_CONDITION + i).condition();
    }
    Ok(rule)
}

/// The joined rule, or the refusal and the text that is refused, that an answer of joining has.
pub fn joined(answer: &[u32; ANSWER_WORDS]) -> Result<Joined, JoinRefusal> {
    let mut origins = Words { left: answer[WHICH..ROW].iter() };
    let text = origins.text();
    let rule = rule(answer).map_err(|refusal| JoinRefusal { text, refusal })?;
    let mut from = [Text::First; MOST];
    for (i, from) in from.iter_mut().enumerate() {
        match origins.text() {
            Some(text) if i < rule.trigger_count => *from = text,
            None if i >= rule.trigger_count => {}
            _ => broken(),
        }
    }
    match (text, origins.text(), rule.condition_count) {
        (None, None, 0) | (None, Some(Text::First), 1..) => Ok(Joined { rule, from }),
        _ => broken(),
    }
}

/// The words of a row that are not taken yet, from the left.
struct Words<'a> {
    left: core::slice::Iter<'a, u32>,
}

impl<'a> Words<'a> {
    fn of_row(answer: &'a [u32; ANSWER_WORDS], row: usize) -> Words<'a> {
        Words { left: answer[ROW * row..ROW * (row + 1)].iter() }
    }

    fn word(&mut self) -> u32 {
        match self.left.next() {
            Some(word) => *word,
            None => broken(),
        }
    }

    /// A count of entries.
    fn count(&mut self) -> usize {
        match usize::try_from(self.word()) {
            Ok(count) if count <= MOST => count,
            _ => broken(),
        }
    }

    /// One of two texts, or 0 for none.
    fn text(&mut self) -> Option<Text> {
        match self.word() {
            0 => None,
            1 => Some(Text::First),
            2 => Some(Text::Second),
            _ => broken(),
        }
    }

    /// One of the choices, by its number from 1 on.
    fn choice<T: Copy>(&mut self, choices: &[T]) -> T {
        let at = usize::try_from(self.word()).ok().and_then(|code| code.checked_sub(1));
        match at.and_then(|at| choices.get(at)) {
            Some(choice) => *choice,
            None => broken(),
        }
    }

    /// 32 bits in two's complement.
    fn signed(&mut self) -> i32 {
        self.word() as i32
    }

    /// 64 bits in two's complement, the low word first.
    fn long(&mut self) -> i64 {
        let low = u64::from(self.word());
        let high = u64::from(self.word());
        (high << 32 | low) as i64
    }

    fn reference(&mut self) -> Ref {
        Ref { adapter: self.word(), number: self.word() }
    }

    fn input(&mut self) -> InputRef {
        InputRef { device: self.reference(), instance: self.word() }
    }

    fn name(&mut self) -> Name {
        Name { start: self.word(), length: self.word() }
    }

    fn selector(&mut self) -> Selector {
        match self.word() {
            1 => Selector::Instance(self.reference(), self.word()),
            2 => Selector::Group(self.word(), self.word(), Some(self.word()).filter(|&of| of != NO_TYPE)),
            _ => broken(),
        }
    }

    fn event(&mut self) -> Event {
        let code = self.word();
        let data = self.word();
        match code {
            1 => Event::Press,
            2 => Event::Release,
            3 => Event::ShortPress,
            4 => Event::DoublePress,
            5 => Event::LongPressStart,
            6 => Event::LongPressRepeat,
            7 => Event::LongPressStop,
            8 => Event::ButtonFree,
            9 => Event::ButtonStuck,
            10 => Event::Movement,
            11 => Event::NoMovement,
            12 => Event::AnyEvent,
            13 => Event::Raw(data),
            _ => broken(),
        }
    }

    fn target(&mut self) -> LightTarget {
        let kind = self.word();
        let at = self.reference();
        match kind {
            1 => LightTarget::Lamp(at),
            2 => LightTarget::Group(at),
            3 => LightTarget::Broadcast(at.adapter),
            _ => broken(),
        }
    }

    fn solar_event(&mut self) -> SolarEvent {
        self.choice(&[SolarEvent::Sunrise, SolarEvent::Sunset])
    }

    /// Three words, also for a time of day.
    fn bound(&mut self) -> TimeBound {
        match self.word() {
            1 => {
                let minutes = self.word();
                self.word();
                TimeBound::Clock(minutes)
            }
            2 => TimeBound::Solar(self.solar_event(), self.signed()),
            _ => broken(),
        }
    }

    /// One day at least.
    fn days(&mut self) -> Days {
        Days::of_sum(self.word()).unwrap_or_else(|| broken())
    }

    fn crossing(&mut self) -> Crossing {
        self.choice(&[Crossing::Above, Crossing::Below])
    }

    fn occupancy(&mut self) -> Occupancy {
        self.choice(&[Occupancy::Occupied, Occupancy::Vacant])
    }

    fn power(&mut self) -> Power {
        self.choice(&[Power::On, Power::Off])
    }

    fn aggregate(&mut self) -> Aggregate {
        self.choice(&[Aggregate::AnyOn, Aggregate::AllOff])
    }

    fn comparison(&mut self) -> Comparison {
        use Comparison::{Eq, Ge, Gt, Le, Lt, Ne};
        self.choice(&[Eq, Ne, Ge, Le, Gt, Lt])
    }

    /// Four words: the code, and a, b and c, of which a reading uses the first ones.
    fn reading(&mut self) -> Reading {
        let code = self.word();
        let [a, b, c] = [self.word(), self.word(), self.word()];
        let of = Ref { adapter: a, number: b };
        let input = InputRef { device: of, instance: c };
        match code {
            1 => Reading::LampLevel(of),
            2 => Reading::LampCct(of),
            3 => Reading::LampIsOn(of),
            4 => Reading::LampLastLevel(of),
            5 => Reading::GroupAnyOn(of),
            6 => Reading::GroupAllOff(of),
            7 => Reading::GroupMemberCount(of),
            8 => Reading::InputOccupied(input),
            9 => Reading::InputLight(input),
            10 => Reading::InputPosition(input),
            11 => Reading::InputLastEventAge(input),
            12 => Reading::TimeNow,
            13 => Reading::TimeHour,
            14 => Reading::TimeMinute,
            15 => Reading::TimeWeekday,
            16 => Reading::SunRise,
            17 => Reading::SunSet,
            18 => Reading::SunIsUp,
            19 => Reading::EventValue,
            20 => Reading::EventDevice,
            21 => Reading::EventInstance,
            22 => Reading::EventOption,
            23 => Reading::Var(Name { start: a, length: b }),
            _ => broken(),
        }
    }

    fn value(&mut self) -> Value {
        let kind = self.word();
        self.value_of(kind)
    }

    /// A value behind its kind: a number has no reading, but its words are there.
    fn value_of(&mut self, kind: u32) -> Value {
        match kind {
            1 => {
                for _ in 0..4 {
                    self.word();
                }
                Value::Literal(self.long())
            }
            2 => Value::Reads(self.reading()),
            3 => Value::Offset(self.reading(), self.long()),
            _ => broken(),
        }
    }

    fn operand(&mut self) -> Operand {
        match self.word() {
            4 => Operand::Text(self.name()),
            kind => Operand::Number(self.value_of(kind)),
        }
    }

    fn trigger(&mut self) -> Trigger {
        match self.word() {
            1 => Trigger::InputEvent(self.selector(), self.event()),
            2 => Trigger::InputOccupancy(self.input(), self.occupancy()),
            3 => Trigger::InputLightCross(self.input(), self.crossing(), self.word()),
            4 => Trigger::InputPositionChange(self.input()),
            5 => Trigger::InputDevicePowerCycled(self.reference()),
            6 => Trigger::InputDeviceManualConfigChanged(self.reference()),
            7 => Trigger::AtTime(self.word(), self.days()),
            8 => Trigger::AtSolar(self.solar_event(), self.signed(), self.days()),
            9 => Trigger::Every(self.word()),
            10 => Trigger::LampTurns(self.reference(), self.power()),
            11 => Trigger::LampLevelCross(self.reference(), self.crossing(), self.word()),
            12 => Trigger::GroupBecomes(self.reference(), self.aggregate()),
            13 => Trigger::SceneRecalled(self.word(), self.word()),
            14 => Trigger::DeviceOnline(self.reference(), self.choice(&[Online::GoesOffline, Online::ComesOnline])),
            15 => Trigger::HclOverride(self.target(), self.choice(&[Override::Starts, Override::Clears])),
            16 => Trigger::TimerFires(self.name()),
            17 => Trigger::ControllerStarts,
            18 => Trigger::ControllerBecomesActive,
            19 => Trigger::RuleFails(self.name()),
            20 => Trigger::HttpTrigger,
            21 => Trigger::MqttMessage(self.name()),
            _ => broken(),
        }
    }

    fn condition(&mut self) -> Condition {
        match self.word() {
            1 => Condition::TimeInRange(self.bound(), self.bound()),
            2 => Condition::SunIs(self.choice(&[Sun::Up, Sun::Down])),
            3 => Condition::LampIs(self.reference(), self.power()),
            4 => Condition::LampLevel(self.reference(), self.comparison(), self.value()),
            5 => Condition::LampCct(self.reference(), self.comparison(), self.value()),
            6 => Condition::GroupState(self.reference(), self.aggregate()),
            7 => Condition::InputOccupancy(self.input(), self.occupancy()),
            8 => Condition::InputLight(self.input(), self.crossing(), self.value()),
            9 => Condition::HclState(self.target(), self.choice(&[Hcl::Enabled, Hcl::Overridden])),
            10 => Condition::DeviceOnline(self.reference()),
            11 => Condition::RuleEnabled(self.name()),
            12 => Condition::LastFiredOlderThan(self.name(), self.word()),
            13 => Condition::TimerRunning(self.name()),
            14 => Condition::ControllerActive,
            15 => Condition::VarCompare(self.name(), self.comparison(), self.operand()),
            16 => Condition::DayIn(self.days()),
            _ => broken(),
        }
    }
}
