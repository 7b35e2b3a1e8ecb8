//! What a rule says, with a case for each kind and code of `include/tergyosul.h`.

use crate::{rows, written, Days, Party, Refusal, Rows, Written, ANSWER_WORDS};
use core::fmt;

/// How many triggers a rule has at most, and how many conditions.
pub(crate) const MOST: usize = 4;

/// A rule that was taken: one to four triggers and none to four conditions.
#[derive(Clone, Copy, PartialEq, Eq, Hash)]
pub struct Rule {
    // The entries past a count are HttpTrigger and ControllerActive, as in the library.
    pub(crate) triggers: [Trigger; MOST],
    pub(crate) trigger_count: usize,
    pub(crate) conditions: [Condition; MOST],
    pub(crate) condition_count: usize,
    // The answer that all this is taken from.
    pub(crate) words: [u32; ANSWER_WORDS],
}

impl Rule {
    /// The triggers, in the text's order; each of them sets the rule off.
    pub fn triggers(&self) -> &[Trigger] {
        &self.triggers[..self.trigger_count]
    }

    /// The topics that the triggers name, in the text's order, each as often as it is named. They are parts of the text that
    /// was read. Lent with the calls that follow, they are topics of earlier rules ([`Party::with_topics`]).
    ///
    /// [`Party::with_topics`]: crate::Party::with_topics
    pub fn topics<'a>(&self, text: &'a [u8]) -> impl Iterator<Item = &'a [u8]> + use<'_, 'a> {
        self.triggers().iter().filter_map(|trigger| match trigger {
            Trigger::MqttMessage(topic) => topic.of(text),
            _ => None,
        })
    }

    /// The conditions, in the text's order; all of them must hold.
    pub fn conditions(&self) -> &[Condition] {
        &self.conditions[..self.condition_count]
    }

    /// The words of the rule, as `include/tergyosul.h` lays an answer out: what [`write`](crate::write) and
    /// [`write_rows`](crate::write_rows) take.
    pub fn words(&self) -> &[u32; ANSWER_WORDS] {
        &self.words
    }

    /// The rule written out as [`write`](crate::write) does, with a sheet and for a party; its names are taken from the text
    /// that was read. With the sheet and for the party of that reading it is refused only where a name of the text stands on
    /// an adapter that is not listed, with 56: by a number nothing there can be referred to.
    ///
    /// ```
    /// use tergyosul::Party;
    ///
    /// let text = b"when lamp(\"Till\") turns on when timer(\"Close\") fires if time in 7:05..sunset+1h";
    /// let sheet = b"primary,0\nadapter,1\nlamp,1,7,Till\n";
    /// let party = Party::of_sheet(sheet);
    /// let mut words = [0; tergyosul::TOKEN_WORDS];
    ///
    /// let rule = tergyosul::read(text, sheet, party, &mut words)?;
    /// assert_eq!(
    ///     rule.written(text, sheet, party)?.to_string(),
    ///     "when lamp ( 7 , adapter = 1 ) turns on when timer ( \"Close\" ) fires if time in 07:05 .. sunset + 3600000ms",
    /// );
    ///
    /// // On its own primary adapter a lamp needs no `adapter`; on another one that is not listed it has no text.
    /// let other = b"primary,1\n";
    /// assert!(rule.written(text, other, Party::of_sheet(other))?.starts_with("when lamp ( 7 ) turns on"));
    /// let refusal = rule.written(text, other, party).unwrap_err();
    /// assert_eq!((refusal.number, refusal.line), (56, 1));
    /// # Ok::<(), tergyosul::Refusal>(())
    /// ```
    ///
    /// # Panics
    ///
    /// As [`write`](crate::write).
    pub fn written(&self, text: &[u8], sheet: &[u8], party: Party) -> Result<Written, Refusal> {
        written::kept(&self.words, [text, &[]], sheet, party)
    }

    /// The rule as rows of the previous owners, as [`write_rows`](crate::write_rows) does, with a sheet and for a party.
    /// Only a rule without conditions has any, whose triggers are lamps, groups and devices that the sheet names.
    ///
    /// ```
    /// use tergyosul::{Party, TOKEN_WORDS};
    ///
    /// let sheet = b"primary,0\nadapter,0\nlamp,0,7,Till\n";
    /// let party = Party::of_sheet(sheet);
    /// let read = |text: &[u8]| tergyosul::read(text, sheet, party, &mut [0; TOKEN_WORDS]);
    ///
    /// assert_eq!(read(b"when lamp(7) turns off")?.to_rows(sheet, party)?.as_bytes(), b"lamp,Till,0,off\n");
    ///
    /// let refusal = read(b"when lamp(7) turns off if sun is down")?.to_rows(sheet, party).unwrap_err();
    /// assert_eq!(refusal.to_string(), "entry 2: no rows say such a list (refusal 61)");
    /// # Ok::<(), tergyosul::Refusal>(())
    /// ```
    ///
    /// # Panics
    ///
    /// As [`write_rows`](crate::write_rows).
    pub fn to_rows(&self, sheet: &[u8], party: Party) -> Result<Rows, Refusal> {
        rows::kept(&self.words, sheet, party)
    }
}

impl fmt::Debug for Rule {
    fn fmt(&self, f: &mut fmt::Formatter<'_>) -> fmt::Result {
        f.debug_struct("Rule").field("triggers", &self.triggers()).field("conditions", &self.conditions()).finish()
    }
}

/// A name or other string in a rule: the range of its bytes in the rule text, inside the quotes.
#[derive(Debug, Clone, Copy, PartialEq, Eq, Hash)]
pub struct Name {
    /// The offset of the first byte.
    pub start: u32,
    /// How many bytes there are.
    pub length: u32,
}

impl Name {
    /// The bytes in the text that was read. There are none if another, shorter text is given. A rule's text is UTF-8, and so
    /// is every name in it.
    pub fn of<'a>(&self, text: &'a [u8]) -> Option<&'a [u8]> {
        let start = usize::try_from(self.start).ok()?;
        let length = usize::try_from(self.length).ok()?;
        text.get(start..)?.get(..length)
    }
}

/// What a reference is to, a lamp, a group or a device: an adapter and a number on it.
#[derive(Debug, Clone, Copy, PartialEq, Eq, Hash)]
pub struct Ref {
    /// 0 to 255.
    pub adapter: u32,
    /// 0 to 63; of a group 0 to 15.
    pub number: u32,
}

/// One instance of an input device.
#[derive(Debug, Clone, Copy, PartialEq, Eq, Hash)]
pub struct InputRef {
    /// The input device.
    pub device: Ref,
    /// 0 to 31.
    pub instance: u32,
}

/// What `input(…)` selects.
#[derive(Debug, Clone, Copy, PartialEq, Eq, Hash)]
pub enum Selector {
    /// An instance of an input device.
    Instance(Ref, u32),
    /// A group of instances on an adapter (adapter, group), perhaps of one type. The library has a type `Number` of its own
    /// for that; here it is an `Option`.
    Group(u32, u32, Option<u32>),
}

/// What an HCL override is for.
#[derive(Debug, Clone, Copy, PartialEq, Eq, Hash)]
pub enum LightTarget {
    /// A lamp.
    Lamp(Ref),
    /// A group.
    Group(Ref),
    /// All lamps of an adapter.
    Broadcast(u32),
}

/// Sunrise or sunset.
#[derive(Debug, Clone, Copy, PartialEq, Eq, Hash)]
#[allow(missing_docs)]
pub enum SolarEvent {
    Sunrise,
    Sunset,
}

/// An end of a range of time.
#[derive(Debug, Clone, Copy, PartialEq, Eq, Hash)]
pub enum TimeBound {
    /// A time of day, in minutes since midnight.
    Clock(u32),
    /// A solar event with an offset in milliseconds.
    Solar(SolarEvent, i32),
}

/// What an input says.
#[derive(Debug, Clone, Copy, PartialEq, Eq, Hash)]
#[allow(missing_docs)]
pub enum Event {
    Press,
    Release,
    ShortPress,
    DoublePress,
    LongPressStart,
    LongPressRepeat,
    LongPressStop,
    ButtonFree,
    ButtonStuck,
    Movement,
    NoMovement,
    AnyEvent,
    /// An event with this data, 0 to 1023.
    Raw(u32),
}

/// Whether an input sees somebody.
#[derive(Debug, Clone, Copy, PartialEq, Eq, Hash)]
#[allow(missing_docs)]
pub enum Occupancy {
    Occupied,
    Vacant,
}

/// On which side of a threshold.
#[derive(Debug, Clone, Copy, PartialEq, Eq, Hash)]
#[allow(missing_docs)]
pub enum Crossing {
    Above,
    Below,
}

/// Whether a lamp is on.
#[derive(Debug, Clone, Copy, PartialEq, Eq, Hash)]
#[allow(missing_docs)]
pub enum Power {
    On,
    Off,
}

/// What holds of the lamps of a group.
#[derive(Debug, Clone, Copy, PartialEq, Eq, Hash)]
#[allow(missing_docs)]
pub enum Aggregate {
    AnyOn,
    AllOff,
}

/// How a device changes.
#[derive(Debug, Clone, Copy, PartialEq, Eq, Hash)]
#[allow(missing_docs)]
pub enum Online {
    GoesOffline,
    ComesOnline,
}

/// How an HCL override changes.
#[derive(Debug, Clone, Copy, PartialEq, Eq, Hash)]
#[allow(missing_docs)]
pub enum Override {
    Starts,
    Clears,
}

/// Where the sun is.
#[derive(Debug, Clone, Copy, PartialEq, Eq, Hash)]
#[allow(missing_docs)]
pub enum Sun {
    Up,
    Down,
}

/// What holds of HCL.
#[derive(Debug, Clone, Copy, PartialEq, Eq, Hash)]
#[allow(missing_docs)]
pub enum Hcl {
    Enabled,
    Overridden,
}

/// `==`, `!=`, `>=`, `<=`, `>` and `<`.
#[derive(Debug, Clone, Copy, PartialEq, Eq, Hash)]
#[allow(missing_docs)]
pub enum Comparison {
    Eq,
    Ne,
    Ge,
    Le,
    Gt,
    Lt,
}

/// What is read while the controller runs.
#[derive(Debug, Clone, Copy, PartialEq, Eq, Hash)]
#[allow(missing_docs)]
pub enum Reading {
    LampLevel(Ref),
    LampCct(Ref),
    LampIsOn(Ref),
    LampLastLevel(Ref),
    GroupAnyOn(Ref),
    GroupAllOff(Ref),
    GroupMemberCount(Ref),
    InputOccupied(InputRef),
    InputLight(InputRef),
    InputPosition(InputRef),
    InputLastEventAge(InputRef),
    TimeNow,
    TimeHour,
    TimeMinute,
    TimeWeekday,
    SunRise,
    SunSet,
    SunIsUp,
    EventValue,
    EventDevice,
    EventInstance,
    EventOption,
    Var(Name),
}

/// A number, a reading, or a reading with a number added.
#[derive(Debug, Clone, Copy, PartialEq, Eq, Hash)]
#[allow(missing_docs)]
pub enum Value {
    Literal(i64),
    Reads(Reading),
    Offset(Reading, i64),
}

/// What a var is compared with.
#[derive(Debug, Clone, Copy, PartialEq, Eq, Hash)]
#[allow(missing_docs)]
pub enum Operand {
    /// At most 16 bytes, perhaps none.
    Text(Name),
    Number(Value),
}

/// What sets a rule off.
#[derive(Debug, Clone, Copy, PartialEq, Eq, Hash)]
#[allow(missing_docs)]
pub enum Trigger {
    InputEvent(Selector, Event),
    InputOccupancy(InputRef, Occupancy),
    /// The threshold is 0 to 1023.
    InputLightCross(InputRef, Crossing, u32),
    InputPositionChange(InputRef),
    InputDevicePowerCycled(Ref),
    InputDeviceManualConfigChanged(Ref),
    /// In minutes since midnight, on these days.
    AtTime(u32, Days),
    /// With an offset in milliseconds, on these days.
    AtSolar(SolarEvent, i32, Days),
    /// In milliseconds.
    Every(u32),
    LampTurns(Ref, Power),
    /// The threshold is 0 to 254.
    LampLevelCross(Ref, Crossing, u32),
    GroupBecomes(Ref, Aggregate),
    /// Adapter and scene.
    SceneRecalled(u32, u32),
    DeviceOnline(Ref, Online),
    HclOverride(LightTarget, Override),
    TimerFires(Name),
    ControllerStarts,
    ControllerBecomesActive,
    RuleFails(Name),
    HttpTrigger,
    /// With its topic, of 1 to 48 bytes.
    MqttMessage(Name),
}

/// What must hold for a rule to be carried out.
#[derive(Debug, Clone, Copy, PartialEq, Eq, Hash)]
#[allow(missing_docs)]
pub enum Condition {
    TimeInRange(TimeBound, TimeBound),
    SunIs(Sun),
    LampIs(Ref, Power),
    LampLevel(Ref, Comparison, Value),
    LampCct(Ref, Comparison, Value),
    GroupState(Ref, Aggregate),
    InputOccupancy(InputRef, Occupancy),
    InputLight(InputRef, Crossing, Value),
    HclState(LightTarget, Hcl),
    DeviceOnline(Ref),
    RuleEnabled(Name),
    /// In milliseconds.
    LastFiredOlderThan(Name, u32),
    TimerRunning(Name),
    ControllerActive,
    VarCompare(Name, Comparison, Operand),
    /// The day is one of these.
    DayIn(Days),
}
