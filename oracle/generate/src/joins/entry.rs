//! Triggers and conditions as records: which form, and the values in it. Another entry beside one differs in a single value, or has the same
//! values in another form.

use super::scope::Scope;
use crate::rng::Rng;
use crate::sheet::Kind;
use crate::topics::fits;
use crate::vocabulary::DAYS;

/// A part of a form: fixed words, or what some of the values are written as.
#[derive(Debug, Clone, Copy, PartialEq)]
pub enum Part {
    Say(&'static str),
    /// R, and DEV of `input device`: an adapter and a number.
    Reference(Kind),
    Device,
    /// ARGS: an adapter, a device and an instance; or an adapter, a group and a type.
    Instance,
    Group,
    /// A scene: an adapter and a number.
    Scene,
    Word(&'static [&'static str]),
    Number(i64),
    Duration { least: u32 },
    Time,
    /// Sunrise or sunset, and an offset.
    Solar,
    /// The days of a trigger, which need not be written, and those of a condition.
    OnDays,
    Days,
    Name,
    Topic,
    Text,
    /// A number with a sign, and what may be added to a reading.
    Literal,
    Added,
    /// A value or a reading: an entry itself.
    Value,
}

use Part::{Added, Days, Device, Duration, Group, Instance, Literal, Name, Number, OnDays, Reference, Say, Scene, Solar, Text, Time, Topic, Value, Word};

#[derive(Debug, Clone, PartialEq)]
pub enum Leaf {
    Adapter(u8),
    /// From 0 on.
    Number { value: i64, most: i64 },
    Type(Option<u8>),
    Word { of: &'static [&'static str], word: &'static str },
    Milliseconds { value: u32, least: u32 },
    Minutes(u32),
    Offset(i64),
    Days(u8),
    Name(Vec<u8>),
    Topic(Vec<u8>),
    Text(Vec<u8>),
    Signed(i64),
    Added(Option<i64>),
    Nested(Entry),
}

pub type Form = &'static [Part];

#[derive(Debug, Clone, PartialEq)]
pub struct Entry {
    pub form: Form,
    pub leaves: Vec<Leaf>,
}

const MOST_DATA: i64 = 1_023;
const MOST_LEVEL: i64 = 254;
const MOST_LITERAL: i64 = 1_000_000_000;
pub const EVERY_DAY: u8 = 127;
const SUNS: &[&str] = &["sunrise", "sunset"];
const COMPARISONS: &[&str] = &["==", "!=", ">=", "<=", ">", "<"];
const ON_OFF: &[&str] = &["on", "off"];
const SIDES: &[&str] = &["above", "below"];
const STATES: &[&str] = &["occupied", "vacant"];
const GROUP_STATES: &[&str] = &["any_on", "all_off"];
const EVENTS: &[&str] = &[
    "press", "release", "short_press", "double_press", "long_press_start", "long_press_repeat", "long_press_stop", "button_free", "button_stuck",
    "movement", "no_movement", "any_event",
];

const MQTT: Form = &[Say("mqtt"), Topic];

pub const TRIGGERS: &[Form] = &[
    &[Say("timer ("), Name, Say(") fires")],
    &[Say("rule ("), Name, Say(") fails")],
    &[Say("controller starts")],
    &[Say("controller becomes active")],
    &[Say("http trigger")],
    MQTT,
    &[Say("every"), Duration { least: 1_000 }],
    &[Say("at"), Time, OnDays],
    &[Say("at"), Solar, OnDays],
    &[Say("scene"), Scene, Say("recalled")],
    &[Say("device"), Reference(Kind::Device), Say("goes offline")],
    &[Say("device"), Reference(Kind::Device), Say("comes online")],
    &[Say("group"), Reference(Kind::Group), Say("becomes"), Word(GROUP_STATES)],
    &[Say("hcl override"), Word(&["starts", "clears"]), Say("for lamp"), Reference(Kind::Lamp)],
    &[Say("hcl override"), Word(&["starts", "clears"]), Say("for group"), Reference(Kind::Group)],
    &[Say("hcl override"), Word(&["starts", "clears"]), Say("for broadcast")],
    &[Say("lamp"), Reference(Kind::Lamp), Say("turns"), Word(ON_OFF)],
    &[Say("lamp"), Reference(Kind::Lamp), Say(". level crosses"), Word(SIDES), Number(MOST_LEVEL)],
    &[Say("input device"), Device, Say("power cycled")],
    &[Say("input device"), Device, Say("manual config changed")],
    &[Say("input"), Instance, Say("is"), Word(EVENTS)],
    &[Say("input"), Instance, Say("is event ( data ="), Number(MOST_DATA), Say(")")],
    &[Say("input"), Group, Say("is"), Word(EVENTS)],
    &[Say("input"), Group, Say("is event ( data ="), Number(MOST_DATA), Say(")")],
    &[Say("input"), Instance, Say("becomes"), Word(STATES)],
    &[Say("input"), Instance, Say(". light crosses"), Word(SIDES), Number(MOST_DATA)],
    &[Say("input"), Instance, Say(". position changes")],
];

const VAR_VALUE: Form = &[Say("var ("), Name, Say(")"), Word(COMPARISONS), Value];
const VAR_TEXT: Form = &[Say("var ("), Name, Say(")"), Word(COMPARISONS), Text];

pub const CONDITIONS: &[Form] = &[
    &[Say("controller is active")],
    &[Say("timer ("), Name, Say(") is running")],
    &[Say("rule ("), Name, Say(") is enabled")],
    &[Say("last_fired ("), Name, Say(") older than"), Duration { least: 0 }],
    &[Say("device"), Reference(Kind::Device), Say("is online")],
    &[Say("sun is"), Word(&["up", "down"])],
    &[Say("time in"), Time, Say(".."), Time],
    &[Say("time in"), Time, Say(".."), Solar],
    &[Say("time in"), Solar, Say(".."), Time],
    &[Say("time in"), Solar, Say(".."), Solar],
    &[Say("day in"), Days],
    &[Say("group"), Reference(Kind::Group), Word(GROUP_STATES)],
    &[Say("hcl is"), Word(&["enabled", "overridden"]), Say("for lamp"), Reference(Kind::Lamp)],
    &[Say("hcl is"), Word(&["enabled", "overridden"]), Say("for group"), Reference(Kind::Group)],
    &[Say("hcl is"), Word(&["enabled", "overridden"]), Say("for broadcast")],
    &[Say("lamp"), Reference(Kind::Lamp), Say("is"), Word(ON_OFF)],
    &[Say("lamp"), Reference(Kind::Lamp), Say("."), Word(&["level", "cct"]), Word(COMPARISONS), Value],
    &[Say("input"), Instance, Say("is"), Word(STATES)],
    &[Say("input"), Instance, Say(". light"), Word(SIDES), Value],
    VAR_VALUE,
    VAR_VALUE,
    VAR_TEXT,
];

const NUMBER: Form = &[Literal];

const VALUES: &[Form] = &[
    NUMBER,
    NUMBER,
    &[Say("lamp"), Reference(Kind::Lamp), Say("."), Word(&["level", "cct", "is_on", "last_level"]), Added],
    &[Say("group"), Reference(Kind::Group), Say("."), Word(&["any_on", "all_off", "member_count"]), Added],
    &[Say("input"), Instance, Say("."), Word(&["occupied", "light", "position", "last_event_age"]), Added],
    &[Say("time ."), Word(&["now", "hour", "minute", "weekday"]), Added],
    &[Say("sun ."), Word(&["rise", "set", "is_up"]), Added],
    &[Say("event ."), Word(&["value", "device", "instance", "option"]), Added],
    &[Say("var ("), Name, Say(")"), Added],
];

/// The other forms in the list that a form is of.
fn beside_form(form: Form) -> &'static [Form] {
    [TRIGGERS, CONDITIONS, VALUES].into_iter().find(|list| list.contains(&form)).expect("every form is in a list")
}

impl Entry {
    pub fn of(rng: &mut Rng, scope: &Scope, form: Form) -> Entry {
        let leaves = form.iter().flat_map(|part| leaves(rng, scope, *part)).collect();
        Entry { form, leaves }
    }

    pub fn trigger(rng: &mut Rng, scope: &Scope) -> Entry {
        let form = rng.pick(TRIGGERS);
        Entry::of(rng, scope, form)
    }

    pub fn condition(rng: &mut Rng, scope: &Scope) -> Entry {
        let form = rng.pick(CONDITIONS);
        Entry::of(rng, scope, form)
    }

    /// A condition with a value.
    pub fn with_value(rng: &mut Rng, scope: &Scope) -> Entry {
        let forms: Vec<Form> = CONDITIONS.iter().copied().filter(|form| form.last() == Some(&Value)).collect();
        let form = rng.pick(&forms);
        Entry::of(rng, scope, form)
    }

    pub fn mqtt(topic: Vec<u8>) -> Entry {
        Entry { form: MQTT, leaves: vec![Leaf::Topic(topic)] }
    }

    /// Another entry beside this one.
    pub fn near(&self, rng: &mut Rng, scope: &Scope) -> Entry {
        for _ in 0..20 {
            let found = if self.leaves.is_empty() || rng.once_in(6) { self.in_another_form(rng) } else { self.with_another_value(rng, scope) };
            if let Some(entry) = found.filter(|entry| entry != self) {
                return entry;
            }
        }
        let form = rng.pick(beside_form(self.form));
        Entry::of(rng, scope, form)
    }

    /// The same values in another form; a number in the place of a text with its digits, and the other way round.
    fn in_another_form(&self, rng: &mut Rng) -> Option<Entry> {
        match (self.form, self.leaves.last()) {
            (VAR_VALUE, Some(Leaf::Nested(Entry { leaves, .. }))) => {
                let [Leaf::Signed(number)] = leaves[..] else { return None };
                return Some(self.ending(VAR_TEXT, Leaf::Text(number.to_string().into_bytes())));
            }
            (VAR_TEXT, Some(Leaf::Text(text))) => {
                let number = std::str::from_utf8(text).ok()?.parse().ok().filter(|number| (-MOST_LITERAL..=MOST_LITERAL).contains(number))?;
                return Some(self.ending(VAR_VALUE, Leaf::Nested(Entry { form: NUMBER, leaves: vec![Leaf::Signed(number)] })));
            }
            _ => {}
        }
        let fitting = |form: &Form| *form != self.form && shapes(form) == shapes(self.form);
        let others: Vec<Form> = beside_form(self.form).iter().copied().filter(fitting).collect();
        if others.is_empty() {
            return None;
        }
        let form = rng.pick(&others);
        refitted(form, &self.leaves).map(|leaves| Entry { form, leaves })
    }

    fn ending(&self, form: Form, last: Leaf) -> Entry {
        let (_, front) = self.leaves.split_last().expect("the form has values");
        Entry { form, leaves: [front, &[last]].concat() }
    }

    fn with_another_value(&self, rng: &mut Rng, scope: &Scope) -> Option<Entry> {
        let mut entry = self.clone();
        let nested = self.leaves.iter().position(|leaf| matches!(leaf, Leaf::Nested(_))).filter(|_| rng.once_in(2));
        let at = nested.unwrap_or_else(|| rng.below(self.leaves.len()));
        entry.leaves[at] = another(rng, scope, &self.leaves[at])?;
        Some(entry)
    }
}

/// What values a form takes, as far as another form must take the same.
fn shapes(form: Form) -> Vec<u8> {
    form.iter().flat_map(|part| match part {
        Say(_) => &b""[..],
        Reference(_) | Device | Scene => b"an",
        Instance => b"ann",
        Group => b"ant",
        Word(_) => b"w",
        Number(_) => b"n",
        Duration { .. } => b"m",
        Time => b"c",
        Solar => b"wo",
        OnDays | Days => b"d",
        Name => b"x",
        Topic => b"y",
        Text => b"z",
        Literal => b"l",
        Added => b"p",
        Value => b"v",
    }).copied().collect()
}

/// The values with the bounds and words of this form; nothing if one does not fit in.
fn refitted(form: Form, leaves: &[Leaf]) -> Option<Vec<Leaf>> {
    let mut bounds = form.iter().flat_map(|part| bounds(*part));
    leaves.iter().map(|leaf| match (leaf, bounds.next()) {
        (Leaf::Number { value, .. }, Some(Bound::Most(most))) => (*value <= most).then_some(Leaf::Number { value: *value, most }),
        (Leaf::Word { word, .. }, Some(Bound::Words(of))) => of.iter().find(|known| *known == word).map(|word| Leaf::Word { of, word }),
        (leaf, _) => Some(leaf.clone()),
    }).collect()
}

/// What bounds a value.
#[derive(Clone, Copy)]
enum Bound {
    None,
    Most(i64),
    Words(&'static [&'static str]),
}

fn bounds(part: Part) -> Vec<Bound> {
    match part {
        Say(_) => vec![],
        Reference(kind) => vec![Bound::None, Bound::Most(kind.last() as i64)],
        Device => vec![Bound::None, Bound::Most(63)],
        Instance => vec![Bound::None, Bound::Most(63), Bound::Most(31)],
        Group => vec![Bound::None, Bound::Most(31), Bound::None],
        Scene => vec![Bound::None, Bound::Most(15)],
        Word(of) => vec![Bound::Words(of)],
        Number(most) => vec![Bound::Most(most)],
        Solar => vec![Bound::Words(SUNS), Bound::None],
        _ => vec![Bound::None],
    }
}

fn number(rng: &mut Rng, most: i64) -> Leaf {
    let value = match rng.below(4) {
        0 => rng.pick(&[0, 1, most]),
        _ => rng.below(most as usize + 1) as i64,
    };
    Leaf::Number { value, most }
}

/// An adapter and a number of a kind; often those of a row.
fn reference(rng: &mut Rng, scope: &Scope, kind: Kind) -> Vec<Leaf> {
    let rows: Vec<(u8, usize)> = scope.rows(kind).map(|row| (row.adapter, row.number)).collect();
    let most = kind.last() as i64;
    if !rows.is_empty() && !rng.once_in(3) {
        let (adapter, number) = rng.pick(&rows);
        return vec![Leaf::Adapter(adapter), Leaf::Number { value: number as i64, most }];
    }
    vec![scope.adapter(rng), number(rng, most)]
}

fn word(rng: &mut Rng, of: &'static [&'static str]) -> Leaf {
    Leaf::Word { of, word: rng.pick(of) }
}

fn milliseconds(rng: &mut Rng, least: u32) -> Leaf {
    let value = match rng.below(6) {
        0 => rng.pick(&[1_000, 1_001, 4_294_967_295, 1_000_000_000, 1_000_000_001, 3_600_000]),
        1 => rng.below(100_000) as u32,
        2 => 3_600_000 * rng.within(1, 24) as u32,
        3 => 60_000 * rng.within(1, 600) as u32,
        4 => 1_000 * rng.within(1, 5_000) as u32,
        _ => rng.next() as u32,
    };
    Leaf::Milliseconds { value: value.max(least), least }
}

fn offset(rng: &mut Rng) -> Leaf {
    Leaf::Offset(match rng.below(6) {
        0..=2 => 0,
        3 => i64::from(rng.pick(&[i32::MIN, i32::MAX, -1, 1])),
        _ => (rng.below(48) as i64 - 24) * 300_000,
    })
}

fn signed(rng: &mut Rng) -> i64 {
    match rng.below(4) {
        0 => 0,
        1 => rng.pick(&[1, -1, MOST_LITERAL, -MOST_LITERAL]),
        _ => rng.below(600) as i64 - 300,
    }
}

/// The values that a part stands for.
fn leaves(rng: &mut Rng, scope: &Scope, part: Part) -> Vec<Leaf> {
    match part {
        Say(_) => vec![],
        Reference(kind) => reference(rng, scope, kind),
        Device => reference(rng, scope, Kind::Input),
        Instance => { let mut device = reference(rng, scope, Kind::Input); device.push(number(rng, 31)); device }
        Group => vec![scope.adapter(rng), number(rng, 31), Leaf::Type(any_type(rng))],
        Scene => vec![scope.adapter(rng), number(rng, 15)],
        Word(of) => vec![word(rng, of)],
        Number(most) => vec![number(rng, most)],
        Duration { least } => vec![milliseconds(rng, least)],
        Time => vec![Leaf::Minutes(rng.below(1_440) as u32)],
        Solar => vec![word(rng, SUNS), offset(rng)],
        OnDays if rng.once_in(2) => vec![Leaf::Days(EVERY_DAY)],
        OnDays | Days => vec![Leaf::Days(rng.within(1, EVERY_DAY.into()) as u8)],
        Name => vec![Leaf::Name(scope.name(rng))],
        Topic => vec![Leaf::Topic(scope.topic(rng))],
        Text => vec![Leaf::Text(scope.text(rng))],
        Literal => vec![Leaf::Signed(signed(rng))],
        Added if rng.once_in(2) => vec![Leaf::Added(Some(signed(rng)))],
        Added => vec![Leaf::Added(None)],
        Value => { let form = rng.pick(VALUES); vec![Leaf::Nested(Entry::of(rng, scope, form))] }
    }
}

fn any_type(rng: &mut Rng) -> Option<u8> {
    if rng.once_in(2) { None } else { Some(rng.pick(&[0, 1, 2, 3, 4, 5, 31])) }
}

/// A number near another one: beside it, or with one bit changed, within its bounds.
fn near_number(rng: &mut Rng, value: i64, least: i64, most: i64) -> i64 {
    let changed = match rng.below(5) {
        0 => value + 1,
        1 => value - 1,
        2 => value ^ (1 << rng.below(33)),
        3 => value ^ (1 << rng.below(6)),
        _ => -value,
    };
    if (least..=most).contains(&changed) { changed } else if value < most { value + 1 } else { value - 1 }
}

/// Another value in the place of this one; nothing where there is no other.
fn another(rng: &mut Rng, scope: &Scope, leaf: &Leaf) -> Option<Leaf> {
    Some(match leaf {
        Leaf::Adapter(_) => scope.adapter(rng),
        Leaf::Number { value, most } => Leaf::Number { value: near_number(rng, *value, 0, *most), most: *most },
        Leaf::Type(None) => Leaf::Type(Some(rng.pick(&[0, 0, 1, 31]))),
        Leaf::Type(Some(0)) => Leaf::Type(None),
        Leaf::Type(Some(_)) => Leaf::Type(any_type(rng)),
        Leaf::Word { of, .. } => word(rng, of),
        Leaf::Milliseconds { value, least } => {
            let value = near_number(rng, (*value).into(), (*least).into(), u32::MAX.into());
            Leaf::Milliseconds { value: u32::try_from(value).ok()?, least: *least }
        }
        Leaf::Minutes(value) => Leaf::Minutes(u32::try_from(near_number(rng, (*value).into(), 0, 1_439)).ok()?),
        Leaf::Offset(value) => Leaf::Offset(near_number(rng, *value, i32::MIN.into(), i32::MAX.into())),
        Leaf::Days(days) => Leaf::Days(Some(days ^ 1 << rng.below(DAYS.len())).filter(|days| *days > 0)?),
        Leaf::Name(name) => Leaf::Name(near_string(rng, name, 1, 48)?),
        Leaf::Topic(topic) => Leaf::Topic(near_string(rng, topic, 1, 48).filter(|topic| fits(topic))?),
        Leaf::Text(text) => Leaf::Text(near_string(rng, text, 0, 16)?),
        Leaf::Signed(value) => Leaf::Signed(near_number(rng, *value, -MOST_LITERAL, MOST_LITERAL)),
        Leaf::Added(None) => Leaf::Added(Some(rng.pick(&[0, 0, 1, -1]))),
        Leaf::Added(Some(0)) => Leaf::Added(None),
        Leaf::Added(Some(value)) => Leaf::Added(Some(near_number(rng, *value, -MOST_LITERAL, MOST_LITERAL))),
        Leaf::Nested(entry) => Leaf::Nested(entry.near(rng, scope)),
    })
}

/// A string with one character changed, put in, put behind or left out, of so many bytes.
pub fn near_string(rng: &mut Rng, string: &[u8], least: usize, most: usize) -> Option<Vec<u8>> {
    let mut characters: Vec<char> = std::str::from_utf8(string).ok()?.chars().collect();
    let at = rng.below(characters.len() + 1);
    match (rng.below(6), characters.get_mut(at)) {
        (0..=2, Some(c)) => *c = same_length(rng, *c)?,
        (3, Some(_)) => drop(characters.remove(at)),
        (4, _) => characters.push(rng.pick(&['a', ' ', '\0', '\u{e9}'])),
        _ => characters.insert(at, rng.pick(&['a', 'b', ' '])),
    }
    let string = String::from_iter(characters).into_bytes();
    Some(string).filter(|string| (least..=most).contains(&string.len()))
}

/// Another character of as many bytes: the neighbour, or of the other case.
pub fn same_length(rng: &mut Rng, c: char) -> Option<char> {
    let other = if c.is_ascii_alphabetic() && rng.once_in(2) { char::from(c as u8 ^ 0x20) } else { char::from_u32(u32::from(c) ^ 1)? };
    Some(other).filter(|other| other.len_utf8() == c.len_utf8() && !matches!(other, '"' | '\n'))
}
