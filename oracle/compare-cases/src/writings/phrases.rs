//! What each kind of row is written as: words of the grammar and parts that are taken from the row's words.

/// A part of a phrase; the number is the word of the row at which it begins.
#[derive(Debug, Clone, Copy)]
pub enum Part {
    Say(&'static str),
    /// Adapter and number: R, a scene, and with the key of `input device`.
    Ref(usize),
    Dev(usize),
    /// Adapter, number and instance.
    Input(usize),
    Selector(usize),
    Event(usize),
    Target(usize),
    Clock(usize),
    Solar(usize),
    Bound(usize),
    /// Days that need not be written, and days that must.
    On(usize),
    Days(usize),
    Duration(usize),
    Number(usize),
    /// One of these, by its place from 1 on.
    Word(usize, &'static [&'static str]),
    Name(usize),
    Value(usize),
}

use Part::{Bound, Clock, Days, Dev, Duration, Event, Input, Name, Number, On, Ref, Say, Selector, Solar, Target, Value, Word};

const OCCUPANCY: &[&str] = &["occupied", "vacant"];
const SIDES: &[&str] = &["above", "below"];
const ON_OFF: &[&str] = &["on", "off"];
const GROUP: &[&str] = &["any_on", "all_off"];
const COMPARISONS: &[&str] = &["==", "!=", ">=", "<=", ">", "<"];
pub const SUN: &[&str] = &["sunrise", "sunset"];
pub const WEEK: [&str; 7] = ["mon", "tue", "wed", "thu", "fri", "sat", "sun"];

pub const EVENTS: [&str; 12] = [
    "press", "release", "short_press", "double_press", "long_press_start", "long_press_repeat", "long_press_stop", "button_free", "button_stuck",
    "movement", "no_movement", "any_event",
];

pub type Phrase = &'static [Part];

/// By the kind of trigger, from 1 on.
pub const TRIGGERS: [Phrase; 21] = [
    &[Say("input"), Selector(1), Say("is"), Event(5)],
    &[Say("input"), Input(1), Say("becomes"), Word(4, OCCUPANCY)],
    &[Say("input"), Input(1), Say(". light crosses"), Word(4, SIDES), Number(5)],
    &[Say("input"), Input(1), Say(". position changes")],
    &[Say("input device"), Dev(1), Say("power cycled")],
    &[Say("input device"), Dev(1), Say("manual config changed")],
    &[Say("at"), Clock(1), On(2)],
    &[Say("at"), Solar(1), On(3)],
    &[Say("every"), Duration(1)],
    &[Say("lamp"), Ref(1), Say("turns"), Word(3, ON_OFF)],
    &[Say("lamp"), Ref(1), Say(". level crosses"), Word(3, SIDES), Number(4)],
    &[Say("group"), Ref(1), Say("becomes"), Word(3, GROUP)],
    &[Say("scene"), Ref(1), Say("recalled")],
    &[Say("device"), Ref(1), Word(3, &["goes offline", "comes online"])],
    &[Say("hcl override"), Word(4, &["starts", "clears"]), Say("for"), Target(1)],
    &[Say("timer ("), Name(1), Say(") fires")],
    &[Say("controller starts")],
    &[Say("controller becomes active")],
    &[Say("rule ("), Name(1), Say(") fails")],
    &[Say("http trigger")],
    &[Say("mqtt"), Name(1)],
];

pub const CONDITIONS: [Phrase; 16] = [
    &[Say("time in"), Bound(1), Say(".."), Bound(4)],
    &[Say("sun is"), Word(1, &["up", "down"])],
    &[Say("lamp"), Ref(1), Say("is"), Word(3, ON_OFF)],
    &[Say("lamp"), Ref(1), Say(". level"), Word(3, COMPARISONS), Value(4)],
    &[Say("lamp"), Ref(1), Say(". cct"), Word(3, COMPARISONS), Value(4)],
    &[Say("group"), Ref(1), Word(3, GROUP)],
    &[Say("input"), Input(1), Say("is"), Word(4, OCCUPANCY)],
    &[Say("input"), Input(1), Say(". light"), Word(4, SIDES), Value(5)],
    &[Say("hcl is"), Word(4, &["enabled", "overridden"]), Say("for"), Target(1)],
    &[Say("device"), Ref(1), Say("is online")],
    &[Say("rule ("), Name(1), Say(") is enabled")],
    &[Say("last_fired ("), Name(1), Say(") older than"), Duration(3)],
    &[Say("timer ("), Name(1), Say(") is running")],
    &[Say("controller is active")],
    &[Say("var ("), Name(1), Say(")"), Word(3, COMPARISONS), Value(4)],
    &[Say("day in"), Days(1)],
];

/// By the code of a reading: what stands before its reference and behind it.
pub const READINGS: [(&str, &str); 23] = [
    ("lamp", ". level"), ("lamp", ". cct"), ("lamp", ". is_on"), ("lamp", ". last_level"), ("group", ". any_on"), ("group", ". all_off"),
    ("group", ". member_count"), ("input", ". occupied"), ("input", ". light"), ("input", ". position"), ("input", ". last_event_age"),
    ("time", ". now"), ("time", ". hour"), ("time", ". minute"), ("time", ". weekday"), ("sun", ". rise"), ("sun", ". set"), ("sun", ". is_up"),
    ("event", ". value"), ("event", ". device"), ("event", ". instance"), ("event", ". option"), ("var (", ")"),
];
