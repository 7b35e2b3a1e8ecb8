//! Every sequence of a few pieces, over small vocabularies and behind fixed beginnings, so that whole triggers,
//! conditions, arguments and readings come up with all their near misses.

use cases::{Case, Habit, LEAST_WORDS};

/// What the pieces make up.
#[derive(Clone, Copy, PartialEq)]
enum Place {
    Text,
    /// A sheet, which is given with this text.
    Sheet(&'static str),
    /// Lent topics, which are given with this text.
    Topics(&'static str),
}

/// One family of sequences. `most` bounds their length, since a wide vocabulary soon gives too many.
struct Run {
    place: Place,
    /// Without a party: a `case` line for the archive habit, a `call` line for another.
    habit: Habit,
    /// The party and the primary of a `call` line, for texts with the shared sheet.
    call: Option<(u8, u8)>,
    /// The topics that are lent with texts; with any it is a `call` line.
    lent: &'static [u8],
    prefix: &'static [u8],
    glue: &'static [u8],
    vocabulary: &'static [&'static [u8]],
    suffix: &'static [u8],
    most: usize,
}

macro_rules! pieces {
    ($($piece:expr),* $(,)?) => { &[$($piece.as_bytes()),*] };
}

macro_rules! text {
    ($prefix:expr, $suffix:expr, $most:expr, $vocabulary:expr) => {
        text!(Habit::Archive, $prefix, $suffix, $most, $vocabulary)
    };
    ($habit:expr, $prefix:expr, $suffix:expr, $most:expr, $vocabulary:expr) => {
        Run {
            place: Place::Text,
            habit: $habit,
            call: None,
            lent: b"",
            prefix: $prefix.as_bytes(),
            glue: b" ",
            vocabulary: $vocabulary,
            suffix: $suffix.as_bytes(),
            most: $most,
        }
    };
}

macro_rules! sheet {
    ($call:expr, $text:expr, $prefix:expr, $most:expr, $vocabulary:expr) => {
        Run {
            place: Place::Sheet($text),
            habit: Habit::Archive,
            call: $call,
            lent: b"",
            prefix: $prefix.as_bytes(),
            glue: b"",
            vocabulary: $vocabulary,
            suffix: b"",
            most: $most,
        }
    };
}

macro_rules! topics {
    ($habit:expr, $text:expr, $prefix:expr, $most:expr, $vocabulary:expr) => {
        Run { place: Place::Topics($text), glue: b"", ..text!($habit, $prefix, "", $most, $vocabulary) }
    };
}

/// The sheet of every run that is about neither sheets nor parties: names with one row, with two on one adapter and on two, and an
/// adapter that is not listed.
const SHEET: &[u8] = b"primary,0\nadapter,0\nadapter,1\nlamp,0,4,a\nlamp,1,4,a\nlamp,1,7,b\nlamp,2,8,c\nlamp,0,1,d\n\
lamp,0,2,d\ngroup,0,3,a\ngroup,0,3,a\ngroup,1,15,b\ninput,0,5,a\ninput,1,6,a\ninput,1,9,b\ndevice,0,63,a\n";

/// A sheet of two parties, with names on one side, on both, and twice.
const SHARED: &[u8] = b"primary,0\nadapter,0\nadapter,1\nlamp,2,5,a\nadapter,2\nparty,2,7\nparty,1,7\nlamp,0,4,a\nlamp,1,6,b\n\
lamp,2,7,b\nlamp,0,8,c\nlamp,0,1,d\nlamp,0,2,d\nlamp,1,3,d\n";
const REFERENCES: &[&[u8]] = pieces!["\"a\"", "\"b\"", "\"c\"", "\"d\"", "64", ", adapter=0", ", adapter=1", ", adapter=2",
    ") turns on when lamp("];

/// The text of the runs about sheets.
const NAMED: &str = "when lamp(\"b\") turns on";
const WITH_COMMA: &str = "when lamp(\"b, c\") turns on";
const NAMED_ON_1: &str = "when lamp(\"b\", adapter=1) turns on";
const PARTY_ROWS: &[&[u8]] = pieces!["party,1,7\n", "party,1,0\n", "party,0,7\n", "party,0,0\n", "adapter,0\n", "adapter,1\n",
    "lamp,0,1,b\n", "lamp,1,2,b\n"];

const WIDE: &[&[u8]] = pieces![
    "when", "if", "and", "timer", "fires", "rule", "fails", "controller", "starts", "becomes", "active", "http",
    "trigger", "every", "at", "scene", "recalled", "adapter", "device", "goes", "offline", "comes", "online", "group",
    "any_on", "all_off", "hcl", "override", "clears", "for", "lamp", "turns", "on", "off", "level", "crosses", "above",
    "below", "input", "power", "cycled", "manual", "config", "changed", "is", "dev", "inst", "type", "button",
    "occupied", "vacant", "position", "changes", "press", "event", "data", "sunrise", "sunset", "broadcast", "running",
    "enabled", "last_fired", "older", "than", "sun", "up", "down", "time", "in", "overridden", "cct", "var", "value",
    "mqtt", "day", "mon", "(", ")", "{", "}", ",", ".", "..", "=", "==", "!=", ">=", "<=", ">", "<", "+", "-", "0", "64",
    "7:05", "5s", "1.5", "\"a\"", "\"\"", "(1)", "(\"a\")", "(1,2)", "@",
];

const ARGUMENT_PARTS: &[&[u8]] = pieces!["dev", "inst", "group", "type", "=", ",", "1", "32", "\"a\""];
const ARGUMENTS: &[&[u8]] = pieces!["dev=64", "dev=\"b\"", "dev=\"\"", "inst=1", "inst=32", "group=2", "group=32", "type=button",
    "type=foo", "adapter=1", "adapter=2", ",", "3", "\"a\"", "foo=1"];

const DEVICE_PARTS: &[&[u8]] = pieces!["dev", "=", "1", "64", "\"a\"", "\"b\"", ",", "adapter", ")"];
const OVERRIDE_PARTS: &[&[u8]] = pieces!["starts", "clears", "for", "lamp", "group", "broadcast", "(", "1", "\"b\"", ")"];
const COMPARED_PARTS: &[&[u8]] = pieces!["==", "!=", "\"x\"", "\"12345678901234567\"", "5", "-", "+", ".", "event", "value", "input(1,2)",
    "light", "var(\"w\")"];

/// What a shop call takes and what not, in whole triggers and conditions.
const PROFILE_PARTS: &[&[u8]] = pieces!["when lamp(\"b\") turns on", "when lamp(5) turns on", "when scene(5) recalled", "when input(inst=1, 5) is press",
    "when input(\"b\", 5) is event(data=5)", "when input(group=5) is press", "when hcl override starts for broadcast",
    "when input(5, dev=\"b\", inst=1) is press", "if lamp(\"b\").level > event.value", "if hcl is enabled for broadcast",
    "if device(5) is online", "and var(\"v\") == event.device", "and group(\"b\") any_on", "and lamp(5) is on", "foo"];
const PROFILE_CONDITIONS: &[&[u8]] = pieces!["lamp(\"b\")", "lamp(5)", "lamp(64)", "group(5)", "device(\"a\")", "device(5)", "input(\"b\", 1)", "input(5, 1)",
    "hcl is enabled for", "broadcast", "is on", "any_on", "is online", "is occupied", ".light above 5", ".level >", "event.option", "lamp(5).level",
    "var(\"v\") ==", "and"];

/// What sets of days are made of, and what may stand among or behind it.
const DAY_PARTS: &[&[u8]] = pieces!["mon", "fri", "sun", "foo", "..", ".", ",", "5", "\"mon\"", "on", "when", "if sun is up"];
const EVERY_DAY: &[&[u8]] = pieces!["mon", "tue", "wed", "thu", "fri", "sat", "sun", "..", ","];

/// Lent topics: five, seven and eight.
const FIVE: &[u8] = b"1\n2\n3\n4\n5";
const SEVEN: &[u8] = b"1\n2\n3\n4\n5\n6\n7\n";
const EIGHT: &[u8] = b"1\n2\n3\n4\n5\n6\n7\n8";
const TWO_TOPICS: &str = "when mqtt \"a\" when mqtt \"b\"";
const TOPIC_TRIGGERS: &[&[u8]] = pieces!["when mqtt \"a\"", "when mqtt \"b\"", "when mqtt \"c\"", "when mqtt \"d\"", "when mqtt \"5\"",
    "when http trigger", "is \"p\"", "if sun is up", "foo"];
const BEHIND_MQTT: &[&[u8]] = pieces!["\"a\"", "\"7\"", "\"\"", "\"a+\"", "\"aaaaaaaaaaaaaaaaaaaaaaaaaaaaaaaaaaaaaaaaaaaaaaaaa\"", "is", "when",
    "mqtt", "if", "sun is up", "foo"];
/// What lent topics are made of.
const LENT: &[&[u8]] = &[b"a", b"b", b"7", b"\n", b"\r", b"+", b"\xff"];

const RUNS: &[Run] = &[
    text!("", "", 5, pieces!["when", "if", "and", "controller", "starts", "is", "active", "http", "trigger", "every", "5s",
        "at", "7:05", "sunset"]),
    text!("", "", 6, pieces!["when http trigger", "when every 5s", "when lamp(\"b\") turns on", "if sun is up", "and sun is down",
        "and time in 7:05..sunset", "if lamp(1).level > 5"]),
    text!("when", "", 2, WIDE),
    text!("when controller starts if", "", 2, WIDE),
    text!("when controller starts if var(\"v\") ==", "", 2, WIDE),
    text!("when input(1,2)", "", 2, WIDE),
    text!("when lamp(", ") turns on", 5, pieces!["\"a\"", "\"b\"", "\"c\"", "\"d\"", "64", ",", "adapter", "=", "1", "2", ")"]),
    text!("when group(", ") becomes any_on", 5, pieces!["\"a\"", "\"b\"", "15", "16", ",", "adapter", "=", "1", ")"]),
    text!("when input(", ") is press", 6, ARGUMENT_PARTS),
    text!("when input(", ") is press", 4, ARGUMENTS),
    text!(Habit::Rule, "when input(", ") is press", 6, ARGUMENT_PARTS),
    text!(Habit::Rule, "when input(", ") is press", 4, ARGUMENTS),
    text!(Habit::Shop, "when input(", ") is press", 5, ARGUMENT_PARTS),
    text!(Habit::Shop, "", "", 4, PROFILE_PARTS),
    text!(Habit::Shop, "when http trigger if", "", 3, PROFILE_CONDITIONS),
    text!(Habit::Rule, "when input(", "", 5, pieces!["dev=1", "inst=2", "group=3", "type=4", "dev", "=", "1", ",", ")", "\"a\""]),
    text!(Habit::Rule, "when controller starts if input( dev=1 ,", ").light above 5", 4, ARGUMENTS),
    text!("when input( 1 , 2 )", "", 5, pieces!["is", "becomes", "press", "event", "(", "data", "=", "1024", "7", ")", "occupied",
        ".", "light", "crosses", "above"]),
    text!("when input(group=1)", "", 3, pieces!["is", "becomes", "press", "occupied", ".", "light", "position", "changes", "if",
        "foo", "5"]),
    text!("when input device(", "power cycled", 5, DEVICE_PARTS),
    text!(Habit::Shop, "when input device(", "power cycled", 5, DEVICE_PARTS),
    text!("when at", "", 5, pieces!["7:05", "sunset", "sunrise", "+", "-", "5s", "2147483.648s", "2147483.649s", "on", "mon", "if"]),
    text!("when at 7:05 on", "", 5, DAY_PARTS),
    text!(Habit::Rule, "when at sunset on mon", "", 4, DAY_PARTS),
    text!("when at sunrise + 5s on", "", 5, EVERY_DAY),
    text!(Habit::Shop, "when controller starts if day in", "", 4, EVERY_DAY),
    text!("when controller starts if day", "", 5, pieces!["in", "mon", "sun", "foo", "..", ",", "5", "and", "is up", "on"]),
    text!("when every", "", 4, pieces!["5s", "999ms", "1000ms", "5", "1.5", "7:05", "if", "when", "sun is up", "at"]),
    text!("when scene(", "recalled", 5, pieces!["0", "15", "16", ",", "adapter", "=", "1", "2", ")"]),
    text!("when hcl override", "", 5, OVERRIDE_PARTS),
    text!(Habit::Shop, "when hcl override starts for", "", 4, OVERRIDE_PARTS),
    text!("when controller starts if", "", 5, pieces!["sun", "is", "up", "and", "controller", "active", "hcl", "enabled", "for",
        "broadcast", "lamp(1)", "group(1)", "any_on", "day"]),
    text!("when controller starts if lamp(1)", "", 5, pieces![".", "level", "foo", "is", "on", "==", "<", "5", "-", "+", "lamp(2)",
        "sun", "rise", "and"]),
    text!("when controller starts if var(\"v\")", "", 5, COMPARED_PARTS),
    text!(Habit::Shop, "when controller starts if var(\"v\") ==", "", 4, COMPARED_PARTS),
    text!("when controller starts if time in", "", 5, pieces!["7:05", "sunset", "sunrise", "..", ".", "+", "-", "5s", "1", "and"]),
    text!("when controller starts if input(1,2)", "", 5, pieces!["is", "occupied", ".", "light", "above", "below", "5", "-", "time",
        "now", "and"]),
    text!("when controller starts if last_fired(", "", 5, pieces!["\"r\"", "\"\"", ")", "older", "than", "5s", "5", "1.5"]),
    Run { place: Place::Text, habit: Habit::Archive, call: None, lent: b"", prefix: b"", glue: b"", suffix: b"", most: 5,
        vocabulary: pieces![
        "0", "5", ".", ":", "s", "m", "x", "\"", "#", "!", "=", ">", "_", "\n", "@", "\u{e9}"] },
    Run { place: Place::Text, habit: Habit::Archive, call: None, lent: b"", prefix: b"when every ", glue: b"", suffix: b"", most: 5,
        vocabulary: pieces![
        "0", "1", ".", "4294967", "295", "0000000000", "00000000000000000000", "ms", "s", "h"] },
    Run { place: Place::Text, habit: Habit::Archive, call: None, lent: b"", prefix: b"\"\xc3\xa9", glue: b"", suffix: b"\" @", most: 4,
        vocabulary: &[
        b"\x7f", b"\x80", b"\x8f", b"\x90", b"\x9f", b"\xa0", b"\xbf", b"\xc1", b"\xc2", b"\xe0", b"\xe1", b"\xed", b"\xef",
        b"\xf0", b"\xf4", b"\xf5"] },
    sheet!(None, NAMED, "primary,0\n", 6, pieces!["lamp", "adapter", ",", "0", "6", "a", "\"", "\n"]),
    sheet!(None, NAMED, "", 6, pieces!["primary", "adapter", ",", "0", "25", "\n", "lamp,0,1,b"]),
    sheet!(None, NAMED, "primary,0\n", 6, pieces!["party,", ",", "0", "1", "25", "\n"]),
    sheet!(None, NAMED, "primary,0", 6, pieces!["\r", "\n", "lamp,0,1,b", "adapter,1", ",", "\""]),
    sheet!(None, NAMED, "primary,0\nlamp,0,1", 6, pieces![",", "b", "\r", "\n", "\"", "adapter,1"]),
    sheet!(None, WITH_COMMA, "primary,0\nlamp,0,1,b", 6, pieces![",", " c", "c", "\r", "\n", "lamp,0,2,b"]),
    sheet!(Some((7, 1)), NAMED, "primary,0\r\nparty,1,7", 5, pieces!["\r", "\n", "party,1,7", "party,2,7", "lamp,1,2,b", ","]),
    sheet!(Some((7, 1)), NAMED, "primary,0\n", 5, PARTY_ROWS),
    sheet!(Some((0, 0)), NAMED, "primary,1\n", 5, PARTY_ROWS),
    sheet!(Some((7, 1)), NAMED_ON_1, "primary,0\n", 5, PARTY_ROWS),
    sheet!(Some((0, 0)), NAMED_ON_1, "primary,1\n", 5, PARTY_ROWS),
    Run { call: Some((0, 0)), ..text!("when lamp(", ") turns on", 5, REFERENCES) },
    Run { call: Some((7, 1)), ..text!(Habit::Rule, "when lamp(", ") turns on", 5, REFERENCES) },
    Run { call: Some((7, 2)), ..text!("when", "", 3, pieces!["scene(3) recalled", "input(group=4) is press", "lamp(5) turns on when",
        "hcl override starts for broadcast", "scene(3, adapter=0) recalled", "input(group=4, adapter=1) is press",
        "if hcl is enabled for broadcast"]) },
    Run { lent: EIGHT, ..text!("when mqtt", "", 5, BEHIND_MQTT) },
    Run { lent: SEVEN, ..text!(Habit::Rule, "when mqtt \"a\"", "", 4, BEHIND_MQTT) },
    Run { lent: SEVEN, ..text!("", "", 5, TOPIC_TRIGGERS) },
    Run { lent: FIVE, ..text!(Habit::Rule, "", "", 5, TOPIC_TRIGGERS) },
    text!("when mqtt", "", 4, BEHIND_MQTT),
    Run { glue: b"", ..text!("when mqtt \"", "\"", 2, pieces![
        "\u{0}", "\u{1f}", " ", "\"", "#", "$", "*", "+", ",", "~", "\u{7f}", "\u{80}", "\u{9f}", "\u{a0}", "\u{ad}", "\u{2028}",
        "\u{fdcf}", "\u{fdd0}", "\u{fdef}", "\u{fdf0}", "\u{feff}", "\u{fffd}", "\u{fffe}", "\u{ffff}", "\u{10000}", "\u{1fdd0}",
        "\u{1fffd}", "\u{1fffe}", "\u{1ffff}", "\u{20000}", "\u{2fffe}", "\u{3ffff}", "\u{4fffe}", "\u{5ffff}", "\u{6fffe}",
        "\u{7ffff}", "\u{8fffe}", "\u{9ffff}", "\u{afffe}", "\u{bffff}", "\u{cfffe}", "\u{dffff}", "\u{efffe}", "\u{f0000}",
        "\u{ffffd}", "\u{ffffe}", "\u{fffff}", "\u{100000}", "\u{10fffd}", "\u{10fffe}", "\u{10ffff}"]) },
    Run { glue: b"", ..text!("when mqtt \"", "\"", 5, pieces!["x", "\u{e9}", "aaaaaaaaaaaaaaaaaaaaaaaaaaaaaaaaaaaaaaaaaaaaaa",
        "\u{e9}\u{e9}\u{e9}\u{e9}\u{e9}\u{e9}\u{e9}\u{e9}\u{e9}\u{e9}\u{e9}\u{e9}\u{e9}\u{e9}\u{e9}\u{e9}\u{e9}\u{e9}\u{e9}\u{e9}\u{e9}\u{e9}",
        "+"]) },
    topics!(Habit::Archive, TWO_TOPICS, "1\n2\n3\n4\n5\n6\n", 6, LENT),
    topics!(Habit::Rule, TWO_TOPICS, "", 5, LENT),
    topics!(Habit::Archive, "when mqtt \"7\" when mqtt \"a\" foo", "1\n2\n3\n4\n5\n6\n7", 5, LENT),
];

fn size(run: &Run, length: usize) -> u64 {
    if length > run.most { 0 } else { (run.vocabulary.len() as u64).pow(length as u32) }
}

/// The number of cases that `exhaustive(length)` gives.
pub fn exhaustive_count(length: usize) -> u64 {
    RUNS.iter().map(|run| size(run, length)).sum()
}

/// The pieces numbered `index` of a run: the digits of `index` in a system with one digit for each piece.
fn sequence(run: &Run, length: usize, mut index: u64) -> Vec<u8> {
    let base = run.vocabulary.len() as u64;
    let mut out = run.prefix.to_vec();
    for _ in 0..length {
        if !out.is_empty() {
            out.extend_from_slice(run.glue);
        }
        out.extend_from_slice(run.vocabulary[(index % base) as usize]);
        index /= base;
    }
    if !run.suffix.is_empty() {
        out.extend_from_slice(run.glue);
        out.extend_from_slice(run.suffix);
    }
    out
}

/// The case whose text, sheet or lent topics the pieces of a run made.
fn case_of(run: &Run, index: u64, made: Vec<u8>) -> Case {
    let sheet = if run.call.is_some() { SHARED } else { SHEET };
    let (text, sheet, lent) = match run.place {
        Place::Text => (made, sheet.to_vec(), run.lent.to_vec()),
        Place::Sheet(text) => (text.into(), made, run.lent.to_vec()),
        Place::Topics(text) => (text.into(), sheet.to_vec(), made),
    };
    let mut case = Case::new(index, LEAST_WORDS, text, sheet).with_habit(run.habit);
    if let Some((party, primary)) = run.call {
        case = case.with_party(party, primary);
    }
    if lent.is_empty() { case } else { case.with_topics(lent) }
}

/// The case numbered `index`, below `exhaustive_count(length)`.
pub fn exhaustive_case(length: usize, index: u64) -> Case {
    let mut left = index;
    for run in RUNS {
        let here = size(run, length);
        if left < here {
            return case_of(run, index, sequence(run, length, left));
        }
        left -= here;
    }
    panic!("no case {index} of length {length}");
}

/// Every sequence of exactly `length` pieces, of every run that goes so far.
pub fn exhaustive(length: usize) -> impl Iterator<Item = Case> {
    (0..exhaustive_count(length)).map(move |index| exhaustive_case(length, index))
}
