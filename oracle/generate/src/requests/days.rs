//! §1: sets of days behind `at` and its time or sun, and as a condition.

use super::{lending, numbered, SHARED, SHEET};
use crate::vocabulary::{DAYS, NO_DAYS};
use cases::{Case, Habit, LEAST_WORDS, MOST_TOKENS};

fn call(text: &str) -> Case {
    Case::new(0, LEAST_WORDS, text, SHEET).with_habit(Habit::Rule)
}

/// Four sets in triggers, then four in conditions.
fn eight(sets: &[String]) -> String {
    const BEFORE: [&str; 8] = [
        "when at 7:05 on", "when at sunrise on", "when at sunset + 5m on", "when at 23:59 on", "if day in", "and day in", "and day in", "and day in",
    ];
    BEFORE.iter().zip(sets).map(|(before, set)| format!("{before} {set}")).collect::<Vec<_>>().join(" ")
}

/// Every day and every range, once in a trigger and once in a condition.
fn every_day_and_range() -> Vec<Case> {
    let ranges = DAYS.iter().flat_map(|from| DAYS.iter().map(move |to| format!("{from}..{to}")));
    let mut sets: Vec<String> = DAYS.iter().map(|day| day.to_string()).chain(ranges).collect();
    let mut cases: Vec<Case> = sets.chunks(8).map(|sets| call(&eight(sets))).collect();
    sets.rotate_left(4);
    cases.extend(sets.chunks(8).map(|sets| call(&eight(sets))));
    cases
}

/// Lists: with repeats, with days that two items share, and with all seven.
const LISTS: &[&str] = &[
    "mon, tue", "sun,mon", "mon..wed, fri", "fri, mon..wed", "sat..mon, wed..thu", "tue, thu, sat", "tue, tue", "sun, sun, sun", "mon..wed, tue", "tue, mon..wed",
    "mon..wed, mon..wed", "mon..thu, wed..sat", "fri..mon, sun..tue", "sat..sat, sat", "sun..mon, mon, sun", "mon..sat", "tue..sun", "mon..fri, sun",
    "mon, tue, wed, thu, fri, sat, sun", "sun, sat, fri, thu, wed, tue, mon", "wed, mon, sun, tue, sat, thu, fri", "mon..fri, sat, sun", "sat..mon, tue..fri",
    "mon..thu, wed..sun", "mon..sun, mon..sun", "mon..sun, tue", "fri, sat..thu", "sun..sat, sun..sat, sun", "mon, tue, wed, thu, fri, sat, sat, fri",
    "mon..tue, wed..thu, fri..sat, sun..sun",
];

/// What stands behind `on` or `in` and is refused there or behind, or is no set as a whole.
const FAULTS: &[&str] = &[
    "foo 5", "foo", "foo, 5", "foo..mon", "mon..foo", "mon..foo 5", "mon, foo", "mon..tue, foo", "mon,\n foo", "on mon", "in mon", "Mon", "monday", "mo", "sunset", "sunrise",
    "mon..sunday", "mon, Tue, foo", "mon..MON", "5", "\"mon\"", ",", "", "..", "(mon)", "7:05", "5s", "1.5", "mon..", "mon,", "mon, # \u{e9}", "mon,,tue", "mon..5",
    "mon, \"tue\"", "mon..,tue", "mon...fri", "mon..fri...", "mon. .tue", "mon..tue..wed", "mon on tue", "mon tue", "mon .", "mon-fri", "mon foo", "mon in tue", "mon + 5m",
    "mon..tue wed", "mon..tue on wed", "mon, when http trigger", "mon, and sun is up", "mon, if sun is up", "mon.. when http trigger", "mon.. and sun is up",
    "mon..tue, when", "mon..tue, and", "mon, on", "mon, in tue", "mon @", "foo @", "mon..foo \"", "foo 24:00",
];

/// Whole texts: what comes before the days, words that are no form there, and `sun`.
const TEXTS: &[&str] = &[
    "when at sunset on mon", "when at sunset + 5m on fri..mon", "when at sunset + 2147483.648s on foo", "when at sunrise - 2147483.649s on foo",
    "when at sunset - 2147483.648s on sat", "when at sunset + 2147483.648s on foo @", "when at sunset + 5 on foo", "when at noon on foo", "when at on mon",
    "when every 5ms when at 7:05 on foo", "when at 7:05 on mon when every 5ms when at 7:05 on foo", "when at 7:05 on foo when every 5ms", "when at 7:05 On mon", "when at 7:05 mon",
    "when at 7:05 + 5m on mon", "when at 7:05 day in mon", "when at 7:05 in mon", "when http trigger on mon", "when every 5s on mon", "when lamp(1) turns on on mon",
    "when day in mon", "when day", "when mon", "when at mon", "when http trigger if mon", "when http trigger if Day in mon", "when http trigger if weekday in mon",
    "when http trigger if day", "when http trigger if day # in", "when http trigger if day foo", "when http trigger if day mon", "when http trigger if day sun and sun is up",
    "when http trigger if day is mon", "when http trigger if day 5", "when http trigger if day \"in\" mon", "when http trigger if sun is up and day",
    "when http trigger if day and sun is up", "when http trigger if time in 7:05..8:00 on mon", "when http trigger if sun is up on mon", "when http trigger if time in mon..fri",
    "when http trigger if var(\"v\") == day", "when http trigger if day in sun and sun is up", "when http trigger if day in sat, sun and sun is down and day in sun",
    "when http trigger if day in sun is up", "when http trigger if sun in mon", "when http trigger if sun is up and day in sun", "when at sunset on sun if sun is up",
    "when at sunrise on sat..sun if var(\"v\") == sun.is_up", "when at 7:05 on sun if day in mon, sun is up", "when at 7:05\non # days\nsun , sat\n", "when at 7:05 on mon..sun when at 7:05",
    "when at sunset when at sunset on tue..mon", "when at 7:05 on mon when at 7:05 if day in tue", "when at 7:05 on mon if day in mon..sun and day in foo",
    "when at sunset - 5m on mon, if day in tue", "when http trigger if day in foo, 5", "when http trigger if day in mon, 5s", "when http trigger if day in mon..",
];

/// Sets as long as a text can have them, and one token more.
fn longest() -> Vec<Case> {
    let seven_tokens = "when http trigger when at 7:05 on";
    let days = vec!["tue"; (MOST_TOKENS - 8) / 2].join(",");
    let ranges = |range| vec![range; 30].join(",\n");
    let texts = [
        format!("{seven_tokens} {days},tue"), format!("{seven_tokens} {days},sun,"), format!("{seven_tokens} {days},foo"),
        format!("when at 7:05 on foo{}", " (".repeat(MOST_TOKENS)), format!("when at 7:05 on {}", ranges("mon..tue")),
        format!("when http trigger if day in {}", ranges("sat..sun")),
    ];
    texts.iter().map(|text| call(text)).collect()
}

/// A word that is no day in each of four triggers and of four conditions, and in a fifth; in sets of every place.
fn nth() -> Vec<Case> {
    let (trigger, condition) = ("when at 7:05 on mon", "and day in mon");
    let mut texts: Vec<String> = (0..5).map(|nth| format!("{} when at sunset on foo", [trigger; 4][..nth].join(" "))).collect();
    texts.extend((2..5).map(|nth| format!("{} when at 7:05 on sat, mo", [trigger; 4][..nth].join("\n"))));
    texts.extend((0..4).map(|nth| format!("when at 7:05 on sun if day in tue {} and day in foo", [condition; 4][..nth].join(" "))));
    texts.extend((1..4).map(|nth| format!("when http trigger if sun is up {} and day in fri..Sun", [condition; 4][..nth].join("\n"))));
    texts.extend(["when at sunrise + 5m on foo", "when at 7:05 on mon when at sunset - 5m on mon..foo", "when at sunset - 5m on", "when at sunset + 0s on mon, 5"].map(String::from));
    texts.iter().map(|text| call(text)).collect()
}

/// Calls of every habit and of parties, `case` lines, lent topics, and the first questions.
fn other_calls() -> Vec<Case> {
    let texts = [
        "when at 7:05 on sat if day in sat..mon", "when at sunset on foo", "when at 7:05 on sat if lamp(3) is on and day in sun", "when lamp(3) turns on when at 7:05 on foo",
        "when lamp(3) turns on if day in foo", "when lamp(3) turns on when mqtt \"a\" is", "when http trigger if day in tue",
        "when input(dev=1, dev=2, inst=3) is press when at 7:05 on foo", "when at 7:05 on mon..wed when input(dev=1, dev=2, inst=3) is press", "when hcl override starts for broadcast if day in mon",
    ];
    let mut cases: Vec<Case> = texts.iter().flat_map(|text| [Habit::Archive, Habit::Shop].map(|habit| call(text).with_habit(habit))).collect();
    cases.extend(texts[..2].iter().map(|text| Case::new(0, LEAST_WORDS, *text, SHEET)));
    cases.extend([(7, 1), (0, 1)].map(|(party, primary)| Case { sheet: SHARED.to_vec(), ..call("when lamp(3) turns on when at 7:05 on mon") }.with_party(party, primary)));
    cases.extend(["when mqtt \"a\" when at 7:05 on foo", "when at 7:05 on foo when mqtt \"a\"", "when at 7:05 on fri when mqtt \"8\""].map(|text| lending(numbered(8).as_bytes(), text)));
    cases.extend([
        Case { words: LEAST_WORDS - 1, ..call("when at 7:05 on foo") }, Case { sheet: b"primary".to_vec(), ..call("when at 7:05 on foo") },
        Case { text: b"when at 7:05 on foo \xff".to_vec(), ..call("") },
    ]);
    cases
}

pub fn cases() -> Vec<Case> {
    let mut cases = every_day_and_range();
    // Each list once in a trigger and once in a condition.
    cases.extend(LISTS.chunks(4).map(|lists| call(&eight(&lists.iter().cycle().take(8).map(|list| list.to_string()).collect::<Vec<_>>()))));
    cases.extend(LISTS.iter().step_by(3).map(|list| call(&format!("when at 7:05 on {list}"))));
    let at = ["when at 7:05 on", "when at sunset on"].into_iter().cycle();
    cases.extend(FAULTS.iter().zip(at).map(|(fault, at)| call(&format!("{at} {fault}"))));
    cases.extend(FAULTS.iter().skip(1).step_by(2).map(|fault| call(&format!("when http trigger if day in {fault}"))));
    let before = ["when at 7:05 on mon, ", "when http trigger if day in tue.."].into_iter().cycle();
    cases.extend(NO_DAYS.iter().step_by(3).zip(before).map(|(word, before)| call(&format!("{before}{word}"))));
    cases.extend(TEXTS.iter().map(|text| call(text)));
    cases.extend(nth());
    cases.extend(longest());
    cases.extend(other_calls());
    cases
}
