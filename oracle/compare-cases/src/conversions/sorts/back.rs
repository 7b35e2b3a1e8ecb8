//! What lists that are converted back show.

use super::{of_line, Facts, CALLS, NAMES};
use crate::conversions::asked::{Given, Kind, KINDS};
use crate::conversions::back::{picks, Entry, Line, RIGHT};
use crate::features::TRIGGERS;
use crate::tokens::shown;
use cases::{Conversion, Flat, List, Row, ENTRY};

const LEAST_BYTES: usize = 512;

const OTHERS: &[&str] = &[
    "3", "53", "54", "61", "62", "written", "54, one without a row too", "54 of 0 bytes", "54 of 272 bytes", "54 of 511 bytes", "61 by 0 triggers",
    "61 by 5 triggers", "61 by 4294967295 triggers", "61 by a count's high bits", "61 at 0, another trigger too", "61 at 0, a condition too", "61 by kind 0",
    "61 by kind 22", "61 by a kind's high bits", "61, a condition too", "61, one without a row before it", "61, one without a row behind it",
    "61, another behind it", "61 by a condition", "61 by 1 conditions", "61 by 4 conditions", "61 by 5 conditions", "61 by 4294967295 conditions",
    "61 by a condition, one without a row before it", "62, another behind it", "62 by a number just past", "62 by a number's high bits", "62 by adapter 256",
    "62 by an adapter's high bits", "62, a line of another kind", "62, a line of another adapter", "62 by commas alone", "62 by repeats alone",
    "62 by repeats of one number", "62 by commas and repeats", "62 by an adapter that is not listed", "62 by the primary, not listed",
    "62 by another's adapter that is listed", "62 by another's adapter that is not", "written into 512 bytes", "written into 513 bytes", "written into 8192 bytes",
    "written, the first of several", "written behind a comma", "written behind a repeat", "written behind both", "written, the name on another adapter too",
    "written, another party has the name", "written, another kind has the name", "written, another kind's line before it", "written, the primary's",
    "written, not the primary's", "written, an entry twice", "written, anything past the counts", "written, 272 bytes",
];

/// What else may be wrong where something before it is asked.
const ALSO: [&str; 3] = ["a bad count", "another trigger", "a condition"];

pub fn all() -> Vec<String> {
    let mut all: Vec<String> = OTHERS.iter().chain(CALLS).chain(NAMES).map(|sort| sort.to_string()).collect();
    all.extend(["3", "53", "54"].iter().flat_map(|number| ALSO.map(|also| format!("{number}, {also} too"))));
    all.extend(["3", "53"].map(|number| format!("{number}, a small buffer too")));
    all.extend((0..=5).map(|line| format!("61 at {line}")).chain((1..=4).map(|line| format!("62 at {line}"))));
    all.extend((1..=4).map(|count| format!("T {count}")).chain((2..=5).map(|line| format!("61 by a condition at {line}"))));
    all.extend([0, 1, 2, 3, u32::MAX].map(|from| format!("FROM {from}")));
    all.extend(TRIGGERS.iter().enumerate().filter(|(at, _)| !KINDS.iter().any(|kind| kind.code as usize == at + 1)).map(|(_, kind)| format!("61 by {kind}")));
    for Kind { word, words, .. } in &KINDS {
        all.extend(["code 0", "code 3", "a code's high bits"].map(|fault| format!("61 by a {word}'s {fault}").replace("'s a code's", "'s code's")));
        all.extend((4..ENTRY).map(|at| format!("61 by a {word}'s word {at}")));
        all.extend([format!("62 of a {word}")]);
        all.extend(words.map(|choice| format!("{word} {choice}")));
    }
    all
}

/// What is wrong, apart from what the sheet and the party say.
struct Wrong {
    small: bool,
    count: bool,
    conditions: bool,
    /// The ordinals of the entries in use that are another trigger, and of those without a row.
    others: Vec<usize>,
    nameless: Vec<usize>,
}

fn wrong(given: &Given, size: usize, lists: &Flat, facts: &Facts) -> Wrong {
    let rows = || (1..).zip(lists.used(List::Triggers));
    let nameless = |(ordinal, row): (usize, &Row)| RIGHT.entry(ordinal, row).filter(|entry| RIGHT.line(given, entry, &facts.lines).is_none()).map(|_| ordinal);
    Wrong {
        small: size < LEAST_BYTES,
        count: !(RIGHT.count)(lists.counts[0]),
        conditions: lists.counts[1] > 0,
        others: rows().filter(|(ordinal, row)| RIGHT.entry(*ordinal, row).is_none()).map(|(ordinal, _)| ordinal).collect(),
        nameless: rows().filter_map(nameless).collect(),
    }
}

pub fn sorts(conversion: &Conversion, size: usize, lists: &Flat, answer: &str) -> Vec<String> {
    let said: Vec<&str> = answer.lines().last().unwrap_or_default().split(' ').collect();
    let (given, facts) = (Given { conversion, call: &second::answer }, Facts::of(conversion));
    let wrong = wrong(&given, size, lists, &facts);
    match said[..] {
        ["refused", number @ ("3" | "53" | "54"), ..] => first(number, size, &wrong),
        ["refused", "61", "0", ..] => bad_count(lists.counts[0], &wrong),
        ["refused", "61", line, ..] => another(lists, line, &wrong),
        ["refused", "62", line, ..] => nameless(&given, &facts, lists, line, &wrong),
        ["written", length, ..] => written(&given, &facts, size, lists, length),
        _ => Vec::new(),
    }
}

fn first(number: &str, size: usize, wrong: &Wrong) -> Vec<String> {
    let also = shown(&[
        (wrong.small && number != "54", "a small buffer"), (wrong.count, "a bad count"), (!wrong.others.is_empty(), "another trigger"),
        (wrong.conditions, "a condition"), (number == "54" && !wrong.nameless.is_empty(), "one without a row"),
    ]);
    let mut sorts: Vec<String> = [number.to_string()].into_iter().chain(also.iter().map(|also| format!("{number}, {also} too"))).collect();
    sorts.extend((number == "54").then(|| format!("54 of {size} bytes")));
    sorts
}

fn bad_count(triggers: u32, wrong: &Wrong) -> Vec<String> {
    let high = triggers > 255 && [0xff, 0xffff, 0x7fff_ffff].iter().any(|mask| (1..=4).contains(&(triggers & mask)));
    shown(&[
        (true, "61"), (true, "61 at 0"), (triggers == 0, "61 by 0 triggers"), (triggers == 5, "61 by 5 triggers"),
        (triggers == u32::MAX, "61 by 4294967295 triggers"), (high, "61 by a count's high bits"), (!wrong.others.is_empty(), "61 at 0, another trigger too"),
        (wrong.conditions, "61 at 0, a condition too"),
    ])
}

fn another(lists: &Flat, line: &str, wrong: &Wrong) -> Vec<String> {
    let mut sorts = vec!["61".to_string(), format!("61 at {line}")];
    let conditions = lists.counts[1];
    let Some(first) = wrong.others.first() else {
        sorts.push(format!("61 by a condition at {line}"));
        sorts.extend(shown(&[
            (true, "61 by a condition"), (conditions == 1, "61 by 1 conditions"), (conditions == 4, "61 by 4 conditions"), (conditions == 5, "61 by 5 conditions"),
            (conditions == u32::MAX, "61 by 4294967295 conditions"), (!wrong.nameless.is_empty(), "61 by a condition, one without a row before it"),
        ]));
        return sorts;
    };
    sorts.extend(shown(&[
        (wrong.conditions, "61, a condition too"), (wrong.others.len() > 1, "61, another behind it"),
        (wrong.nameless.iter().any(|at| at < first), "61, one without a row before it"),
        (wrong.nameless.iter().any(|at| at > first), "61, one without a row behind it"),
    ]));
    sorts.extend(fault(&lists.triggers[first - 1].words));
    sorts
}

/// What the single fault of a row's words is.
fn fault(words: &[u32; ENTRY]) -> Vec<String> {
    let [kind, _, _, code, rest @ ..] = words;
    let unfit: Vec<usize> = (0..rest.len()).filter(|&at| rest[at] != 0).map(|at| at + 4).collect();
    let high = |word: u32, fits: &dyn Fn(u32) -> bool| word > 255 && [0xff, 0xffff, 0x7fff_ffff].iter().any(|mask| fits(word & mask));
    let is_kind = |kind: u32| (RIGHT.kind)(kind).is_some();
    let is_code = |code: u32| (RIGHT.code)(code).is_some();
    let Some(known) = (RIGHT.kind)(*kind).map(|at| KINDS[at].word) else {
        let named = (*kind as usize).checked_sub(1).and_then(|at| TRIGGERS.get(at)).map(|kind| format!("61 by {kind}"));
        let high = high(*kind, &is_kind) && is_code(*code) && unfit.is_empty();
        let others = shown(&[(*kind == 0, "61 by kind 0"), (*kind == 22, "61 by kind 22"), (high, "61 by a kind's high bits")]);
        return named.into_iter().chain(others).collect();
    };
    match unfit[..] {
        [] => {
            let faults = shown(&[(*code == 0, "code 0"), (*code == 3, "code 3"), (high(*code, &is_code), "code's high bits")]);
            faults.iter().map(|fault| format!("61 by a {known}'s {fault}")).collect()
        }
        [at] if is_code(*code) => vec![format!("61 by a {known}'s word {at}")],
        _ => Vec::new(),
    }
}

fn nameless(given: &Given, facts: &Facts, lists: &Flat, line: &str, wrong: &Wrong) -> Vec<String> {
    let mut sorts = vec!["62".to_string(), format!("62 at {line}")];
    let Some(entry) = wrong.nameless.first().and_then(|at| RIGHT.entry(*at, &lists.triggers[at - 1])) else { return sorts };
    sorts.push(format!("62 of a {}", entry.kind.word));
    sorts.extend(shown(&[(wrong.nameless.len() > 1, "62, another behind it")]));
    let about: Vec<&Line> = facts.lines.iter().filter(|line| (RIGHT.is_about)(&entry, line)).collect();
    sorts.extend(if about.is_empty() { no_line(given, facts, &entry) } else { unfit(given, facts, &entry, &about) });
    sorts
}

/// What is near to a reference that no line is about.
fn no_line(given: &Given, facts: &Facts, entry: &Entry) -> Vec<String> {
    let masks = [0xff, 0xffff, 0x7fff_ffff];
    let written = |other: Entry| RIGHT.line(given, &other, &facts.lines).is_some();
    let has_line = |other: Entry| facts.lines.iter().any(|line| (RIGHT.is_about)(&other, line));
    let highest = if entry.kind.word == "group" { 15 } else { 63 };
    let has_number = |line: &Line| line.kind == entry.kind.word.as_bytes() && line.number == entry.number.to_string().as_bytes();
    shown(&[
        (entry.number == highest + 1, "62 by a number just past"), (entry.adapter == 256, "62 by adapter 256"),
        (entry.number > 255 && masks.iter().any(|mask| written(Entry { number: entry.number & mask, ..*entry })), "62 by a number's high bits"),
        (entry.adapter > 255 && masks.iter().any(|mask| written(Entry { adapter: entry.adapter & mask, ..*entry })), "62 by an adapter's high bits"),
        (KINDS.iter().any(|kind| has_line(Entry { kind, ..*entry })), "62, a line of another kind"),
        (facts.lines.iter().any(has_number), "62, a line of another adapter"),
    ])
}

/// Why none of the lines about a reference can be written.
fn unfit(given: &Given, facts: &Facts, entry: &Entry, about: &[&Line]) -> Vec<String> {
    let (own, listed) = facts.whose(about[0].adapter);
    if !own || !listed {
        let is_primary = entry.adapter == given.conversion.primary.into();
        return shown(&[
            (own, "62 by an adapter that is not listed"), (own && is_primary, "62 by the primary, not listed"),
            (!own && listed, "62 by another's adapter that is listed"), (!own && !listed, "62 by another's adapter that is not"),
        ]);
    }
    let commas = about.iter().filter(|line| line.name.contains(&b',')).count();
    let same = |line: &&&Line| about.iter().filter(|other| other.name == line.name).count() > 1;
    shown(&[
        (commas == about.len(), "62 by commas alone"), (commas == 0, "62 by repeats alone"), (commas > 0 && commas < about.len(), "62 by commas and repeats"),
        (commas == 0 && about.iter().all(|line| same(&line)), "62 by repeats of one number"),
    ])
}

fn written(given: &Given, facts: &Facts, size: usize, lists: &Flat, length: &str) -> Vec<String> {
    let rows = lists.used(List::Triggers);
    let past = List::BOTH.into_iter().any(|list| lists.rows(list)[lists.used(list).len()..].iter().any(|row| row.words != [0; ENTRY]));
    let twice = (0..rows.len()).any(|one| (0..one).any(|two| rows[one].words == rows[two].words));
    let mut sorts = vec![format!("T {}", rows.len())];
    sorts.extend(shown(&[
        (true, "written"), (size == LEAST_BYTES, "written into 512 bytes"), (size == LEAST_BYTES + 1, "written into 513 bytes"),
        (size == 8_192, "written into 8192 bytes"), (twice, "written, an entry twice"), (past, "written, anything past the counts"),
        (length == "272", "written, 272 bytes"),
    ]));
    for (ordinal, row) in (1..).zip(rows) {
        sorts.push(format!("FROM {}", row.from));
        let Some(entry) = RIGHT.entry(ordinal, row) else { continue };
        let Some(line) = RIGHT.line(given, &entry, &facts.lines) else { continue };
        sorts.push(format!("{} {}", entry.kind.word, entry.kind.words[entry.word]));
        sorts.extend(of_line(&given.conversion.sheet, &line));
        sorts.extend(chosen(given, facts, &entry, &line));
    }
    sorts
}

/// What stands beside the line whose name is written.
fn chosen(given: &Given, facts: &Facts, entry: &Entry, line: &Line) -> Vec<String> {
    let about: Vec<&Line> = facts.lines.iter().filter(|other| (RIGHT.is_about)(entry, other)).collect();
    let before = || about.iter().filter(|other| other.at < line.at);
    let (commas, repeats) = (before().any(|other| other.name.contains(&b',')), before().any(|other| !other.name.contains(&b',')));
    let same = || facts.lines.iter().filter(|other| other.name == line.name && other.at != line.at);
    let is_kind = |other: &Line| other.kind == line.kind;
    // A line of another kind would give the name of a later one.
    let misleads = |other: &Line| !is_kind(other) && other.at < line.at && other.name != line.name && !other.name.contains(&b',') && other.adapter == line.adapter;
    let picked = |other: &Line| picks(given, entry, &Line { kind: line.kind, ..*other });
    let is_primary = entry.adapter == given.conversion.primary.into();
    shown(&[
        (before().count() == 0 && about.len() > 1, "written, the first of several"), (commas, "written behind a comma"), (repeats, "written behind a repeat"),
        (commas && repeats, "written behind both"), (same().any(|other| is_kind(other) && facts.is_own(other)), "written, the name on another adapter too"),
        (same().any(|other| is_kind(other) && !facts.is_own(other)), "written, another party has the name"),
        (same().any(|other| !is_kind(other)), "written, another kind has the name"),
        (facts.lines.iter().any(|other| misleads(other) && picked(other)), "written, another kind's line before it"), (is_primary, "written, the primary's"),
        (!is_primary, "written, not the primary's"),
    ])
}
