//! What lists to be written show of document 02 §7: what is refused, at which entry and for which word, name, count or adapter, and what is written
//! in which form.

use super::way::{entries, number, Entry, Given, Held, RIGHT};
use crate::features;
use crate::parties;
use crate::tokens::shown;
use cases::{own_primary, List, Writing, ENTRY};
use generate::roles::{kinds, layout, Range, Role, Word, EVERY_DAY, HIGHEST_ADAPTER, HIGHEST_OF_ARGS, LEAST_PERIOD, MOST_NUMBER, NO_TYPE};
use std::collections::{BTreeSet, HashMap};
use std::sync::OnceLock;

const LONGEST_RULE: usize = 16_384;
const LEAST_BYTES: usize = 4_096;

/// What no other list has. `3, a bad count too` is a refusal with something behind it that comes later in the order.
pub const OTHERS: &[&str] = &[
    "3", "53", "54", "55", "56", "written", "3, a small buffer too", "3, a bad count too", "3, a bad entry too", "53, a small buffer too",
    "53, a bad count too", "53, a bad entry too", "54, a bad count too", "54, a bad entry too", "54, one out of reach too",
    "55 at 0, a bad entry too", "55, one out of reach before it", "55, another behind it", "56, another behind it", "54 of 0 bytes",
    "54 of 4095 bytes", "written into 4096 bytes", "written into 4097 bytes", "written into 8192 bytes", "55 by 0 triggers", "55 by 5 triggers",
    "55 by 4294967295 triggers", "55 by 5 conditions", "55 by 4294967295 conditions", "55 by a count's high bits", "55 by both counts",
    "55 by FROM 0", "55 by FROM 3", "55 by FROM 4294967295", "55 by the high bits of FROM", "55 by FROM 0 without a name",
    "55 by FROM 3 without a name", "56 by one that is not listed", "56 by another's that is listed", "56 by another's that is not",
    "56 by broadcast on one that is listed", "56 by broadcast on one that is not", "56 by broadcast on another's", "56 in a value alone",
    "written, the primary is listed", "written, the primary is not listed", "written, anything past the counts", "written, an entry twice",
    "written, both FROM", "written, a text not UTF-8", "written, a text of more than 16384 bytes", "written, a name twice at one place", "party 0",
    "another party", "the primary is not the sheet's", "no type", "type 0", "type 31", "on left out", "day_in of seven", "offset 0", "offset + ms",
    "offset + s", "offset - ms", "offset - s", "offset least", "offset most", "literal 0", "literal +", "literal -", "literal most", "literal least",
    "added 0", "added +", "added -", "added most", "added least", "55 by a literal past its most", "55 by a literal past its least",
    "55 by a literal's high word", "55 by an added number past its most", "55 by an added number past its least", "55 by an added number's high word",
];

/// Of a period, an age and an offset that are written.
const DURATIONS: &[&str] = &["1000000000ms", "1000000.001s", "with zeros behind the point", "with zeros at the end"];

/// Faults of a name, a topic and a text.
const NAME_FAULTS: &[&str] = &[
    "ends past its text", "begins past its text", "ends past 32 bits", "not UTF-8", "a quote", "LF", "too long", "one byte too long",
];

/// What is good in them.
const NAMES: &[&str] = &[
    "at the start", "at the end", "as long as can be", "in the second text", "between quotes", "not between quotes", "not ASCII", "with a blank",
];

const CONDITIONS: [&str; 16] = [
    "time_in_range", "sun_is", "lamp_is", "lamp_level", "lamp_cct", "group_state", "if input_occupancy", "input_light", "hcl_state",
    "if device_online", "rule_enabled", "last_fired_older_than", "timer_running", "controller_active", "var_compare", "day_in",
];

/// The name of a kind. Two kinds of conditions share theirs with a trigger.
fn kind(list: List, words: &[u32; ENTRY]) -> &'static str {
    let at = (words[0] as usize).wrapping_sub(1);
    match list {
        List::Triggers => features::TRIGGERS.get(at).copied().unwrap_or("unknown trigger"),
        List::Conditions => CONDITIONS.get(at).copied().unwrap_or("unknown condition"),
    }
}

/// A word of a row, with a name: the kind, the part and the place; of a value its place in it.
struct Named {
    word: Word,
    label: String,
}

fn named(list: List, words: &[u32; ENTRY]) -> Vec<Named> {
    let layout = layout(list, words);
    let value = layout.iter().position(|word| word.part.starts_with("value"));
    let label = |at: usize, part: &str| match value {
        Some(value) if part.starts_with("value") => format!("{part} {}", at - value),
        _ => format!("{} {part} {at}", kind(list, words)),
    };
    layout.into_iter().enumerate().map(|(at, word)| Named { word, label: label(at, word.part) }).collect()
}

/// Rows that have every form of a list, by their codes alone.
fn forms(list: List) -> Vec<[u32; ENTRY]> {
    let mut rows: Vec<[u32; ENTRY]> = (1..=kinds(list)).map(|kind| { let mut row = [0; ENTRY]; row[0] = kind; row }).collect();
    for at in 1..ENTRY {
        rows = rows.into_iter().flat_map(|row| {
            let codes: &[u32] = match layout(list, &row)[at].part {
                "selector" | "bound" => &[1, 2],
                "event" => &[1, 13],
                "target" | "value" => &[1, 2, 3],
                "value or text" => &[1, 2, 3, 4],
                "value reading" => &[1, 5, 8, 12, 23],
                _ => &[0],
            };
            codes.iter().map(move |&code| { let mut row = row; row[at] = code; row })
        }).collect();
    }
    rows
}

fn role_name(role: Role) -> Option<String> {
    Some(match role {
        Role::Code(count) => format!("a code to {count}"),
        Role::Number(most) => format!("a number to {most}"),
        Role::Adapter => "an adapter".to_string(),
        Role::Broadcast => "broadcast's adapter".to_string(),
        Role::Type => "a type".to_string(),
        Role::Days => "days".to_string(),
        Role::Period => "a period".to_string(),
        _ => return None,
    })
}

/// How a word can miss its role.
fn misses(role: Role) -> &'static [&'static str] {
    match role {
        Role::Code(_) | Role::Days => &["0", "just past", "high bits"],
        Role::Number(_) | Role::Adapter | Role::Broadcast => &["just past", "high bits"],
        Role::Type => &["just past", "4294967294"],
        Role::Period => &["0", "just past"],
        _ => &[],
    }
}

fn miss(role: Role, word: u32) -> Option<&'static str> {
    let past = match role {
        Role::Code(count) => count + 1,
        Role::Number(most) => most + 1,
        Role::Adapter | Role::Broadcast => HIGHEST_ADAPTER + 1,
        Role::Type => HIGHEST_OF_ARGS + 1,
        Role::Days => EVERY_DAY + 1,
        Role::Period => LEAST_PERIOD - 1,
        _ => return None,
    };
    let high = [0xff, 0xffff, 0x7fff_ffff].iter().any(|mask| role.fits(word & mask));
    let ways = [(word == past, "just past"), (word == 0, "0"), (word == NO_TYPE - 1, "4294967294"), (high, "high bits")];
    ways.into_iter().find(|(is, _)| *is).map(|(_, miss)| miss)
}

fn range_name(range: Range) -> &'static str {
    match range {
        Range::Name => "name",
        Range::Topic => "topic",
        Range::Text => "text",
    }
}

/// Every sort that there is.
pub fn all() -> &'static [String] {
    static ALL: OnceLock<Vec<String>> = OnceLock::new();
    ALL.get_or_init(|| {
        let mut all: Vec<String> = OTHERS.iter().map(|sort| sort.to_string()).collect();
        all.extend((0..=8).map(|line| format!("55 at {line}")));
        all.extend((1..=8).map(|line| format!("56 at {line}")));
        all.extend((1..=4).map(|count| format!("T {count}")).chain((0..=4).map(|count| format!("C {count}"))));
        all.extend((1..=6).map(|days| format!("on {days} days")).chain((1..=6).map(|days| format!("day_in of {days}"))));
        all.extend(["period", "age", "offset"].iter().flat_map(|of| DURATIONS.iter().map(move |sort| format!("{of} {sort}"))));
        all.extend(["period", "age"].map(|of| format!("{of} 4294967.295s")));
        for range in [Range::Name, Range::Topic, Range::Text].map(range_name) {
            all.extend(NAME_FAULTS.iter().map(|fault| format!("55 by a {range}: {fault}")));
            all.extend(NAMES.iter().map(|sort| format!("a {range} {sort}")));
        }
        all.extend(["name", "topic"].iter().flat_map(|range| [format!("55 by a {range}: empty"), format!("a {range} the whole text")]));
        all.extend(["55 by a topic: forbidden", "a text empty", "a text empty at the end"].map(String::from));
        all.extend(["name", "text"].iter().flat_map(|range| ["CR", "NUL"].map(|byte| format!("a {range} with {byte}"))));
        all.extend(["#", "+"].map(|byte| format!("a name with {byte}")));
        all.extend(List::BOTH.into_iter().flat_map(forms_sorts));
        let mut known = BTreeSet::new();
        all.retain(|sort| known.insert(sort.clone()));
        all
    })
}

/// The sorts of the words of every form.
fn forms_sorts(list: List) -> Vec<String> {
    let mut sorts = Vec::new();
    for row in forms(list) {
        sorts.extend([1, 2].map(|from| format!("{} FROM {from}", kind(list, &row))));
        for Named { word: Word { role, .. }, label } in named(list, &row) {
            let judged_alone = !matches!(role, Role::Age | Role::Offset | Role::Start(_) | Role::Length(_) | Role::Low | Role::High);
            sorts.extend(judged_alone.then(|| format!("55 by {label}")).filter(|_| !label.contains(" kind ")));
            sorts.extend(role_name(role).into_iter().flat_map(|name| misses(role).iter().map(move |miss| format!("55 by {name}: {miss}"))));
            match role {
                Role::Code(count) if !label.contains(" kind ") => sorts.extend((1..=count).map(|code| format!("{label} code {code}"))),
                Role::Number(most) => sorts.extend([0, most].map(|bound| format!("{label} of {bound}"))),
                Role::Adapter => sorts.extend([format!("56 by {label}"), format!("{label} written"), format!("{label} left out")]),
                Role::Broadcast => sorts.extend([format!("56 by {label}"), format!("{label} left out")]),
                _ => {}
            }
        }
    }
    sorts
}

/// The place of a sort among all.
pub fn place(sort: &str) -> Option<usize> {
    static PLACES: OnceLock<HashMap<String, usize>> = OnceLock::new();
    PLACES.get_or_init(|| all().iter().cloned().zip(0..).collect()).get(sort).copied()
}

fn whose(writing: &Writing, adapter: u32) -> (bool, bool) {
    parties::whose(&writing.sheet, writing.party, &adapter.to_string())
}

/// What is wrong, apart from what the sheet and the party say.
struct Wrong<'a> {
    small: bool,
    count: bool,
    /// The entries in use that no text gives, and those that are out of reach.
    bad: Vec<Entry<'a>>,
    far: Vec<Entry<'a>>,
}

fn wrong(writing: &Writing) -> Wrong<'_> {
    let given = Given { writing, call: &second::answer };
    let (bad, good): (Vec<Entry>, Vec<Entry>) = entries(writing).into_iter().partition(|entry| !RIGHT.is_given(&given, entry));
    let far = good.into_iter().filter(|entry| adapters(entry).any(|(role, adapter, _)| !reached(writing, role, adapter))).collect();
    Wrong { small: writing.size < LEAST_BYTES, count: !(RIGHT.counts)(writing.lists.counts), bad, far }
}

fn reached(writing: &Writing, role: Role, adapter: u32) -> bool {
    adapter == writing.primary.into() || role == Role::Adapter && whose(writing, adapter) == (true, true)
}

/// The adapters of an entry, with their names.
fn adapters(entry: &Entry) -> impl Iterator<Item = (Role, u32, String)> {
    let is_adapter = |(named, _): &(Named, u32)| matches!(named.word.role, Role::Adapter | Role::Broadcast);
    let adapters = named(entry.list, &entry.row.words).into_iter().zip(entry.row.words).filter(is_adapter);
    adapters.map(|(named, adapter)| (named.word.role, adapter, named.label))
}

/// The sorts that lists with this answer show, each once.
pub fn sorts(writing: &Writing, answer: &str) -> BTreeSet<String> {
    let said: Vec<&str> = answer.lines().last().unwrap_or_default().split(' ').collect();
    let wrong = || wrong(writing);
    let mut sorts = match said[..] {
        ["refused", "3", ..] => beside_first("3", writing),
        ["refused", "53", ..] => beside_first("53", writing),
        ["refused", "54", ..] => too_small(writing, &wrong()),
        ["refused", "55", "0", ..] => bad_count(writing, &wrong()),
        ["refused", "55", line, ..] => bad_entry(writing, line, &wrong()),
        ["refused", "56", line, ..] => out_of_reach(writing, line, &wrong()),
        ["written", ..] => written(writing),
        _ => Vec::new(),
    };
    sorts.extend(shown(&[
        (writing.party == 0, "party 0"),
        (writing.party != 0, "another party"),
        (writing.primary != own_primary(&writing.sheet), "the primary is not the sheet's"),
    ]));
    sorts.into_iter().collect()
}

/// A refusal of the sheet or the primary, and what else is wrong. What is out of reach is not asked, for the sheet says it.
fn beside_first(number: &str, writing: &Writing) -> Vec<String> {
    let given = Given { writing, call: &second::answer };
    let bad = entries(writing).iter().any(|entry| !RIGHT.is_given(&given, entry));
    let also = shown(&[
        (writing.size < LEAST_BYTES, "a small buffer"), (!(RIGHT.counts)(writing.lists.counts), "a bad count"), (bad, "a bad entry"),
    ]);
    [number.to_string()].into_iter().chain(also.iter().map(|also| format!("{number}, {also} too"))).collect()
}

fn too_small(writing: &Writing, wrong: &Wrong) -> Vec<String> {
    shown(&[
        (wrong.small, "54"), (wrong.count, "54, a bad count too"), (!wrong.bad.is_empty(), "54, a bad entry too"),
        (!wrong.far.is_empty(), "54, one out of reach too"), (writing.size == 0, "54 of 0 bytes"),
        (writing.size == LEAST_BYTES - 1, "54 of 4095 bytes"),
    ])
}

fn bad_count(writing: &Writing, wrong: &Wrong) -> Vec<String> {
    let [triggers, conditions] = writing.lists.counts;
    let good = [(1..=4).contains(&triggers), conditions <= 4];
    let high = |count: u32, least: u32| count > 255 && [0xff, 0xffff, 0x7fff_ffff].iter().any(|mask| (least..=4).contains(&(count & mask)));
    shown(&[
        (true, "55"), (true, "55 at 0"), (!wrong.bad.is_empty(), "55 at 0, a bad entry too"), (triggers == 0, "55 by 0 triggers"),
        (triggers == 5, "55 by 5 triggers"), (triggers == u32::MAX, "55 by 4294967295 triggers"), (conditions == 5, "55 by 5 conditions"),
        (conditions == u32::MAX, "55 by 4294967295 conditions"),
        (high(triggers, 1) && good[1] || high(conditions, 0) && good[0], "55 by a count's high bits"), (good == [false; 2], "55 by both counts"),
    ])
}

fn bad_entry(writing: &Writing, line: &str, wrong: &Wrong) -> Vec<String> {
    let mut sorts = vec!["55".to_string(), format!("55 at {line}")];
    let Some(first) = wrong.bad.first() else { return sorts };
    sorts.extend(shown(&[
        (wrong.far.first().is_some_and(|far| far.ordinal < first.ordinal), "55, one out of reach before it"),
        (wrong.bad.len() > 1, "55, another behind it"),
    ]));
    sorts.extend(faults(writing, first));
    sorts
}

/// What the single fault of an entry is.
fn faults(writing: &Writing, entry: &Entry) -> Vec<String> {
    let (words, row) = (&entry.row.words, named(entry.list, &entry.row.words));
    let given = Given { writing, call: &second::answer };
    let text = given.text(entry.row.from);
    let held = |range: Range, at: usize| Held { range, text, start: words[at], length: words[at + 1] };
    let misfits = |at: usize| match row[at].word.role {
        Role::Start(range) => !held(range, at).fits(),
        Role::Low => !(RIGHT.number)(number(words[at], words[at + 1])),
        role => !role.fits(words[at]),
    };
    let has_name = row.iter().any(|named| matches!(named.word.role, Role::Start(_)));
    let unfit: Vec<usize> = (0..ENTRY).filter(|&at| misfits(at)).collect();
    if !(RIGHT.from)(entry.row.from) {
        let others_fit = unfit.iter().all(|&at| matches!(row[at].word.role, Role::Start(_)));
        return if others_fit { bad_from(entry.row.from, has_name) } else { Vec::new() };
    }
    let [at] = unfit[..] else { return Vec::new() };
    let Named { word: Word { role, .. }, label } = &row[at];
    match role {
        Role::Start(range) => {
            let faults = name_faults(held(*range, at));
            faults.iter().map(|fault| format!("55 by a {}: {fault}", range_name(*range))).collect()
        }
        Role::Low => {
            let name = if label.contains("literal") { "a literal" } else { "an added number" };
            let number = number(words[at], words[at + 1]);
            let faults = shown(&[
                (number == MOST_NUMBER + 1, " past its most"), (number == -MOST_NUMBER - 1, " past its least"),
                (words[at] <= MOST_NUMBER as u32, "'s high word"),
            ]);
            faults.iter().map(|fault| format!("55 by {name}{fault}")).collect()
        }
        role => {
            let missed = role_name(*role).zip(miss(*role, words[at])).map(|(name, miss)| format!("55 by {name}: {miss}"));
            missed.into_iter().chain([format!("55 by {label}")]).collect()
        }
    }
}

fn bad_from(from: u32, has_name: bool) -> Vec<String> {
    shown(&[
        (from == 0, "55 by FROM 0"), (from == 3, "55 by FROM 3"), (from == u32::MAX, "55 by FROM 4294967295"),
        (from > 255 && [1, 2].contains(&(from & 0xff)), "55 by the high bits of FROM"), (from == 0 && !has_name, "55 by FROM 0 without a name"),
        (from == 3 && !has_name, "55 by FROM 3 without a name"),
    ])
}

fn name_faults(held: Held) -> Vec<String> {
    let (size, most) = (held.text.len() as u64, if held.range == Range::Text { 16 } else { 48 });
    let begins_inside = u64::from(held.start) <= size;
    let Some(bytes) = held.bytes() else {
        let past_words = held.end() > u32::MAX.into();
        return shown(&[(begins_inside, "ends past its text"), (!begins_inside, "begins past its text"), (past_words, "ends past 32 bits")]);
    };
    let has = |byte: u8| bytes.contains(&byte);
    let (long, raw) = (bytes.len() > most, std::str::from_utf8(bytes).is_err());
    let is_name = !long && !raw && !bytes.is_empty() && !has(b'"') && !has(b'\n');
    shown(&[
        (raw && !long, "not UTF-8"), (has(b'"'), "a quote"), (has(b'\n'), "LF"), (long, "too long"), (bytes.len() == most + 1, "one byte too long"),
        (bytes.is_empty(), "empty"), (is_name && held.range == Range::Topic, "forbidden"),
    ])
}

fn out_of_reach(writing: &Writing, line: &str, wrong: &Wrong) -> Vec<String> {
    let mut sorts = vec!["56".to_string(), format!("56 at {line}")];
    let Some(first) = wrong.far.first() else { return sorts };
    let far: Vec<(Role, u32, String)> = adapters(first).filter(|(role, adapter, _)| !reached(writing, *role, *adapter)).collect();
    let in_value = far.iter().all(|(_, _, label)| label.starts_with("value "));
    sorts.extend(shown(&[(wrong.far.len() > 1, "56, another behind it"), (in_value, "56 in a value alone")]));
    if let [(role, adapter, label)] = &far[..] {
        let (own, listed) = whose(writing, *adapter);
        sorts.push(format!("56 by {label}"));
        let broadcast = *role == Role::Broadcast;
        sorts.extend(shown(&[
            (!broadcast && own, "56 by one that is not listed"), (!broadcast && !own && listed, "56 by another's that is listed"),
            (!broadcast && !own && !listed, "56 by another's that is not"), (broadcast && own && listed, "56 by broadcast on one that is listed"),
            (broadcast && own && !listed, "56 by broadcast on one that is not"), (broadcast && !own, "56 by broadcast on another's"),
        ]));
    }
    sorts
}

fn written(writing: &Writing) -> Vec<String> {
    let entries = entries(writing);
    let [triggers, conditions] = writing.lists.counts;
    let mut sorts = vec![format!("T {triggers}"), format!("C {conditions}")];
    let unused = |list: List| &writing.lists.rows(list)[writing.lists.used(list).len()..];
    let past = List::BOTH.into_iter().any(|list| unused(list).iter().any(|row| row.words != [0; ENTRY]));
    let again = |one: &Entry, other: &Entry| one.ordinal < other.ordinal && one.list == other.list && one.row == other.row;
    let twice = entries.iter().any(|one| entries.iter().any(|other| again(one, other)));
    let froms: BTreeSet<u32> = entries.iter().map(|entry| entry.row.from).collect();
    let listed = whose(writing, writing.primary.into()).1;
    sorts.extend(shown(&[
        (true, "written"), (writing.size == LEAST_BYTES, "written into 4096 bytes"), (writing.size == LEAST_BYTES + 1, "written into 4097 bytes"),
        (writing.size == 2 * LEAST_BYTES, "written into 8192 bytes"), (past, "written, anything past the counts"), (twice, "written, an entry twice"),
        (froms.len() == 2, "written, both FROM"), (listed, "written, the primary is listed"), (!listed, "written, the primary is not listed"),
    ]));
    let mut ranges = BTreeSet::new();
    for entry in &entries {
        sorts.push(format!("{} FROM {}", kind(entry.list, &entry.row.words), entry.row.from));
        sorts.extend(words_of(writing, entry, &mut ranges));
    }
    sorts
}

/// What the words of a written entry show; `ranges` are those that were met so far.
fn words_of(writing: &Writing, entry: &Entry, ranges: &mut BTreeSet<(u32, u32, u32)>) -> Vec<String> {
    let (words, mut sorts) = (&entry.row.words, Vec::new());
    for (at, Named { word: Word { role, .. }, label }) in named(entry.list, words).into_iter().enumerate() {
        let word = words[at];
        match role {
            Role::Code(_) => sorts.push(format!("{label} code {word}")),
            Role::Number(_) => sorts.push(format!("{label} of {word}")),
            Role::Adapter | Role::Broadcast => {
                let is_primary = word == writing.primary.into();
                sorts.push(format!("{label} {}", if is_primary { "left out" } else { "written" }));
            }
            Role::Type => sorts.push(if word == NO_TYPE { "no type".to_string() } else { format!("type {word}") }),
            Role::Days => sorts.push(days(entry.list, word)),
            Role::Period => sorts.extend(duration("period", word)),
            Role::Age => sorts.extend(duration("age", word)),
            Role::Offset => sorts.extend(offset(word.cast_signed())),
            Role::Low => sorts.extend(signed(if label.contains("literal") { "literal" } else { "added" }, number(word, words[at + 1]))),
            Role::Start(range) => {
                let text = &writing.texts[entry.row.from as usize - 1];
                let length = words[at + 1];
                sorts.extend(name(range, text, word as usize, length as usize, entry.row.from));
                sorts.extend(shown(&[(!ranges.insert((entry.row.from, word, length)), "written, a name twice at one place")]));
            }
            Role::Length(_) | Role::High | Role::Unnamed => {}
        }
    }
    sorts
}

fn days(list: List, days: u32) -> String {
    match (list, days.count_ones()) {
        (List::Triggers, 7) => "on left out".to_string(),
        (List::Triggers, count) => format!("on {count} days"),
        (List::Conditions, 7) => "day_in of seven".to_string(),
        (List::Conditions, count) => format!("day_in of {count}"),
    }
}

fn duration(of: &str, ms: u32) -> Vec<String> {
    let long = ms > 1_000_000_000;
    let places = ms % 1_000;
    let sorts = shown(&[
        (ms == 1_000_000_000, "1000000000ms"), (ms == 1_000_000_001, "1000000.001s"),
        (long && (1..100).contains(&places), "with zeros behind the point"), (long && places.is_multiple_of(10), "with zeros at the end"),
        (ms == u32::MAX, "4294967.295s"),
    ]);
    sorts.iter().map(|sort| format!("{of} {sort}")).collect()
}

fn offset(offset: i32) -> Vec<String> {
    let long = offset.unsigned_abs() > 1_000_000_000;
    let mut sorts = duration("offset", offset.unsigned_abs());
    sorts.extend(shown(&[
        (offset == 0, "offset 0"), (offset > 0 && !long, "offset + ms"), (offset > 0 && long, "offset + s"), (offset < 0 && !long, "offset - ms"),
        (offset < 0 && long, "offset - s"), (offset == i32::MIN, "offset least"), (offset == i32::MAX, "offset most"),
    ]));
    sorts
}

fn signed(of: &str, number: i64) -> Vec<String> {
    let sorts = shown(&[
        (number == 0, "0"), (number > 0, "+"), (number < 0, "-"), (number == MOST_NUMBER, "most"), (number == -MOST_NUMBER, "least"),
    ]);
    sorts.iter().map(|sort| format!("{of} {sort}")).collect()
}

fn name(range: Range, text: &[u8], start: usize, length: usize, from: u32) -> Vec<String> {
    let bytes = &text[start..start + length];
    let (first, last, empty) = (start == 0, start + length == text.len(), length == 0);
    let quoted = start > 0 && text[start - 1] == b'"' && text.get(start + length) == Some(&b'"');
    let most = if range == Range::Text { 16 } else { 48 };
    let has = |byte: u8| bytes.contains(&byte);
    let sorts = shown(&[
        (first && !empty, "at the start"), (last && !empty, "at the end"), (first && last && !empty, "the whole text"),
        (length == most, "as long as can be"), (from == 2, "in the second text"), (quoted, "between quotes"), (!quoted, "not between quotes"),
        (!bytes.is_ascii(), "not ASCII"), (has(b' '), "with a blank"), (has(b'\r'), "with CR"), (has(0), "with NUL"), (has(b'#'), "with #"),
        (has(b'+'), "with +"), (empty, "empty"), (empty && last, "empty at the end"),
    ]);
    let of_text = shown(&[
        (std::str::from_utf8(text).is_err(), "written, a text not UTF-8"), (text.len() > LONGEST_RULE, "written, a text of more than 16384 bytes"),
    ]);
    sorts.iter().map(|sort| format!("a {} {sort}", range_name(range))).chain(of_text).collect()
}
