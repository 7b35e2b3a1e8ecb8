//! What a join shows of document 02 §3: which text is refused and with what, which triggers are dropped and which stay apart, in which words, for
//! what conditions differ, and which topics decide.

use super::calls::{both, bytes, different, is_string, lent_and, lines, Called, Entry, Lists};
use super::fields::{self, alone};
use crate::features;
use crate::tokens::shown;
use cases::{own_primary, Join, LEAST_WORDS, MOST_TOKENS};
use std::collections::{BTreeSet, HashMap};
use std::sync::OnceLock;

const LONGEST_TEXT: usize = 16_384;
const MOST: usize = 4;
const MOST_TOPICS: usize = 8;

/// What no other list has. `first refused, the second ...` is a refusal of the first text, with the second's fault behind it; `51 for 52` a 51 with too
/// many triggers too; `four of N` four triggers left of so many.
const OTHERS: &[&str] = &[
    "both refused", "both refused with one number", "both refused, the second's number is lower", "both refused, the second's number is higher",
    "first refused, the second not", "first refused, the second too long", "first refused, the second's buffer too small",
    "first refused, the second not UTF-8", "first 3, the second's buffer too small", "first 53, the second not UTF-8", "second 1 before 2",
    "second 2 before 4", "second refused, the first has conditions", "51", "52", "51 for 52", "51 for accepted", "51 by a first without conditions",
    "51 by a second without conditions", "51 by one more behind", "51 by one less behind", "51 by order alone", "51 by repeats alone",
    "51 by one entry", "51 at entry 1", "51 at entry 2", "51 at entry 3", "51 at entry 4", "51 by strings alone", "51 by a string at the same place",
    "51 by a text for a number", "51 by an added 0", "52 of 5", "52 of 6", "52 of 7", "52 of 8", "52 without repeats", "52 with a repeat in the first",
    "52 with a repeat in the second", "52 with one of both", "52 with conditions", "T 1", "T 2", "T 3", "T 4", "C 0", "C 1", "C 2", "C 3", "C 4",
    "0 from the second", "1 from the second", "2 from the second", "3 from the second", "four of 4", "four of 5", "four of 6", "four of 7",
    "four of 8", "again in the first", "again in the second", "of the first in the second", "of the first twice in the second", "a third time",
    "apart from its first place", "behind four", "kept, a name at the same place", "kept, a name with the same beginning", "kept, a name as long",
    "kept, a name that begins the other", "kept, a name in another case", "a condition twice", "66 by the first's topics",
    "66 without the first's topics too", "66 by the first's topics, no last LF", "66 by a later topic of the first",
    "66 by an earlier topic of the first", "66 at trigger 1", "66 at trigger 2", "66 at trigger 3", "66 at trigger 4", "a topic of both",
    "a topic of both that is not lent", "taken as the first's, with eight named", "taken as lent, with eight named", "eight in all, with the first's",
    "eight in all, one of the first's twice", "eight in all, one of the first's lent too", "more than eight lent", "party 0", "another party",
    "the primary is not the sheet's", "the second's buffer is larger", "the first's buffer is larger", "the first of 16384 bytes, accepted",
    "the second of 16384 bytes, accepted", "1024 tokens in both, accepted",
];

/// Two equal entries in the same words or in others, behind `dropped, ` for triggers and `conditions, ` for conditions.
const WORDINGS: &[&str] = &[
    "in the same words", "in the same words elsewhere", "in other words", "other days", "another unit", "another time", "a name for a number",
    "an adapter for none", "a key for none", "a type that does not count", "in another order", "more zeros", "a string at the same place",
    "a string elsewhere",
];
const WORDINGS_OF_TRIGGERS: &[&str] = &["days for none", "an offset of 0 for none", "a word for a type"];
const WORDINGS_OF_CONDITIONS: &[&str] = &["a sign of 0", "minus 0 for plus 0"];

const TYPES: [&str; 4] = ["button", "absolute", "occupancy", "light"];

/// What the first text can be refused with, and the second: 3 and 53 are always the first's.
const NOT_OF_THE_SECOND: &[&str] = &["3", "53"];

/// Every sort that there is.
pub fn all() -> &'static [String] {
    static ALL: OnceLock<Vec<String>> = OnceLock::new();
    ALL.get_or_init(|| {
        let prefixed = |prefix: &'static str, words: &[&str]| words.iter().map(|word| format!("{prefix}{word}")).collect::<Vec<_>>();
        let refusals: Vec<&str> = features::REFUSALS.iter().copied().filter(|number| !features::OF_THE_PROFILE.contains(number)).collect();
        let of_second: Vec<&str> = refusals.iter().copied().filter(|number| !NOT_OF_THE_SECOND.contains(number)).collect();
        let values: Vec<String> = fields::WITH_VALUES.iter().map(|(first, _)| format!("51 by {first} value")).collect();
        let named = |prefix: &'static str, names: Vec<String>| names.into_iter().map(move |name| format!("{prefix}{name}")).collect::<Vec<_>>();
        [
            prefixed("first ", &refusals), prefixed("second ", &of_second), prefixed("", OTHERS), prefixed("dropped, ", WORDINGS),
            prefixed("dropped, ", WORDINGS_OF_TRIGGERS), prefixed("conditions, ", WORDINGS), prefixed("conditions, ", WORDINGS_OF_CONDITIONS),
            prefixed("dropped ", features::TRIGGERS), prefixed("from the second ", features::TRIGGERS), prefixed("equal conditions ", features::CONDITIONS),
            named("kept apart by ", fields::all(fields::TRIGGERS)), named("51 by ", fields::all(fields::CONDITIONS)), values,
            named("51 by value ", fields::all(fields::VALUES)),
        ].concat()
    })
}

/// The place of a sort among all.
pub fn place(sort: &str) -> Option<usize> {
    static PLACES: OnceLock<HashMap<String, usize>> = OnceLock::new();
    PLACES.get_or_init(|| all().iter().cloned().zip(0..).collect()).get(sort).copied()
}

/// The sorts that a join with this answer shows, each once.
pub fn sorts(join: &Join, answer: &str) -> BTreeSet<String> {
    let (first, second) = both(join, &second::answer);
    let mut sorts = match (&first.said, second.as_ref().map(|second| &second.said)) {
        (Err(refusal), _) => first_refused(join, refusal),
        (Ok(one), Some(Err(refusal))) => second_refused(join, one, refusal, second.as_ref().map_or("", |second| &second.records)),
        (Ok(one), Some(Ok(two))) if answer.contains("\nrefused 0 51 ") => other_conditions(one, two),
        (Ok(one), Some(Ok(two))) if answer.contains("\nrefused 0 52 ") => too_many(one, two),
        (Ok(one), Some(Ok(two))) => [accepted(join, one, two), of_most(join, answer)].concat(),
        (Ok(_), None) => Vec::new(),
    };
    sorts.extend(shown(&[
        (join.party == 0, "party 0"),
        (join.party != 0, "another party"),
        (join.primary != own_primary(&join.sheet), "the primary is not the sheet's"),
        (join.words[0] < join.words[1], "the second's buffer is larger"),
        (join.words[0] > join.words[1], "the first's buffer is larger"),
    ]));
    sorts.into_iter().collect()
}

/// An accepted join of texts that are as long as there may be, or that have as many tokens.
fn of_most(join: &Join, answer: &str) -> Vec<String> {
    let [first, second] = [&join.texts[0], &join.texts[1]].map(|text| text.len() == LONGEST_TEXT);
    shown(&[
        (first, "the first of 16384 bytes, accepted"),
        (second, "the second of 16384 bytes, accepted"),
        (answer.lines().filter(|line| line.starts_with("token ")).count() == 2 * MOST_TOKENS, "1024 tokens in both, accepted"),
    ])
}

fn number(refusal: &str) -> &str {
    refusal.split(' ').next().unwrap_or_default()
}

fn first_refused(join: &Join, refusal: &str) -> Vec<String> {
    let number = number(refusal);
    let call = join.call(1);
    let (long, small, raw) = (call.text.len() > LONGEST_TEXT, call.words < LEAST_WORDS, std::str::from_utf8(&call.text).is_err());
    let mut sorts = vec![format!("first {number}")];
    sorts.extend(shown(&[
        (long, "first refused, the second too long"),
        (small, "first refused, the second's buffer too small"),
        (raw, "first refused, the second not UTF-8"),
        (number == "3" && small, "first 3, the second's buffer too small"),
        (number == "53" && raw, "first 53, the second not UTF-8"),
    ]));
    let value = |refusal: &str| self::number(refusal).parse::<u32>().unwrap_or(0);
    match Called::of(&call, &second::answer(&call)).said {
        Ok(_) => sorts.push("first refused, the second not".to_string()),
        Err(other) => sorts.extend(shown(&[
            (true, "both refused"),
            (value(&other) == value(refusal), "both refused with one number"),
            (value(&other) < value(refusal), "both refused, the second's number is lower"),
            (value(&other) > value(refusal), "both refused, the second's number is higher"),
        ])),
    }
    sorts
}

fn second_refused(join: &Join, one: &Lists, refusal: &str, records: &str) -> Vec<String> {
    let number = number(refusal);
    let mut sorts = vec![format!("second {number}")];
    sorts.extend(shown(&[
        (number == "1" && join.words[1] < LEAST_WORDS, "second 1 before 2"),
        (number == "2" && std::str::from_utf8(&join.texts[1]).is_err(), "second 2 before 4"),
        (!one.conditions.is_empty(), "second refused, the first has conditions"),
    ]));
    if number == "66" {
        sorts.extend(one_topic_too_many(join, one, refusal, records));
    }
    sorts
}

/// A 66 of the second text: whether the first's topics make it, and which.
fn one_topic_too_many(join: &Join, one: &Lists, refusal: &str, records: &str) -> Vec<String> {
    let behind = |topics: &[Vec<u8>]| {
        let call = join.call(1).with_topics(lent_and(&join.topics, topics));
        Called::of(&call, &second::answer(&call)).said.err().as_deref() == Some(refusal)
    };
    let topics = one.topics();
    let by_first = !behind(&[]);
    let place: Vec<&str> = refusal.split(' ').collect();
    let end = format!(" {} {}", place[1], place[2]);
    let before = records.lines().take_while(|line| !line.ends_with(&end));
    let text = String::from_utf8_lossy(&join.texts[1]);
    let answer: String = before.map(|line| format!("{line}\n")).collect();
    let whens = crate::tokens::tokens(&text, &answer).filter(|token| token.is_word("when")).count();
    let mut sorts = vec![format!("66 at trigger {whens}")];
    sorts.extend(shown(&[
        (by_first, "66 by the first's topics"),
        (!by_first, "66 without the first's topics too"),
        (by_first && !join.topics.is_empty() && !join.topics.ends_with(b"\n"), "66 by the first's topics, no last LF"),
        (by_first && topics.len() > 1 && !behind(&topics[..1]), "66 by a later topic of the first"),
        (by_first && topics.len() > 1 && !behind(&topics[topics.len() - 1..]), "66 by an earlier topic of the first"),
    ]));
    sorts
}

fn sorted(list: &[Entry]) -> Vec<&str> {
    let mut lines = lines(list);
    lines.sort_unstable();
    lines
}

fn other_conditions(one: &Lists, two: &Lists) -> Vec<String> {
    let [a, b] = [one, two].map(|lists| lists.conditions.as_slice());
    let begins = |front: &[Entry], whole: &[Entry]| front.len() < whole.len() && lines(front) == lines(&whole[..front.len()]);
    let set = |list: &[Entry]| lines(list).into_iter().map(String::from).collect::<BTreeSet<_>>();
    let differing: Vec<usize> = (0..a.len().min(b.len())).filter(|&at| a[at].line != b[at].line).collect();
    let crowded = different([one, two]).len() > MOST;
    let mut sorts = shown(&[
        (true, "51"),
        (crowded, "51 for 52"),
        (!crowded, "51 for accepted"),
        (a.is_empty(), "51 by a first without conditions"),
        (b.is_empty(), "51 by a second without conditions"),
        (!a.is_empty() && begins(a, b), "51 by one more behind"),
        (!b.is_empty() && begins(b, a), "51 by one less behind"),
        (sorted(a) == sorted(b), "51 by order alone"),
        (sorted(a) != sorted(b) && set(a) == set(b), "51 by repeats alone"),
    ]);
    if let ([at], true) = (&differing[..], a.len() == b.len()) {
        sorts.push("51 by one entry".to_string());
        sorts.push(format!("51 at entry {}", at + 1));
        sorts.extend(one_other_condition(&a[*at], &b[*at]));
    }
    sorts
}

fn one_other_condition(a: &Entry, b: &Entry) -> Vec<String> {
    let without = |entry: &Entry| entry.with_strings(|_, _| String::new());
    let digits = |value: &str| value.strip_prefix("value literal ").map(|number| number.as_bytes().to_vec());
    let text = |value: &str| value.strip_prefix("text ").map(bytes);
    let number_or_text = |entry: &Entry| entry.line.splitn(4, ' ').nth(3).and_then(|value| digits(value).or_else(|| text(value)));
    let both_vars = [a, b].iter().all(|entry| entry.line.starts_with("var_compare "));
    let plain = |entry: &Entry| entry.line.replace(" offset ", " reading ");
    let added = [(a, b), (b, a)].iter().any(|(one, other)| plain(one).strip_suffix(" 0") == Some(&other.line));
    let mut sorts: Vec<String> = alone(&a.line, &b.line).into_iter().map(|sort| format!("51 by {sort}")).collect();
    sorts.extend(shown(&[
        (without(a) == without(b), "51 by strings alone"),
        (a.by_places() == b.by_places(), "51 by a string at the same place"),
        (both_vars && number_or_text(a).is_some() && number_or_text(a) == number_or_text(b), "51 by a text for a number"),
        (added, "51 by an added 0"),
    ]));
    sorts
}

/// All triggers of both texts, as they come.
fn all_triggers<'a>(one: &'a Lists, two: &'a Lists) -> Vec<(u8, &'a Entry)> {
    one.triggers.iter().map(|trigger| (1, trigger)).chain(two.triggers.iter().map(|trigger| (2, trigger))).collect()
}

/// Of a trigger that is dropped: the places of it and of the first that is equal.
fn repeats(all: &[(u8, &Entry)]) -> Vec<(usize, usize)> {
    let first = |at: usize| all.iter().position(|(_, entry)| entry.line == all[at].1.line).expect("it stands there itself");
    (0..all.len()).map(|at| (at, first(at))).filter(|(at, first)| first < at).collect()
}

fn too_many(one: &Lists, two: &Lists) -> Vec<String> {
    let (count, all) = (different([one, two]).len(), all_triggers(one, two));
    let repeats = repeats(&all);
    let has = |from: u8, of: u8| repeats.iter().any(|(at, first)| all[*at].0 == from && all[*first].0 == of);
    let mut sorts = vec!["52".to_string(), format!("52 of {count}")];
    sorts.extend(shown(&[
        (repeats.is_empty(), "52 without repeats"),
        (has(1, 1), "52 with a repeat in the first"),
        (has(2, 2), "52 with a repeat in the second"),
        (has(2, 1), "52 with one of both"),
        (!one.conditions.is_empty(), "52 with conditions"),
    ]));
    sorts
}

fn accepted(join: &Join, one: &Lists, two: &Lists) -> Vec<String> {
    let (kept, all) = (different([one, two]), all_triggers(one, two));
    let second = kept.iter().filter(|(from, _)| *from == 2);
    let mut sorts = vec![format!("T {}", kept.len()), format!("C {}", one.conditions.len()), format!("{} from the second", second.clone().count())];
    sorts.extend(second.map(|(_, entry)| format!("from the second {}", entry.fields()[0])));
    if kept.len() == MOST {
        sorts.push(format!("four of {}", all.len()));
    }
    for (at, first) in repeats(&all) {
        sorts.extend(dropped(&all, at, first));
    }
    for (nth, (_, one)) in kept.iter().enumerate() {
        for (_, other) in &kept[nth + 1..] {
            sorts.extend(kept_apart(one, other));
        }
    }
    for (a, b) in one.conditions.iter().zip(&two.conditions) {
        sorts.push(format!("equal conditions {}", a.fields()[0]));
        sorts.extend(wordings("conditions, ", a, b));
    }
    let conditions: BTreeSet<&str> = lines(&one.conditions).into_iter().collect();
    sorts.extend(shown(&[(conditions.len() < one.conditions.len(), "a condition twice")]));
    sorts.extend(topics(join, one, two));
    sorts
}

fn dropped(all: &[(u8, &Entry)], at: usize, first: usize) -> Vec<String> {
    let line = |at: usize| &all[at].1.line;
    let before = |from: u8| (0..at).filter(|&other| line(other) == line(at) && all[other].0 == from).count();
    let different: BTreeSet<&String> = (0..at).map(line).collect();
    let (from, of) = (all[at].0, all[first].0);
    let mut sorts = vec![format!("dropped {}", all[at].1.fields()[0])];
    sorts.extend(shown(&[
        ((from, of) == (1, 1), "again in the first"),
        ((from, of) == (2, 2), "again in the second"),
        ((from, of) == (2, 1), "of the first in the second"),
        (from == 2 && before(1) > 0 && before(2) > 0, "of the first twice in the second"),
        (before(1) + before(2) > 1, "a third time"),
        (at - first > 1, "apart from its first place"),
        (different.len() == MOST, "behind four"),
    ]));
    sorts.extend(wordings("dropped, ", all[first].1, all[at].1));
    sorts
}

/// Two triggers that both stay: in what they differ alone, and how their names differ if nothing else does.
fn kept_apart(one: &Entry, other: &Entry) -> Vec<String> {
    let mut sorts: Vec<String> = alone(&one.line, &other.line).into_iter().map(|sort| format!("kept apart by {sort}")).collect();
    let ([kind, a], [other_kind, b]) = (&one.fields()[..], &other.fields()[..]) else { return sorts };
    if kind != other_kind || !is_string(a) || !is_string(b) {
        return sorts;
    }
    let (a, b) = (bytes(a), bytes(b));
    let start = |entry: &Entry| entry.with_strings(|start, _| start.to_string());
    sorts.extend(shown(&[
        (one.by_places() == other.by_places(), "kept, a name at the same place"),
        (start(one) == start(other) && a.len() != b.len(), "kept, a name with the same beginning"),
        (a.len() == b.len(), "kept, a name as long"),
        (a.starts_with(&b) || b.starts_with(&a), "kept, a name that begins the other"),
        (a.eq_ignore_ascii_case(&b), "kept, a name in another case"),
    ]));
    sorts
}

/// The words of an entry that are of a kind.
fn picked(entry: &Entry, is: impl Fn(&str) -> bool) -> Vec<&str> {
    entry.words.iter().map(String::as_str).filter(|word| is(word)).collect()
}

/// How two equal entries are written.
fn wordings(prefix: &str, one: &Entry, other: &Entry) -> Vec<String> {
    let digit = |word: &str| word.starts_with(|c: char| c.is_ascii_digit());
    let string = |word: &str| word.starts_with('"');
    let has = |entry: &Entry, words: &[&str]| entry.words.iter().any(|word| words.contains(&word.as_str()));
    let differ = |words: &[&str]| has(one, words) != has(other, words);
    let count = |is: &dyn Fn(&str) -> bool| (picked(one, is).len(), picked(other, is).len());
    let other_words = |is: &dyn Fn(&str) -> bool| {
        let words = (picked(one, is), picked(other, is));
        words.0.len() == words.1.len() && words.0 != words.1
    };
    let mut sorted = [one, other].map(|entry| entry.words.clone());
    sorted.iter_mut().for_each(|words| words.sort());
    let same = one.words == other.words;
    let kind = one.fields()[0];
    let (at, solar, days) = (kind.starts_with("at_"), kind == "at_solar", |word: &str| generate::vocabulary::DAYS.contains(&word));
    let strings = one.fields().into_iter().any(is_string);
    let strings_count = count(&string);
    let sorts = shown(&[
        (same, "in the same words"),
        (same && one.start != other.start, "in the same words elsewhere"),
        (!same, "in other words"),
        (at && differ(&["on"]), "days for none"),
        ((at || kind == "day_in") && !differ(&["on"]) && picked(one, days) != picked(other, days), "other days"),
        (solar && differ(&["+", "-"]), "an offset of 0 for none"),
        (other_words(&|word| digit(word) && word.ends_with(|c: char| c.is_ascii_alphabetic())), "another unit"),
        (other_words(&|word| digit(word) && word.contains(':')), "another time"),
        (strings_count.0 != strings_count.1, "a name for a number"),
        (differ(&["adapter"]), "an adapter for none"),
        (differ(&["dev"]) || differ(&["inst"]), "a key for none"),
        (one.words.iter().any(|word| word == "input") && differ(&["type"]), "a type that does not count"),
        (has(one, &["type"]) && has(other, &["type"]) && differ(&TYPES), "a word for a type"),
        (!same && sorted[0] == sorted[1], "in another order"),
        (other_words(&|word| word.bytes().all(|b| b.is_ascii_digit())), "more zeros"),
        (one.line.ends_with("literal 0") && differ(&["-"]), "a sign of 0"),
        (one.line.contains(" offset ") && one.line.ends_with(" 0") && differ(&["-"]), "minus 0 for plus 0"),
        (strings && one.by_places() == other.by_places(), "a string at the same place"),
        (strings && one.by_places() != other.by_places(), "a string elsewhere"),
    ]);
    sorts.into_iter().map(|sort| format!("{prefix}{sort}")).collect()
}

/// The topics of two accepted texts and the lent ones.
fn topics(join: &Join, one: &Lists, two: &Lists) -> Vec<String> {
    let lent: BTreeSet<Vec<u8>> = join.topics.split(|&b| b == b'\n').filter(|line| !line.is_empty()).map(<[u8]>::to_vec).collect();
    let (first, second) = (one.topics(), two.topics());
    let firsts: BTreeSet<Vec<u8>> = first.iter().cloned().collect();
    let earlier: BTreeSet<Vec<u8>> = lent.union(&firsts).cloned().collect();
    let mut named = earlier.clone();
    let (mut as_first, mut as_lent) = (false, false);
    for topic in &second {
        let full = named.len() >= MOST_TOPICS;
        as_first |= full && firsts.contains(topic) && !lent.contains(topic);
        as_lent |= full && lent.contains(topic);
        named.insert(topic.clone());
    }
    let eight = named.len() == MOST_TOPICS && second.iter().any(|topic| !earlier.contains(topic)) && firsts.iter().any(|topic| !lent.contains(topic));
    shown(&[
        (second.iter().any(|topic| firsts.contains(topic)), "a topic of both"),
        (second.iter().any(|topic| firsts.contains(topic) && !lent.contains(topic)), "a topic of both that is not lent"),
        (as_first, "taken as the first's, with eight named"),
        (as_lent, "taken as lent, with eight named"),
        (eight, "eight in all, with the first's"),
        (eight && first.iter().any(|topic| !lent.contains(topic) && first.iter().filter(|other| *other == topic).count() > 1), "eight in all, one of the first's twice"),
        (eight && firsts.iter().any(|topic| lent.contains(topic)), "eight in all, one of the first's lent too"),
        (lent.len() > MOST_TOPICS && !first.is_empty() && !second.is_empty(), "more than eight lent"),
    ])
}
