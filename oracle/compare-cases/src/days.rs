//! What a case shows of document 02 §1: which sets of days are read, where they stand and how they are written, and what is refused in
//! one, behind one and before one.

use crate::profile::refused_by_profile;
use crate::tokens::{is, refusal, shown, token_at, tokens, Token, COMMA, DURATION, MINUS, PLUS, POINT, POINTS, TIME, WORD};
use cases::{Case, Habit, MOST_TOKENS};

/// `mon` is the day alone in its set, `mon..tue` the range alone; `seven` tells how all days are written. `50 for N` is a 50 where the same call
/// says N with `mon` in the place of that word. `N first` is another refusal, with a word behind it that is no day.
pub const SORTS: &[&str] = &[
    "mon", "tue", "wed", "thu", "fri", "sat", "sun",
    "mon..mon", "mon..tue", "mon..wed", "mon..thu", "mon..fri", "mon..sat", "mon..sun",
    "tue..mon", "tue..tue", "tue..wed", "tue..thu", "tue..fri", "tue..sat", "tue..sun",
    "wed..mon", "wed..tue", "wed..wed", "wed..thu", "wed..fri", "wed..sat", "wed..sun",
    "thu..mon", "thu..tue", "thu..wed", "thu..thu", "thu..fri", "thu..sat", "thu..sun",
    "fri..mon", "fri..tue", "fri..wed", "fri..thu", "fri..fri", "fri..sat", "fri..sun",
    "sat..mon", "sat..tue", "sat..wed", "sat..thu", "sat..fri", "sat..sat", "sat..sun",
    "sun..mon", "sun..tue", "sun..wed", "sun..thu", "sun..fri", "sun..sat", "sun..sun",
    "1 day", "2 days", "3 days", "4 days", "5 days", "6 days", "seven behind a time", "seven behind a sun", "seven behind an offset",
    "seven as a condition", "seven as a range", "seven as ranges", "seven as single days", "seven as both", "a day twice", "a range twice",
    "a day of a range", "ranges that share days", "a day behind a range", "a range behind a day", "a range behind a range", "behind a time",
    "behind a sun", "behind an offset", "as a condition", "in trigger 1", "in trigger 2", "in trigger 3", "in trigger 4", "in condition 1",
    "in condition 2", "in condition 3", "in condition 4", "before when", "before if", "before and", "before the end", "before sun is",
    "eight sets", "13 tokens", "100 tokens", "the most tokens", "of the default call", "of the archive call", "of the shop call",
    "beside a refusal of the profile", "50 first", "50 behind a comma", "50 behind ..", "50 behind a range and a comma", "50 behind a time",
    "50 behind a sun", "50 behind an offset", "50 as a condition", "50 at capitals", "50 at a longer word", "50 at a shorter word",
    "50 at sunrise or sunset", "50 at when", "50 at if", "50 at and", "50 at on", "50 at in", "50 at another word", "50 for accepted",
    "50 for 20", "50 for 41", "50 for 50", "50 for another", "50 in trigger 1", "50 in trigger 2", "50 in trigger 3", "50 in trigger 4",
    "50 in condition 1", "50 in condition 2", "50 in condition 3", "50 in condition 4", "50 past line 1", "50 at the last token",
    "50 of the default call", "50 of the archive call", "50 of the shop call", "20 first", "20 behind a comma", "20 behind ..",
    "20 behind a time", "20 behind a sun", "20 behind an offset", "20 as a condition", "20 at a string", "20 at an integer", "20 at a time",
    "20 at a duration", "20 at a decimal", "20 at a comma", "20 at a point behind ..", "20 at another sign", "20 at the end first",
    "20 at the end behind a comma", "20 at the end behind ..", "20 for in at a day", "20 for in at another word", "20 for in at another token",
    "20 for in at the end", "41 at .. behind a range", "41 at on behind a set", "41 at a day behind a set", "41 at another word behind a set",
    "41 at a point behind a set", "41 at another token behind a set", "41 at on behind another trigger", "41 at on behind a condition",
    "21 at day", "21 at a day", "36 first", "lexing first", "19 first", "37 first", "39 first", "another first",
];

const NAMES: [&str; 7] = ["mon", "tue", "wed", "thu", "fri", "sat", "sun"];
const ALL: u32 = 0x7F;

fn day(token: &Token) -> Option<usize> {
    NAMES.iter().position(|name| token.is_word(name))
}

/// A day, or a range with its last day.
type Item = (usize, Option<usize>);

fn mask((from, to): Item) -> u32 {
    let to = to.unwrap_or(from);
    let is_in = |day: usize| if from <= to { (from..=to).contains(&day) } else { day >= from || day <= to };
    (0..NAMES.len()).filter(|&day| is_in(day)).map(|day| 1 << day).sum()
}

/// A set of days among the tokens, as far as it goes on as one.
struct Set {
    place: &'static str,
    /// Its first token, behind `on` or `in`.
    first: usize,
    items: Vec<Item>,
    /// The token behind the set, or the one in the place of a day.
    end: usize,
    whole: bool,
}

/// Where the set stands whose first token this is, if one may stand there.
fn place(tokens: &[Token], first: usize) -> Option<&'static str> {
    let word = |back: usize| first.checked_sub(back).map(|at| &tokens[at]).filter(|token| token.kind == WORD).map_or("", |token| token.text);
    let kind = |back: usize| first.checked_sub(back).map_or(0, |at| tokens[at].kind);
    let sun = |back: usize| matches!(word(back), "sunrise" | "sunset");
    let at = |back: usize| (word(back + 1), word(back)) == ("when", "at");
    match word(1) {
        "in" if word(2) == "day" && matches!(word(3), "if" | "and") => Some("as a condition"),
        "on" if kind(2) == TIME && at(3) => Some("behind a time"),
        "on" if sun(2) && at(3) => Some("behind a sun"),
        "on" if kind(2) == DURATION && matches!(kind(3), PLUS | MINUS) && sun(4) && at(5) => Some("behind an offset"),
        _ => None,
    }
}

fn set(tokens: &[Token], first: usize) -> Option<Set> {
    let mut set = Set { place: place(tokens, first)?, first, items: Vec::new(), end: first, whole: false };
    loop {
        let Some(from) = tokens.get(set.end).and_then(day) else { return Some(set) };
        set.end += 1;
        let mut to = None;
        if is(tokens, set.end, POINTS) {
            set.end += 1;
            to = tokens.get(set.end).and_then(day);
            if to.is_none() {
                return Some(set);
            }
            set.end += 1;
        }
        set.items.push((from, to));
        if !is(tokens, set.end, COMMA) {
            set.whole = true;
            return Some(set);
        }
        set.end += 1;
    }
}

/// Whether a token stands in a trigger or a condition, and in which of them.
fn section(tokens: &[Token], at: usize) -> String {
    let count = |words: &[&str]| tokens[..at].iter().filter(|token| words.iter().any(|word| token.is_word(word))).count();
    match count(&["if", "and"]) {
        0 => format!("in trigger {}", count(&["when"])),
        nth => format!("in condition {nth}"),
    }
}

fn of_call(case: &Case) -> &'static str {
    match case.habit() {
        Habit::Rule => "of the default call",
        Habit::Archive => "of the archive call",
        Habit::Shop => "of the shop call",
    }
}

/// The sorts that a case shows with this answer.
pub fn sorts(case: &Case, answer: &str) -> Vec<String> {
    let Ok(text) = std::str::from_utf8(&case.text) else { return Vec::new() };
    if !NAMES.iter().chain(&["on", "day"]).any(|word| text.contains(word)) {
        return Vec::new();
    }
    let tokens: Vec<Token> = tokens(text, answer).collect();
    let sets: Vec<Set> = (0..=tokens.len()).filter_map(|first| set(&tokens, first)).collect();
    let Some((number, place)) = refusal(answer) else { return accepted(case, &tokens, &sets) };
    if refused_by_profile(answer) {
        return shown(&[(!sets.is_empty(), "beside a refusal of the profile")]);
    }
    let at = token_at(&tokens, place);
    let mut sorts = first(number, &tokens, &sets, at);
    let faulty = sets.iter().find(|set| set.end == at && !set.whole);
    match (number, faulty) {
        ("50", Some(set)) => sorts.extend(no_day(case, &tokens, set, place)),
        ("20", Some(set)) => sorts.extend(no_word(&tokens, set)),
        ("20", None) => sorts.extend(no_in(&tokens, at)),
        ("41", _) => sorts.extend(behind(&tokens, &sets, at)),
        ("21", _) => sorts.extend(shown(&[(tokens[at].is_word("day"), "21 at day"), (day(&tokens[at]).is_some(), "21 at a day")])),
        _ => {}
    }
    sorts
}

/// Another refusal than 50, and a word behind it that is no day.
fn first(number: &str, tokens: &[Token], sets: &[Set], at: usize) -> Vec<String> {
    let later = |set: &&Set| !set.whole && is(tokens, set.end, WORD) && (set.end > at || at == tokens.len());
    let Some(set) = sets.iter().find(later).filter(|_| number != "50") else { return Vec::new() };
    let sort = match number.parse() {
        Ok(10..=18) => "lexing first",
        Ok(19) => "19 first",
        Ok(36) if set.first == at + 2 => "36 first",
        Ok(37) => "37 first",
        Ok(39) => "39 first",
        _ => "another first",
    };
    vec![sort.to_string()]
}

fn accepted(case: &Case, tokens: &[Token], sets: &[Set]) -> Vec<String> {
    let mut sorts: Vec<String> = sets.iter().flat_map(|set| read(tokens, set)).collect();
    if !sets.is_empty() {
        sorts.push(of_call(case).to_string());
    }
    sorts.extend(shown(&[(sets.len() == 8, "eight sets")]));
    sorts
}

/// A set that is read.
fn read(tokens: &[Token], set: &Set) -> Vec<String> {
    let items = &set.items;
    let all = items.iter().fold(0, |all, &item| all | mask(item));
    let ranges = items.iter().filter(|item| item.1.is_some()).count();
    let mut sorts = vec![set.place.to_string(), section(tokens, set.first)];
    sorts.push(match all.count_ones() {
        7 => format!("seven {}", set.place),
        1 => "1 day".to_string(),
        count => format!("{count} days"),
    });
    match items[..] {
        [(from, None)] => sorts.push(NAMES[from].to_string()),
        [(from, Some(to))] => sorts.push(format!("{}..{}", NAMES[from], NAMES[to])),
        _ => {}
    }
    let pairs = || (0..items.len()).flat_map(|a| (0..a).map(move |b| (items[b], items[a])));
    let any = |sort: fn(Item, Item) -> bool| pairs().any(|(a, b)| sort(a, b) || sort(b, a));
    let next = |before: bool, behind: bool| items.windows(2).any(|two| two[0].1.is_some() == before && two[1].1.is_some() == behind);
    let behind = |word: &str| tokens.get(set.end).is_some_and(|token| token.is_word(word));
    let sun_is = behind("and") && (1..3).zip(["sun", "is"]).all(|(at, word)| tokens.get(set.end + at).is_some_and(|token| token.is_word(word)));
    let count = set.end - set.first;
    sorts.extend(shown(&[
        (all == ALL && items.len() == 1, "seven as a range"),
        (all == ALL && items.len() > 1 && ranges == items.len(), "seven as ranges"),
        (all == ALL && ranges == 0, "seven as single days"),
        (all == ALL && ranges > 0 && ranges < items.len(), "seven as both"),
        (any(|a, b| a == b && a.1.is_none()), "a day twice"),
        (any(|a, b| a == b && a.1.is_some()), "a range twice"),
        (any(|a, b| a.1.is_some() && b.1.is_none() && mask(a) & mask(b) != 0), "a day of a range"),
        (any(|a, b| a != b && a.1.is_some() && b.1.is_some() && mask(a) & mask(b) != 0), "ranges that share days"),
        (next(true, false), "a day behind a range"),
        (next(false, true), "a range behind a day"),
        (next(true, true), "a range behind a range"),
        (behind("when"), "before when"),
        (behind("if"), "before if"),
        (behind("and"), "before and"),
        (set.end == tokens.len(), "before the end"),
        (sun_is && tokens[set.end - 1].is_word("sun"), "before sun is"),
        (count >= 13, "13 tokens"),
        (count >= 100, "100 tokens"),
        (set.end == MOST_TOKENS, "the most tokens"),
    ]));
    sorts
}

/// Behind what a day was due, where another token or the end stands.
fn due(tokens: &[Token], set: &Set) -> &'static str {
    match set.end {
        end if end == set.first => "first",
        end if is(tokens, end - 1, COMMA) => "behind a comma",
        _ => "behind ..",
    }
}

/// 50, at a word.
fn no_day(case: &Case, tokens: &[Token], set: &Set, place: &str) -> Vec<String> {
    let token = &tokens[set.end];
    let lower = token.text.to_lowercase();
    let word = match token.text {
        "when" | "if" | "and" | "on" | "in" => token.text,
        "sunrise" | "sunset" => "sunrise or sunset",
        _ if NAMES.contains(&lower.as_str()) => "capitals",
        text if NAMES.iter().any(|name| text.starts_with(name)) => "a longer word",
        text if NAMES.iter().any(|name| name.starts_with(text)) => "a shorter word",
        _ => "another word",
    };
    let mut text = case.text.clone();
    text.splice(token.start..token.start + token.text.len(), *b"mon");
    let otherwise = second::answer(&Case { text, ..case.clone() });
    let otherwise = match refusal(&otherwise).map(|(number, _)| number) {
        None => "accepted",
        Some(number @ ("20" | "41" | "50")) => number,
        Some(_) => "another",
    };
    let behind_range = due(tokens, set) == "behind a comma" && set.items.last().is_some_and(|item| item.1.is_some());
    let mut sorts = vec![
        format!("50 {}", due(tokens, set)), format!("50 {}", set.place), format!("50 at {word}"), format!("50 for {otherwise}"),
        format!("50 {}", section(tokens, set.first)), format!("50 {}", of_call(case)),
    ];
    sorts.extend(shown(&[
        (behind_range, "50 behind a range and a comma"), (!place.starts_with("1 "), "50 past line 1"), (set.end + 1 == tokens.len(), "50 at the last token"),
    ]));
    sorts
}

/// 20, at what is no word in the place of a day.
fn no_word(tokens: &[Token], set: &Set) -> Vec<String> {
    const KINDS: [&str; 5] = ["a string", "an integer", "a time", "a duration", "a decimal"];
    let due = due(tokens, set);
    let at = match tokens.get(set.end).map(|token| token.kind) {
        None => format!("20 at the end {due}"),
        Some(kind @ 2..=6) => format!("20 at {}", KINDS[kind as usize - 2]),
        Some(COMMA) => "20 at a comma".to_string(),
        Some(POINT) if due == "behind .." => "20 at a point behind ..".to_string(),
        Some(_) => "20 at another sign".to_string(),
    };
    vec![at, format!("20 {due}"), format!("20 {}", set.place)]
}

/// 20, where `in` is due behind the condition `day`.
fn no_in(tokens: &[Token], at: usize) -> Vec<String> {
    let word = |back: usize, words: &[&str]| at.checked_sub(back).is_some_and(|at| words.iter().any(|word| tokens[at].is_word(word)));
    if !word(1, &["day"]) || !word(2, &["if", "and"]) {
        return Vec::new();
    }
    let sort = match tokens.get(at) {
        None => "20 for in at the end",
        Some(token) if day(token).is_some() => "20 for in at a day",
        Some(token) if token.kind == WORD => "20 for in at another word",
        Some(_) => "20 for in at another token",
    };
    vec![sort.to_string()]
}

/// 41, behind a set, or at `on` where no set may follow.
fn behind(tokens: &[Token], sets: &[Set], at: usize) -> Vec<String> {
    let token = &tokens[at];
    let conditions = tokens[..at].iter().any(|token| token.is_word("if"));
    let Some(set) = sets.iter().find(|set| set.end == at && set.whole) else {
        return shown(&[(token.is_word("on"), if conditions { "41 at on behind a condition" } else { "41 at on behind another trigger" })]);
    };
    let behind_range = set.items.last().is_some_and(|item| item.1.is_some());
    let sort = match token.kind {
        POINTS if behind_range => "41 at .. behind a range",
        WORD if token.text == "on" => "41 at on behind a set",
        WORD if day(token).is_some() => "41 at a day behind a set",
        WORD => "41 at another word behind a set",
        POINT => "41 at a point behind a set",
        _ => "41 at another token behind a set",
    };
    vec![sort.to_string()]
}
