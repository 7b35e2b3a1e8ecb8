//! What a case shows of document 02 §9: what the shop call refuses, where it stands and what stands behind it, what the call
//! takes, and which refusals of the default call come first.

use crate::parties::if_all_were_own;
use crate::tokens::{
    arguments, is, key, refusal, shown, token_at, tokens, unnamed_before, Token, CLOSE, COMMA, INTEGER, OPEN, POINT, STRING, WORD,
};
use cases::{Case, Habit, LEAST_WORDS};

/// `N then M` is an N with an M as the next form that the profile leaves out; `N first` another refusal of the shop call, with such
/// a form before it, or where such a form would have been refused else; `takes` names what an accepted text has.
pub const SORTS: &[&str] = &[
    "57 lamp in a trigger", "57 lamp in a condition", "57 lamp in a target", "57 lamp in a reading", "57 group in a trigger",
    "57 group in a condition", "57 group in a target", "57 group in a reading", "57 device in a trigger", "57 device in a condition",
    "57 input in a trigger", "57 input in a condition", "57 input in a reading", "57 input device in a trigger", "57 behind dev =",
    "57 behind another argument", "57 with an adapter", "58 in a trigger", "58 in a condition", "59 value", "59 device", "59 instance",
    "59 option", "59 for a lamp", "59 for an input", "59 for a var", "59 with a number", "57 then 57", "57 then 58", "57 then 59",
    "58 then 57", "58 then 58", "58 then 59", "59 then 57", "59 then 58", "59 then 59", "at trigger 1", "at trigger 2", "at trigger 3",
    "at trigger 4", "at condition 1", "at condition 2", "at condition 3", "at condition 4", "past line 1", "behind a name", "takes lamp",
    "takes group", "takes device", "takes input", "takes input device", "takes a scene", "takes an instance group", "takes a type",
    "takes an adapter", "takes a bound", "takes data", "takes a value", "takes a name in a target", "takes a name in a reading",
    "takes a text without names", "2 first", "53 first", "lexing first", "20 first", "21 first", "22 first", "22 of an id", "23 first",
    "24 first", "25 first", "26 first", "27 first", "28 first", "29 first", "30 first", "31 first", "32 first", "33 first", "34 first",
    "35 first", "36 first", "37 first", "39 first", "40 first", "41 first", "50 first", "63 first", "64 first", "65 first", "66 first",
];

/// "A numbered reference with 57, broadcast with 58, an `event` reading with 59."
pub fn refused_by_profile(answer: &str) -> bool {
    matches!(refusal(answer), Some(("57" | "58" | "59", _)))
}

/// What the full reader refuses, as `refusal` gives it: nothing where only the profile does.
pub fn full_refusal(answer: &str) -> Option<(&str, &str)> {
    refusal(answer).filter(|_| !refused_by_profile(answer))
}

/// What a name or a number stands for: the kind, and the index of the first word of the reference.
pub struct Reference {
    kind: &'static str,
    first: usize,
}

/// What the name or number at a token refers to, if it is a lamp, group, device or input device.
pub fn reference(tokens: &[Token], at: usize) -> Option<Reference> {
    let behind_dev = at >= 2 && key(tokens, at - 2) == Some("dev");
    if let Some(open) = arguments(tokens, at) {
        let unnamed = matches!(tokens[at - 1].kind, OPEN | COMMA) && unnamed_before(tokens, open, at) == 0;
        return (behind_dev || unnamed).then_some(Reference { kind: "input", first: open - 1 });
    }
    let open = at.checked_sub(if behind_dev { 3 } else { 1 }).filter(|&open| is(tokens, open, OPEN))?;
    let word = |back: usize| open.checked_sub(back).filter(|&at| tokens[at].kind == WORD).map(|at| tokens[at].text);
    match (word(2), word(1)?) {
        (_, "lamp") => Some(Reference { kind: "lamp", first: open - 1 }),
        (_, "group") => Some(Reference { kind: "group", first: open - 1 }),
        (Some("input"), "device") => Some(Reference { kind: "input device", first: open - 2 }),
        (_, "device") => Some(Reference { kind: "device", first: open - 1 }),
        _ => None,
    }
}

/// The number that the profile refuses a token with.
fn number(tokens: &[Token], at: usize) -> Option<&'static str> {
    match &tokens[at] {
        token if token.kind == INTEGER => reference(tokens, at).map(|_| "57"),
        token if token.is_word("broadcast") => Some("58"),
        token if token.is_word("event") && is(tokens, at + 1, POINT) => Some("59"),
        _ => None,
    }
}

/// What the profile leaves out of a text, as its tokens show it: the numbers and the indices. Of a text that the default call
/// accepts this is all there is.
pub fn left_out(tokens: &[Token]) -> Vec<(&'static str, usize)> {
    (0..tokens.len()).filter_map(|at| number(tokens, at).map(|number| (number, at))).collect()
}

/// The sorts that a case shows with this answer.
pub fn sorts(case: &Case, answer: &str) -> Vec<String> {
    let Ok(text) = std::str::from_utf8(&case.text) else { return Vec::new() };
    if case.habit() != Habit::Shop {
        return Vec::new();
    }
    let tokens: Vec<Token> = tokens(text, answer).collect();
    match refusal(answer) {
        None => taken(&tokens),
        Some((_, place)) if refused_by_profile(answer) => refused(&tokens, place),
        Some(("2", _)) => first_of(&second::answer(&Case { words: LEAST_WORDS, ..case.clone() }), "2 first"),
        Some(("53", _)) => first_of(&if_all_were_own(case), "53 first"),
        Some((number, place)) => before(&tokens, number, place),
    }
}

/// The sort, if the profile refuses otherwise.
fn first_of(otherwise: &str, sort: &str) -> Vec<String> {
    shown(&[(refused_by_profile(otherwise), sort)])
}

/// Another refusal, with a form before it that the profile leaves out.
fn before(tokens: &[Token], number: &str, place: &str) -> Vec<String> {
    let at = token_at(tokens, place);
    let lexing = number.parse().is_ok_and(|number: u32| number < 20);
    let first = if lexing { "lexing first".to_string() } else { format!("{number} first") };
    let is_id = number == "22" && is(tokens, at, INTEGER) && reference(tokens, at).is_some();
    shown(&[(!left_out(&tokens[..at]).is_empty(), &first), (is_id, "22 of an id")])
}

/// Where a reference or a target stands whose first word has this index.
fn place_of(tokens: &[Token], first: usize) -> &'static str {
    match first.checked_sub(1).map_or("", |before| tokens[before].text) {
        "when" => "trigger",
        "if" | "and" => "condition",
        "for" => "target",
        _ => "reading",
    }
}

/// Whether a token stands in a trigger or in a condition, and in which of them.
fn section(tokens: &[Token], at: usize) -> (&'static str, usize) {
    let count = |words: &[&str]| tokens[..at].iter().filter(|token| words.iter().any(|word| token.is_word(word))).count();
    let conditions = count(&["if", "and"]);
    if conditions > 0 { ("condition", conditions) } else { ("trigger", count(&["when"])) }
}

fn refused(tokens: &[Token], place: &str) -> Vec<String> {
    let at = token_at(tokens, place);
    let found = left_out(tokens);
    let Some(nth) = found.iter().position(|&(_, index)| index == at) else { return Vec::new() };
    let (section, count) = section(tokens, at);
    let mut sorts = vec![format!("at {section} {count}")];
    match found[nth].0 {
        "57" => sorts.extend(numbered(tokens, at)),
        "58" => sorts.push(format!("58 in a {section}")),
        _ => sorts.extend(event_reading(tokens, at)),
    }
    sorts.extend(found.get(nth + 1).map(|next| format!("{} then {}", found[nth].0, next.0)));
    let named = |index: usize| tokens[index].kind == STRING && reference(tokens, index).is_some();
    sorts.extend(shown(&[(!place.starts_with("1 "), "past line 1"), ((0..at).any(named), "behind a name")]));
    sorts
}

fn numbered(tokens: &[Token], at: usize) -> Vec<String> {
    let Some(Reference { kind, first }) = reference(tokens, at) else { return Vec::new() };
    let close = (at..tokens.len()).find(|&index| tokens[index].kind == CLOSE).unwrap_or(at);
    let mut sorts = vec![format!("57 {kind} in a {}", place_of(tokens, first))];
    sorts.extend(shown(&[
        (key(tokens, at - 2) == Some("dev"), "57 behind dev ="),
        (is(tokens, at - 1, COMMA), "57 behind another argument"),
        ((first..close).any(|index| key(tokens, index) == Some("adapter")), "57 with an adapter"),
    ]));
    sorts
}

fn event_reading(tokens: &[Token], at: usize) -> Vec<String> {
    let begins = |&index: &usize| tokens[index].is_word("if") || tokens[index].is_word("and");
    let compared = (0..at).rev().find(begins).map_or("", |link| tokens[link + 1].text);
    let property = tokens.get(at + 2).map_or("", |token| token.text);
    let sign = tokens.get(at + 3).is_some_and(|token| matches!(token.text, "+" | "-"));
    let mut sorts = vec![format!("59 {property}")];
    sorts.extend(shown(&[
        (compared == "lamp", "59 for a lamp"), (compared == "input", "59 for an input"), (compared == "var", "59 for a var"),
        (sign, "59 with a number"),
    ]));
    sorts
}

/// What an accepted text has.
fn taken(tokens: &[Token]) -> Vec<String> {
    let names: Vec<Reference> = (0..tokens.len()).filter(|&at| tokens[at].kind == STRING).filter_map(|at| reference(tokens, at)).collect();
    let mut sorts: Vec<String> = names.iter().map(|name| format!("takes {}", name.kind)).collect();
    let word = |words: &[&str]| (0..tokens.len()).any(|at| is(tokens, at + 1, INTEGER) && words.iter().any(|word| tokens[at].is_word(word)));
    let with = |keyword: &str| (0..tokens.len()).any(|at| key(tokens, at) == Some(keyword));
    let place = |place: &str| names.iter().any(|name| place_of(tokens, name.first) == place);
    let compared = |at: usize| (15..=20).contains(&tokens[at].kind) && is(tokens, at + 1, INTEGER);
    sorts.extend(shown(&[
        (tokens.iter().any(|token| token.is_word("scene")), "takes a scene"),
        (with("group"), "takes an instance group"),
        (with("type"), "takes a type"),
        (with("adapter"), "takes an adapter"),
        (word(&["above", "below"]), "takes a bound"),
        (tokens.iter().any(|token| token.is_word("data")), "takes data"),
        ((0..tokens.len()).any(compared), "takes a value"),
        (place("target"), "takes a name in a target"),
        (place("reading"), "takes a name in a reading"),
        (names.is_empty(), "takes a text without names"),
    ]));
    sorts
}
