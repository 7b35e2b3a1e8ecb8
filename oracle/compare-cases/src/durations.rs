//! Which sorts of durations a case shows that document 02 §2 is about: those of many fractional digits, and those that
//! document 01's first 17 refuses, here called long.

use crate::tokens::{refusal, tokens, Token};
use cases::Case;

const MANY_PLACES: usize = 20;
const VERY_MANY_PLACES: usize = 1_000;
const NEARLY_THE_MOST: u32 = 4_294_000_000;

/// Every sort. A number behind `20 places` is that of the refusal.
pub const SORTS: &[&str] = &[
    "20 places taken", "1000 places taken", "20 places 12", "20 places 15", "20 places 16", "20 places 17", "20 places 18",
    "long taken with fewer places", "long 17", "long 18", "long near the most", "17 as before", "18 as before", "long ms",
    "long s", "long m", "long h", "every long", "every long 35", "solar long", "solar long 36", "last_fired long",
];

/// The sorts that a case shows with this answer.
pub fn sorts(case: &Case, answer: &str) -> Vec<&'static str> {
    let mut sorts = Vec::new();
    let Ok(text) = std::str::from_utf8(&case.text) else { return sorts };
    let refusal = refusal(answer);
    let mut before = "";
    for token in tokens(text, answer) {
        if token.kind == 5 {
            taken(&token, &mut sorts);
            if second::formerly_17(token.text) {
                sorts.extend(used(before, &token, refusal));
            }
        }
        before = token.text;
    }
    if let Some((number @ ("12" | "15" | "16" | "17" | "18"), place)) = refusal {
        refused(number, number_at(text, place), &mut sorts);
    }
    sorts
}

fn taken(token: &Token, sorts: &mut Vec<&'static str>) {
    let places = places(token.text);
    if places >= MANY_PLACES {
        sorts.push("20 places taken");
    }
    if places >= VERY_MANY_PLACES {
        sorts.push("1000 places taken");
    }
    if !second::formerly_17(token.text) {
        return;
    }
    sorts.push(match token.text.trim_start_matches(|c: char| !c.is_ascii_alphabetic()) {
        "ms" => "long ms",
        "s" => "long s",
        "m" => "long m",
        _ => "long h",
    });
    if places < MANY_PLACES {
        sorts.push("long taken with fewer places");
    }
    if token.number > NEARLY_THE_MOST {
        sorts.push("long near the most");
    }
}

/// What a long duration stands behind, if it is taken there or refused for it.
fn used(before: &str, token: &Token, refusal: Option<(&str, &str)>) -> Option<&'static str> {
    let here = refusal.filter(|(_, place)| place.strip_suffix(" 0") == Some(token.place));
    match (before, here.map(|(number, _)| number), refusal) {
        ("every", Some("35"), _) => Some("every long 35"),
        ("+" | "-", Some("36"), _) => Some("solar long 36"),
        ("every", None, None) => Some("every long"),
        ("+" | "-", None, None) => Some("solar long"),
        ("than", None, None) => Some("last_fired long"),
        _ => None,
    }
}

fn refused(number: &str, text: &str, sorts: &mut Vec<&'static str>) {
    let many = places(text) >= MANY_PLACES;
    sorts.extend(match number {
        "12" if many => Some("20 places 12"),
        "15" if many => Some("20 places 15"),
        "16" if many => Some("20 places 16"),
        "17" if many => Some("20 places 17"),
        "18" if many => Some("20 places 18"),
        _ => None,
    });
    sorts.extend(match (number, second::formerly_17(text)) {
        ("17", true) => Some("long 17"),
        ("18", true) => Some("long 18"),
        ("17", false) => Some("17 as before"),
        ("18", false) => Some("18 as before"),
        _ => None,
    });
}

fn places(text: &str) -> usize {
    let behind = text.split_once('.').map_or("", |(_, behind)| behind);
    behind.bytes().take_while(u8::is_ascii_digit).count()
}

/// The number that starts at a place, `LINE COLUMN DETAIL`, with the letters behind it.
fn number_at<'a>(text: &'a str, place: &str) -> &'a str {
    let fields: Vec<usize> = place.split(' ').filter_map(|field| field.parse().ok()).collect();
    let [line, column, ..] = fields[..] else { return "" };
    let Some(line) = text.split('\n').nth(line.wrapping_sub(1)) else { return "" };
    let from = line.char_indices().nth(column.wrapping_sub(1)).map_or("", |(at, _)| &line[at..]);
    &from[..from.find(|c: char| !c.is_ascii_alphanumeric() && c != '.').unwrap_or(from.len())]
}
