//! Texts at and past the limits of size: tokens around 1,024 and lengths around 16,384 bytes.

use crate::damage;
use crate::grammar::{Walk, NEVER};
use crate::rng::Rng;
use crate::sheet::Sheet;
use crate::spell::{spell, Token};
use crate::vocabulary::{DAYS, INTEGERS, SPACES};
use cases::{Case, LEAST_WORDS, MOST_BYTES as FORMAT_BYTES, MOST_TOKENS, MOST_WORDS};
use std::borrow::Cow;

const MOST_BYTES: usize = 16_384;

/// A large text of a random sort.
pub fn text(rng: &mut Rng, sheet: &Sheet) -> Vec<u8> {
    match rng.below(12) {
        0..=2 => many_arguments(rng),
        3 | 4 => many_tokens(rng),
        5 => random_tokens(rng),
        6 => many_zeros(rng),
        7 | 8 => far(rng),
        9 => many_days(rng),
        _ => long(rng, sheet),
    }
}

fn token_count(rng: &mut Rng) -> usize {
    rng.within(MOST_TOKENS - 1, MOST_TOKENS + 2)
}

/// One sign so often, and behind it perhaps what can be no token, or an open string.
fn many_tokens(rng: &mut Rng) -> Vec<u8> {
    let token = rng.pick(&["(", ".", "= ", "a ", "5 ", "\"\"", "-\n", "\u{3000}x\u{a0}", "5s", "#\n)"]);
    let last = rng.pick(&["", "", "@", "\"", "5x", " ", "#", "5:5", "\u{e9}"]);
    let mut out = token.repeat(token_count(rng)).into_bytes();
    out.extend_from_slice(last.as_bytes());
    out
}

/// A text that the grammar takes, with as many tokens as there may be, or up to two more or one less: an argument may
/// be repeated without end.
fn many_arguments(rng: &mut Rng) -> Vec<u8> {
    let count = token_count(rng);
    let argument = rng.pick(&["dev=1", "inst=2", "dev=63", "dev=\"no such\"", "dev=64", "type=3"]);
    let mut out = String::from("when input(");
    let rest = 1 + 2 + 3 + 1 + 3 + 2;
    for _ in 0..(count - rest) / 4 {
        out.push_str(argument);
        out.push_str(if rng.once_in(9) { ",\n" } else { "," });
    }
    out.push_str("dev=1,inst=2) is press");
    let behind = ["", " when", " when when", " if sun is up"];
    let missing = (count - rest) % 4;
    out.push_str(behind[missing]);
    out.into_bytes()
}

/// The same with a set of two days, each many times, as a trigger's or as a condition; sometimes a word of it is another day, or none.
fn many_days(rng: &mut Rng) -> Vec<u8> {
    let (before, tokens) = rng.pick(&[("when http trigger when at 7:05 on ", 7), ("when at sunset on ", 4), ("when http trigger if day in ", 6)]);
    let count = token_count(rng) - tokens;
    let mut days: Vec<&str> = vec![rng.pick(DAYS); count.div_ceil(2)];
    let turn = rng.below(days.len());
    days[turn..].fill(rng.pick(DAYS));
    if rng.once_in(3) {
        let at = if rng.once_in(2) { days.len() - 1 } else { rng.below(days.len()) };
        days[at] = if rng.once_in(2) { "foo" } else { rng.pick(DAYS) };
    }
    let comma = if count % 2 == 0 { "," } else { "" };
    format!("{before}{}{comma}", days.join(",")).into_bytes()
}

fn random_tokens(rng: &mut Rng) -> Vec<u8> {
    let count = rng.within(200, MOST_TOKENS + 2);
    let plain: Vec<Token> = (0..count).map(|_| soft_token(rng)).collect();
    spell(rng, &plain)
}

/// Any token that the lexer takes, so that a long row of them gets past it.
fn soft_token(rng: &mut Rng) -> Token {
    let token = damage::any_token(rng);
    if token.len() > 8 || token.iter().any(|b| b"\"@!.:&'/#".contains(b)) || token[0].is_ascii_digit() {
        return Cow::Borrowed(INTEGERS[rng.below(10)].as_bytes());
    }
    token
}

/// A token, or the end alone, as far down, to the right or both as a text goes, or nearly so.
fn far(rng: &mut Rng) -> Vec<u8> {
    let length = match rng.below(5) {
        0 => rng.within(300, MOST_BYTES),
        1 => rng.within(MOST_BYTES - 1, MOST_BYTES + 1),
        _ => MOST_BYTES,
    };
    let last = rng.pick(&["", "", "(", "(", "@", "when", "when http trigger", "\"", "\"\""]);
    let before = length - last.len();
    let lines = match rng.below(6) {
        0 | 1 => 0,
        2 | 3 => before,
        4 => before / 2,
        _ => rng.within(0, before),
    };
    format!("{}{}{last}", "\n".repeat(lines), " ".repeat(before - lines)).into_bytes()
}

/// A duration with so many zeros that the text has about the longest length there may be.
fn many_zeros(rng: &mut Rng) -> Vec<u8> {
    let before = rng.pick(&[
        "when every 1.", "when every 0.", "when at sunset - 4294967.", "when at sunrise + 1.", "when every 1194.",
        "when http trigger if last_fired(\"a\") older than 5.",
    ]);
    let behind = rng.pick(&["s", "s", "s", "m", "ms", "h", "1s", "x", ""]);
    let length = rng.pick(&[MOST_BYTES - 1, MOST_BYTES, MOST_BYTES, MOST_BYTES + 1, 5_000]);
    let zeros = "0".repeat(length - before.len() - behind.len());
    format!("{before}{zeros}{behind}").into_bytes()
}

/// A text drawn out to a length around the longest there may be.
fn long(rng: &mut Rng, sheet: &Sheet) -> Vec<u8> {
    let length = match rng.below(8) {
        0..=5 => rng.within(MOST_BYTES - 1, MOST_BYTES + 1),
        6 => rng.within(2_000, MOST_BYTES),
        _ => rng.within(MOST_BYTES, FORMAT_BYTES),
    };
    let mut walk = Walk::new(rng, sheet, NEVER);
    walk.text();
    let tokens = walk.tokens();
    let mut out = spell(rng, &tokens);
    draw_out(rng, &mut out, length);
    out
}

/// Fills up to `length` bytes in front of, inside or behind the text.
fn draw_out(rng: &mut Rng, out: &mut Vec<u8>, length: usize) {
    let missing = length.saturating_sub(out.len());
    let unit = match rng.below(8) {
        0 => "a".to_string(),
        1 => "0".to_string(),
        2 => "\"".to_string(),
        3 => "\n".to_string(),
        4 => "#".to_string(),
        5 => "#\u{e9}\n".to_string(),
        _ => rng.pick(SPACES).to_string(),
    };
    let mut filling = unit.repeat(missing / unit.len());
    filling.push_str(&" ".repeat(missing - filling.len()));
    let at = match rng.below(3) {
        0 => 0,
        1 => out.iter().position(|&b| b == b' ').unwrap_or(0),
        _ => out.len(),
    };
    out.splice(at..at, filling.into_bytes());
}

/// A few fixed cases at the limits of size, one on each side of each: tokens, length of text and of sheet, rows,
/// words of the buffer.
pub fn landmarks() -> Vec<Case> {
    let good = "when controller starts";
    let arguments = |count: usize| format!("when input({}dev=1,inst=2) is press", "dev=9,".repeat(count));
    let list: Vec<(usize, String, Vec<u8>)> = vec![
        (LEAST_WORDS, arguments(252) + " when http trigger", small()),
        (LEAST_WORDS, "(".repeat(MOST_TOKENS) + "@", small()),
        (MOST_WORDS, ")".repeat(MOST_TOKENS + 1), small()),
        (LEAST_WORDS, format!("{good}{}", " ".repeat(MOST_BYTES - good.len())), small()),
        (LEAST_WORDS, "#".repeat(MOST_BYTES + 1), small()),
        (0, "\n".repeat(MOST_BYTES + 1), small()),
        (LEAST_WORDS, "when lamp(\"z\") turns on".to_string(), adapters(511, "lamp,7,9,z\n")),
        (LEAST_WORDS, "when lamp(\"z\", adapter=255) turns on".to_string(), adapters(511, "lamp,7,9,z")),
        (LEAST_WORDS, good.to_string(), adapters(512, "lamp,7,9,z\n")),
        (LEAST_WORDS, good.to_string(), crate::sheet::of_length(16_385, "\n")),
        (LEAST_WORDS - 1, good.to_string(), small()),
        (0, good.to_string(), Vec::new()),
    ];
    list.into_iter().map(|(words, text, sheet)| Case::new(0, words, text, sheet)).collect()
}

fn small() -> Vec<u8> {
    b"primary,3\nadapter,3\n".to_vec()
}

fn adapters(count: usize, last: &str) -> Vec<u8> {
    let mut sheet = String::from("primary,0\n");
    (0..count).for_each(|n| sheet.push_str(&format!("adapter,{}\n", n % 256)));
    sheet.push_str(last);
    sheet.into_bytes()
}
