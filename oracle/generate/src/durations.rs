//! Durations around the limits of document 02 §2: long runs of zeros, zeros before small digits, and amounts at the ends
//! of what each unit can hold.

use crate::rng::Rng;
use crate::spell::Token;
use std::borrow::Cow;

/// A unit with whole parts that it has room for, up to the largest, and with some that are too much.
struct Unit {
    word: &'static str,
    fitting: &'static [&'static str],
    past: &'static [&'static str],
}

const UNITS: &[Unit] = &[
    Unit { word: "ms", fitting: &["0", "1", "999", "1000", "1000000000"], past: &["1000000001", "4294967296"] },
    Unit { word: "s", fitting: &["0", "1", "59", "2147483", "2147484", "4294967"], past: &["4294968", "1000000000"] },
    Unit { word: "m", fitting: &["0", "1", "5", "35791", "35792", "71582"], past: &["71583", "1000000000"] },
    Unit { word: "h", fitting: &["0", "1", "24", "596", "597", "1193"], past: &["1194", "1000000000"] },
];

/// Amounts of whole milliseconds with a fraction, and others beside them that are not whole or too much.
const EXACT: &[(&str, &str)] = &[
    ("0.001", "s"), ("1.5", "s"), ("0.999", "s"), ("2147483.647", "s"), ("2147483.648", "s"), ("2147483.649", "s"),
    ("4294967.294", "s"), ("4294967.295", "s"), ("0.00005", "m"), ("0.5", "m"), ("35791.39415", "m"),
    ("71582.78825", "m"), ("0.0000025", "h"), ("0.25", "h"), ("1193.04647", "h"),
];
const NEAR: &[(&str, &str)] = &[
    ("0.0009", "s"), ("4294967.2951", "s"), ("4294967.296", "s"), ("4294967.3", "s"), ("71582.78826", "m"),
    ("71582.7883", "m"), ("71582.789", "m"), ("35791.39413", "m"), ("0.00001", "m"), ("0.0000001", "h"),
    ("1193.046475", "h"), ("1193.0464725", "h"), ("1193.0464726", "h"), ("1193.1", "h"), ("1000000000.00001", "h"),
    ("1000000000.000000001", "h"),
];

/// Counts of zeros: few, around the old bound of 19 places, and where a power of ten or a count outgrows its bits.
const ZEROS: &[usize] = &[
    1, 2, 3, 4, 5, 6, 7, 8, 9, 10, 12, 14, 15, 16, 17, 18, 19, 20, 21, 22, 28, 38, 39, 40, 64, 100, 255, 256, 257, 275,
];

/// Digits behind the zeros; the last one is more than a digit run may be.
const SMALL: &[&str] = &["1", "2", "5", "9", "10", "25", "100000000", "999999999", "1000000000", "1000000001"];

/// The most digits of which every run is in bounds.
const SURE_DIGITS: usize = 9;

fn zeros(rng: &mut Rng) -> String {
    let count = if rng.once_in(40) { rng.within(100, 3_000) } else { rng.pick(ZEROS) };
    "0".repeat(count)
}

fn token(text: String) -> Token {
    Cow::Owned(text.into_bytes())
}

/// The amount with `more` zeros behind it.
fn drawn_out(amount: &str, unit: &str, more: usize) -> Token {
    token(format!("{amount}{}{unit}", "0".repeat(more)))
}

/// How many zeros the fraction's digit run has room for, to be sure.
fn room(amount: &str) -> usize {
    let (_, fraction) = amount.split_once('.').unwrap_or((amount, ""));
    SURE_DIGITS.saturating_sub(fraction.trim_start_matches('0').len())
}

/// A duration that the lexer takes.
pub fn fitting(rng: &mut Rng) -> Token {
    if rng.once_in(4) {
        let (amount, unit) = rng.pick(EXACT);
        let more = rng.within(0, room(amount));
        return drawn_out(amount, unit, more);
    }
    let unit = &UNITS[rng.below(UNITS.len())];
    token(format!("{}.{}{}", rng.pick(unit.fitting), zeros(rng), unit.word))
}

/// A duration that the lexer takes, or one beside it that it refuses: with 12, 15, 16, 17 or 18, or as something else.
pub fn any(rng: &mut Rng) -> Token {
    let unit = &UNITS[rng.below(UNITS.len())];
    let wholes = if rng.once_in(3) { unit.past } else { unit.fitting };
    let whole = rng.pick(wholes);
    match rng.below(8) {
        0 => fitting(rng),
        1 => token(format!("{}.{}{}", rng.pick(unit.past), zeros(rng), unit.word)),
        2 | 3 => token(format!("{whole}.{}{}{}", zeros(rng), rng.pick(SMALL), unit.word)),
        4 => {
            let list = rng.pick(&[EXACT, NEAR]);
            let (amount, unit) = rng.pick(list);
            let more = rng.within(0, room(amount) + 3);
            drawn_out(amount, unit, more)
        }
        5 => token(format!("{whole}.{}{}", zeros(rng), rng.pick(&["", "x", "sec", "S", "mh", "_"]))),
        _ => damaged(rng),
    }
}

/// A good one with a byte deleted, doubled, replaced or inserted.
fn damaged(rng: &mut Rng) -> Token {
    let mut bytes = fitting(rng).into_owned();
    let at = rng.below(bytes.len());
    let byte = rng.pick(b"0159.:smhx_ ");
    match rng.below(4) {
        0 => drop(bytes.remove(at)),
        1 => bytes.insert(at, bytes[at]),
        2 if at > 0 => bytes[at] = byte,
        _ => bytes.insert(at.max(1), byte),
    }
    Cow::Owned(bytes)
}
