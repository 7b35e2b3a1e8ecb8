//! Numbers written in another way, with the same kind and the same value.

use crate::reflow::{DECIMAL, DURATION, INTEGER, TIME};
use crate::rng::Rng;

/// The most that a run of digits may come to.
const MOST_RUN: u64 = 1_000_000_000;
/// The most places of a decimal, and what its value is counted in.
const PLACES: usize = 4;
const SCALE: u32 = 10_000;

/// An amount that ends at all ends within so many places, in every unit.
const MOST_PLACES: u32 = 7;

const UNITS: [(&str, u64); 4] = [("ms", 1), ("s", 1_000), ("m", 60_000), ("h", 3_600_000)];

/// A spelling of a token of this kind and number: another one or the same. None for a kind that has one spelling only.
pub fn respelled(rng: &mut Rng, kind: u32, number: u32) -> Option<Vec<u8>> {
    let spelling = match kind {
        INTEGER => zeros(rng) + &number.to_string(),
        TIME => time(rng, number),
        DURATION => duration(rng, number.into()),
        DECIMAL => decimal(rng, number),
        _ => return None,
    };
    Some(spelling.into_bytes())
}

/// Zeros before a number: mostly few or none. There may be any number of them.
fn zeros(rng: &mut Rng) -> String {
    let count = match rng.below(16) {
        0..=8 => 0,
        9..=11 => 1,
        12..=14 => rng.within(1, 12),
        _ => rng.within(20, 60),
    };
    "0".repeat(count)
}

/// One or two digits for the hour, two for the minute.
fn time(rng: &mut Rng, number: u32) -> String {
    let (hour, minute) = (number / 60, number % 60);
    if rng.once_in(2) { format!("{hour}:{minute:02}") } else { format!("{hour:02}:{minute:02}") }
}

/// In any unit in which it has an end and both runs of digits stay within their limit.
fn duration(rng: &mut Rng, milliseconds: u64) -> String {
    let fitting: Vec<String> = UNITS.iter().filter_map(|&unit| in_unit(rng, milliseconds, unit)).collect();
    fitting[rng.below(fitting.len())].clone()
}

/// In this unit, with the least places that are exact and perhaps zeros behind them. None if there is no end, or the whole part is too much.
fn in_unit(rng: &mut Rng, milliseconds: u64, (word, unit): (&str, u64)) -> Option<String> {
    let (whole, rest) = (milliseconds / unit, milliseconds % unit);
    let places = (0..=MOST_PLACES).find(|&places| rest * 10_u64.pow(places) % unit == 0)?;
    if whole > MOST_RUN {
        return None;
    }
    let mut fraction = rest * 10_u64.pow(places) / unit;
    let mut digits = if places > 0 { format!("{fraction:0width$}", width = places as usize) } else { String::new() };
    let more = if rng.once_in(2) { zeros(rng).len() } else { 0 };
    for _ in 0..more {
        if fraction * 10 <= MOST_RUN {
            fraction *= 10;
            digits.push('0');
        }
    }
    let point = if digits.is_empty() { "" } else { "." };
    Some(format!("{}{whole}{point}{digits}{word}", zeros(rng)))
}

/// One to four places.
fn decimal(rng: &mut Rng, number: u32) -> String {
    let (whole, digits) = (number / SCALE, format!("{:0PLACES$}", number % SCALE));
    let least = digits.trim_end_matches('0').len().max(1);
    let places = rng.within(least, PLACES);
    format!("{}{whole}.{}", zeros(rng), &digits[..places])
}
