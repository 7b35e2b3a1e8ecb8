//! Damage to good texts: by tokens before they are written, and by bytes afterwards.

use crate::durations;
use crate::grammar::quoted;
use crate::rng::Rng;
use crate::spell::Token;
use crate::topics;
use crate::vocabulary::{
    BYTES, CHARACTERS, DECIMALS, DURATIONS, ILL_FORMED, INTEGERS, LONG_NAMES, NAMES, SIGNS, SPACES, TIMES, VAR_TEXTS,
    WORDS, WRONG_DURATIONS, WRONG_TIMES,
};
use std::borrow::Cow;

/// A token of any kind, also of those that the lexer refuses.
pub fn any_token(rng: &mut Rng) -> Token {
    let list = match rng.below(16) {
        0..=4 => WORDS,
        5..=8 => SIGNS,
        9 => INTEGERS,
        10 => rng.pick(&[TIMES, TIMES, WRONG_TIMES]),
        11 if rng.once_in(3) => return durations::any(rng),
        11 => rng.pick(&[DURATIONS, DURATIONS, WRONG_DURATIONS]),
        12 => DECIMALS,
        13 if rng.once_in(3) => return quoted(&topics::any(rng)),
        13 => return quoted(rng.pick(NAMES)),
        14 => return quoted(rng.pick(&[VAR_TEXTS, LONG_NAMES, &[""]])[0].as_bytes()),
        _ => &["5", "1", "@", "!", "\"", "\"open", "\"\"", "5s", "#c\n", "&&", "'a'", "/", "5.", ".5", "..."],
    };
    Cow::Borrowed(rng.pick(list).as_bytes())
}

/// One token deleted, doubled, replaced, swapped with its neighbour or inserted.
pub fn tokens(rng: &mut Rng, tokens: &mut Vec<Token>) {
    if tokens.is_empty() {
        return;
    }
    let at = rng.below(tokens.len());
    match rng.below(6) {
        0 => drop(tokens.remove(at)),
        1 => tokens.insert(at, tokens[at].clone()),
        2 => tokens[at] = any_token(rng),
        3 => { let next = (at + 1) % tokens.len(); tokens.swap(at, next) }
        4 => tokens.insert(at, any_token(rng)),
        _ => tokens[at] = like(rng, &tokens[at]),
    }
}

/// Another token of the same kind, so that the text goes wrong as late as may be.
fn like(rng: &mut Rng, token: &Token) -> Token {
    let first = token[0];
    let list = if first == b'"' {
        return if rng.once_in(3) { quoted(&topics::any(rng)) } else { quoted(rng.pick(NAMES)) };
    } else if first.is_ascii_digit() {
        if token.contains(&b':') {
            rng.pick(&[TIMES, WRONG_TIMES])
        } else if token.iter().any(u8::is_ascii_alphabetic) {
            if rng.once_in(2) {
                return durations::any(rng);
            }
            rng.pick(&[DURATIONS, WRONG_DURATIONS])
        } else {
            rng.pick(&[INTEGERS, INTEGERS, DECIMALS])
        }
    } else if first.is_ascii_alphabetic() {
        WORDS
    } else {
        SIGNS
    };
    Cow::Borrowed(rng.pick(list).as_bytes())
}

fn insert(bytes: &mut Vec<u8>, at: usize, what: &[u8]) {
    bytes.splice(at..at, what.iter().copied());
}

fn any_character(rng: &mut Rng) -> char {
    if rng.once_in(3) { rng.pick(SPACES) } else { rng.pick(CHARACTERS) }
}

/// One byte deleted, doubled, replaced or inserted, a character inserted, or the rest cut off.
pub fn bytes(rng: &mut Rng, bytes: &mut Vec<u8>) {
    if bytes.is_empty() {
        return;
    }
    let at = rng.below(bytes.len());
    match rng.below(7) {
        0 => drop(bytes.remove(at)),
        1 => bytes.insert(at, bytes[at]),
        2 => bytes[at] = rng.pick(BYTES),
        3 => bytes.insert(at, rng.pick(BYTES)),
        4 => bytes.truncate(at),
        5 => bytes[at] = bytes[at].wrapping_add(if rng.once_in(2) { 1 } else { 255 }),
        _ => insert(bytes, at, any_character(rng).encode_utf8(&mut [0; 4]).as_bytes()),
    }
}

/// One line deleted, doubled, moved or swapped with its neighbour: a doubled party row is bad, and another line may be first.
pub fn lines(rng: &mut Rng, bytes: &mut Vec<u8>) {
    let mut lines: Vec<&[u8]> = bytes.split_inclusive(|&b| b == b'\n').collect();
    if lines.is_empty() {
        return;
    }
    let at = rng.below(lines.len());
    let other = rng.below(lines.len());
    match rng.below(6) {
        0 => drop(lines.remove(at)),
        1 => lines.swap(at, other),
        2 => { let next = (at + 1) % lines.len(); lines.swap(at, next) }
        _ => lines.insert(other, lines[at]),
    }
    *bytes = lines.concat();
}

/// Bytes that are not UTF-8 somewhere, often between characters of several bytes, so that columns and bytes part.
pub fn ill_formed(rng: &mut Rng, bytes: &mut Vec<u8>) {
    if rng.once_in(2) {
        let at = rng.below(bytes.len() + 1);
        insert(bytes, at, any_character(rng).encode_utf8(&mut [0; 4]).as_bytes());
    }
    let at = if rng.once_in(4) { bytes.len() } else { rng.below(bytes.len() + 1) };
    insert(bytes, at, rng.pick(ILL_FORMED));
}
