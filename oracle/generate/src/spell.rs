//! Tokens written one after the other, with what may stand between them.

use crate::rng::Rng;
use crate::vocabulary::{CHARACTERS, SPACES};
use std::borrow::Cow;

pub type Token = Cow<'static, [u8]>;

#[derive(Clone, Copy, PartialEq)]
enum Style {
    /// One space, but none beside a sign.
    Plain,
    /// No space where it may be left out.
    Tight,
    /// One space everywhere.
    Wide,
    /// Every white space character, comments, and several of them.
    Wild,
}

fn wordy(byte: u8) -> bool {
    byte.is_ascii_alphanumeric() || byte == b'_'
}

/// Whether `a` directly before `b` would be read as other tokens than the two.
fn clash(a: &[u8], b: &[u8]) -> bool {
    let (Some(&last), Some(&first)) = (a.last(), b.first()) else { return false };
    if wordy(last) {
        return wordy(first) && !(a[0].is_ascii_digit() && last.is_ascii_alphabetic() && first.is_ascii_digit())
            || a[0].is_ascii_digit() && b == b".";
    }
    matches!((last, first), (b'.', b'.') | (b'=' | b'<' | b'>' | b'!', b'='))
}

fn character(out: &mut Vec<u8>, c: char) {
    out.extend_from_slice(c.encode_utf8(&mut [0; 4]).as_bytes());
}

/// White space of every kind, and comments, which end with LF.
fn wild_gap(rng: &mut Rng, out: &mut Vec<u8>) {
    for _ in 0..rng.within(1, 3) {
        if rng.once_in(5) {
            comment(rng, out);
            out.push(b'\n');
        } else {
            character(out, rng.pick(SPACES));
        }
    }
}

fn comment(rng: &mut Rng, out: &mut Vec<u8>) {
    out.push(b'#');
    for _ in 0..rng.below(6) {
        match rng.below(4) {
            0 => character(out, rng.pick(CHARACTERS)),
            1 => character(out, rng.pick(&['"', '#', ' ', '\r', '\u{2028}', '(', '\t', '\u{85}'])),
            _ => out.extend_from_slice(rng.pick(&["when", "x", "a b", "5s"]).as_bytes()),
        }
    }
}

fn gap(rng: &mut Rng, style: Style, before: &[u8], after: &[u8], out: &mut Vec<u8>) {
    let signs = !before.last().copied().is_some_and(wordy) || !after.first().copied().is_some_and(wordy);
    match style {
        Style::Plain if signs && rng.once_in(6) => out.push(b' '),
        Style::Plain if signs => {
            if clash(before, after) {
                out.push(b' ');
            }
        }
        Style::Tight => {
            if clash(before, after) {
                out.push(rng.pick(b"   \n\r\t"));
            }
        }
        Style::Wild => {
            if rng.once_in(2) || clash(before, after) {
                wild_gap(rng, out);
            }
        }
        _ => out.push(b' '),
    }
}

/// The tokens as a text. Most texts are written plainly; the others show that white space decides nothing.
pub fn spell(rng: &mut Rng, tokens: &[Token]) -> Vec<u8> {
    let style = match rng.below(20) {
        0..=10 => Style::Plain,
        11..=13 => Style::Tight,
        14..=16 => Style::Wide,
        _ => Style::Wild,
    };
    let mut out = Vec::with_capacity(tokens.len() * 8 + 16);
    if style == Style::Wild && rng.once_in(2) {
        wild_gap(rng, &mut out);
    }
    let mut before: &[u8] = b"";
    for token in tokens {
        if !out.is_empty() && !rng.once_in(2_000) {
            gap(rng, style, before, token, &mut out);
        }
        out.extend_from_slice(token);
        before = token;
    }
    end(rng, style, &mut out);
    out
}

/// What stands behind the last token: mostly nothing; the end's place follows from it.
fn end(rng: &mut Rng, style: Style, out: &mut Vec<u8>) {
    match rng.below(if style == Style::Wild { 6 } else { 40 }) {
        0 => wild_gap(rng, out),
        1 => comment(rng, out),
        2 => out.extend_from_slice(b"\n "),
        _ => {}
    }
}
