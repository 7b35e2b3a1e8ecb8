//! Document 02 §14: another text with the same tokens, that is, whose "tokens agree in number, kind, value and the bytes of words and
//! strings". What stands between tokens is made anew, and numbers may be spelled in another way.

use crate::respell::respelled;
use crate::rng::Rng;
use crate::vocabulary::{CHARACTERS, SPACES};
use crate::LONGEST_TEXT;
use cases::{Case, Lexing, RECORD};
use std::ops::Range;

/// Kinds of tokens.
const WORD: u32 = 1;
const STRING: u32 = 2;
pub const INTEGER: u32 = 3;
pub const TIME: u32 = 4;
pub const DURATION: u32 = 5;
pub const DECIMAL: u32 = 6;
const POINT: u32 = 12;
const ASSIGN: u32 = 14;
const ABOVE: u32 = 19;
const BELOW: u32 = 20;

/// The index of the white space character behind LF.
const BEHIND_LF: usize = 2;

/// How a text is laid out.
#[derive(Clone, Copy)]
enum Style {
    /// As before, but for about two places.
    Kept,
    /// Nothing where nothing is needed.
    Tight,
    /// One white space character, the same everywhere.
    One(char),
    /// Line ends, blank lines, and tabs or spaces behind them.
    Lines(&'static str),
    /// All that may stand between tokens, in any number.
    Wild,
    /// A comment nearly everywhere.
    Comments,
    /// One stretch before this token, or before the end, that may take all the room there is.
    Far(usize),
}

/// The part of the text that a token takes up; a string's quotes belong to it.
pub fn span(record: &[u32; RECORD]) -> Range<usize> {
    let [kind, _, start, length, _] = *record;
    let (start, end) = (start as usize, (start + length) as usize);
    if kind == STRING { start - 1..end + 1 } else { start..end }
}

/// What stands before each token and behind the last.
pub fn gaps<'a>(text: &'a [u8], lexing: &Lexing) -> Vec<&'a [u8]> {
    let mut at = 0;
    let mut gaps = Vec::with_capacity(lexing.records.len() + 1);
    for span in lexing.records.iter().map(span) {
        gaps.push(&text[at..span.start]);
        at = span.end;
    }
    gaps.push(&text[at..]);
    gaps
}

/// Whether a token of this kind and one that begins with this byte, directly behind it, would be read as others. `behind_integer` says
/// whether the first one stands directly behind an integer: "a point joins a number only when a digit follows".
pub fn joins(kind: u32, behind_integer: bool, first: u8) -> bool {
    match kind {
        WORD => first.is_ascii_alphanumeric() || first == b'_',
        INTEGER | DECIMAL => first.is_ascii_alphanumeric(),
        TIME => first.is_ascii_digit(),
        DURATION => first.is_ascii_alphabetic(),
        POINT => first == b'.' || behind_integer && first.is_ascii_digit(),
        ASSIGN | ABOVE | BELOW => first == b'=',
        _ => false,
    }
}

/// The same call on another text with the same tokens; another one for each `attempt`. The case's text passes questions 1 and 4 and the
/// lexer, which gave `lexing`, and so does the other.
pub fn reflowed(case: &Case, lexing: &Lexing, attempt: u64) -> Case {
    let mut rng = Rng::new(case.id, u64::MAX - attempt);
    let style = style(&mut rng, lexing.records.len());
    let respelling = rng.once_in(2);
    let spare = LONGEST_TEXT - least(&case.text, lexing);
    let mut reflow = Reflow { rng: &mut rng, style, respelling, spare, count: lexing.records.len(), out: Vec::new() };
    reflow.text(&case.text, lexing);
    let mut text = reflow.out;
    if text == case.text && text.len() < LONGEST_TEXT {
        text.insert(if rng.once_in(2) { 0 } else { text.len() }, rng.pick(b" \n"));
    }
    Case { text, ..case.clone() }
}

fn style(rng: &mut Rng, tokens: usize) -> Style {
    match rng.below(40) {
        0 => Style::Far(rng.within(0, tokens)),
        1..=8 => Style::Kept,
        9..=14 => Style::Tight,
        15..=19 => Style::One(rng.pick(SPACES)),
        20..=26 => Style::Lines(rng.pick(&["\n", "\r\n"])),
        27..=35 => Style::Wild,
        _ => Style::Comments,
    }
}

/// The bytes of the tokens as they are spelled, and one wherever two tokens would join.
fn least(text: &[u8], lexing: &Lexing) -> usize {
    let mut behind = Behind::default();
    lexing.records.iter().map(|record| {
        let spelling = &text[span(record)];
        let needed = behind.joins(spelling);
        behind.step(record[0], !needed);
        spelling.len() + usize::from(needed)
    }).sum()
}

/// The token behind which the next one is put.
#[derive(Default)]
struct Behind {
    kind: u32,
    /// Whether it stands directly behind an integer.
    behind_integer: bool,
}

impl Behind {
    fn joins(&self, next: &[u8]) -> bool {
        joins(self.kind, self.behind_integer, next[0])
    }

    fn step(&mut self, kind: u32, directly: bool) {
        *self = Behind { kind, behind_integer: directly && self.kind == INTEGER };
    }
}

/// A text, as it is made.
struct Reflow<'a> {
    rng: &'a mut Rng,
    style: Style,
    /// Whether numbers are spelled in another way.
    respelling: bool,
    /// How many bytes there is room for beside those that must be there.
    spare: usize,
    /// The number of tokens.
    count: usize,
    out: Vec<u8>,
}

impl Reflow<'_> {
    fn text(&mut self, text: &[u8], lexing: &Lexing) {
        let gaps = gaps(text, lexing);
        let mut behind = Behind::default();
        for (at, record) in lexing.records.iter().enumerate() {
            let spelling = self.spelling(record, &text[span(record)]);
            let needed = behind.joins(&spelling);
            let length = self.gap(at, gaps[at], needed);
            behind.step(record[0], length == 0);
            self.out.extend_from_slice(&spelling);
        }
        self.gap(self.count, gaps[self.count], false);
    }

    /// The token as it was, or spelled in another way if there is room.
    fn spelling(&mut self, record: &[u32; RECORD], old: &[u8]) -> Vec<u8> {
        let again = self.respelling && !self.rng.once_in(3);
        let new = if again { respelled(self.rng, record[0], record[1]) } else { None };
        match new {
            Some(new) if new.len() <= old.len() + self.spare => {
                self.spare = self.spare + old.len() - new.len();
                new
            }
            _ => old.to_vec(),
        }
    }

    /// Writes what stands before the token `at`, or before the end, and gives its length. With `needed` it is not empty.
    fn gap(&mut self, at: usize, old: &[u8], needed: bool) -> usize {
        let mut new = self.new_gap(at, old);
        if needed && new.is_empty() {
            self.space(&mut new);
        }
        if new.len() > self.spare + usize::from(needed) {
            new = if needed { vec![self.rng.pick(b" \n\t\r")] } else { Vec::new() };
        }
        self.spare -= new.len() - usize::from(needed);
        self.out.extend_from_slice(&new);
        new.len()
    }

    fn new_gap(&mut self, at: usize, old: &[u8]) -> Vec<u8> {
        let mut new = Vec::new();
        let edge = at == 0 || at == self.count;
        match self.style {
            Style::Kept if !self.rng.once_in(self.count / 2 + 1) => new.extend_from_slice(old),
            Style::Kept if self.rng.once_in(2) => {}
            Style::Kept => self.wild(&mut new),
            Style::Tight if self.rng.once_in(12) => new.push(b' '),
            Style::Tight => {}
            Style::One(c) if !edge || self.rng.once_in(3) => character(&mut new, c),
            Style::One(_) => {}
            Style::Lines(end) => self.lines(end, &mut new),
            Style::Wild if self.rng.once_in(3) => {}
            Style::Wild => self.wild(&mut new),
            Style::Comments if self.rng.once_in(6) => {}
            Style::Comments => self.with_comment(&mut new),
            Style::Far(there) if there == at => self.far(&mut new),
            Style::Far(_) if edge => {}
            Style::Far(_) => new.push(b' '),
        }
        if at == self.count && !matches!(self.style, Style::Far(_) | Style::Kept) && self.rng.once_in(6) {
            self.comment(&mut new);
        }
        new
    }

    fn space(&mut self, out: &mut Vec<u8>) {
        character(out, self.rng.pick(SPACES));
    }

    fn lines(&mut self, end: &str, out: &mut Vec<u8>) {
        if !self.rng.once_in(3) {
            return out.extend_from_slice(self.rng.pick(&["", " ", " ", "  "]).as_bytes());
        }
        for _ in 0..self.rng.pick(&[1, 1, 1, 2, 3]) {
            out.extend_from_slice(self.rng.pick(&["", "", "", " ", "\t"]).as_bytes());
            out.extend_from_slice(end.as_bytes());
        }
        out.extend_from_slice(self.rng.pick(&["", "\t", "\t\t", "    "]).as_bytes());
    }

    fn wild(&mut self, out: &mut Vec<u8>) {
        for _ in 0..self.rng.within(1, 3) {
            match self.rng.below(6) {
                0 => self.with_comment(out),
                1 => out.extend_from_slice(self.rng.pick(&["\r\n", "\n\n", "\n", "\t", "\r", " \n "]).as_bytes()),
                _ => self.space(out),
            }
        }
    }

    fn with_comment(&mut self, out: &mut Vec<u8>) {
        if self.rng.once_in(2) {
            self.space(out);
        }
        self.comment(out);
        out.extend_from_slice(self.rng.pick(&["\n", "\n", "\r\n", "\n\t"]).as_bytes());
    }

    /// A comment without the LF behind it: any characters but LF.
    fn comment(&mut self, out: &mut Vec<u8>) {
        out.push(b'#');
        for _ in 0..self.rng.below(6) {
            match self.rng.below(6) {
                0 => character(out, self.rng.pick(CHARACTERS)),
                1 => character(out, self.rng.pick(&['"', '#', '"', '(', ')', '\r', '\t', '\u{85}', '\u{2028}', '\\'])),
                2 => character(out, char::from_u32(self.rng.below(0x11_0000) as u32).filter(|&c| c != '\n').unwrap_or('\u{fffd}')),
                3 => character(out, self.rng.pick(&SPACES[BEHIND_LF..])),
                _ => out.extend_from_slice(self.rng.pick(&["when lamp(1) turns on", "if", "and sun is up", "\"a", "x", "5s", "@!"]).as_bytes()),
            }
        }
    }

    /// Up to all the room there is.
    fn far(&mut self, out: &mut Vec<u8>) {
        let length = if self.rng.once_in(2) { self.spare } else { self.rng.within(0, self.spare) };
        match self.rng.below(4) {
            0 => out.resize(length, b'\n'),
            1 => out.resize(length, b' '),
            2 => (0..length / 3).for_each(|_| character(out, '\u{2003}')),
            _ if length >= 2 => {
                out.push(b'#');
                out.resize(length - 1, b'"');
                out.push(b'\n');
            }
            _ => {}
        }
    }
}

fn character(out: &mut Vec<u8>, c: char) {
    out.extend_from_slice(c.encode_utf8(&mut [0; 4]).as_bytes());
}
