//! Questions 10 to 19 and the token records, from the supplied `lex`.
//!
//! Kinds, numbers, lines and columns are those that `lex` gives. Starts and lengths are worked out here.

use crate::lexer::{lex, Lexed, Pos, Token, TokenKind};
use crate::{messages, places, Refusal};
use cases::MOST_TOKENS;

/// From this many fractional digits on, the power of ten that `lex` takes does not fit in 64 bits.
const OVERFLOWING_PLACES: usize = 20;
/// The largest digit run that `lex` goes past.
const MOST_RUN: u64 = 1_000_000_000;

pub struct Record {
    pub kind: u32,
    pub number: u32,
    pub start: usize,
    pub length: usize,
    pub line: u32,
    pub column: u32,
}

impl Record {
    /// The words of a record, in document 02's order (§5).
    pub fn words(&self) -> [u32; cases::RECORD] {
        let word = |size: usize| u32::try_from(size).expect("a text is shorter than 2^32 bytes");
        [self.kind, self.number, word(self.start), word(self.length), cases::place_word(self.line, self.column)]
    }
}

/// How the reading of tokens ends.
pub enum End {
    Lexed(Lexed),
    Refused(Refusal),
    /// The next token is a duration on which the supplied `lex` would overflow.
    Overflow,
}

/// The records that the call writes, and how the reading of tokens ends.
pub struct Read {
    pub records: Vec<Record>,
    pub end: End,
}

/// Reads the tokens of a text. The 1,025th is refused before it is read, whatever it is.
pub fn read(text: &str) -> Read {
    let (kept, stop) = readable(text);
    let lexed = lex(kept).expect("lex takes what stands before the token that it refuses");
    let extra = match lexed.tokens.get(MOST_TOKENS) {
        Some(token) => Some(token.pos),
        None if lexed.tokens.len() == MOST_TOKENS && stop.is_some() => Some(places::end(kept)),
        None => None,
    };
    let mut records = records(kept, &lexed.tokens);
    records.truncate(MOST_TOKENS);
    let end = match extra {
        Some(pos) => End::Refused(Refusal::at(19, pos)),
        None => stop.unwrap_or(End::Lexed(lexed)),
    };
    Read { records, end }
}

/// The text up to the first token that `lex` refuses or would overflow on, and that end; or the whole text.
fn readable(text: &str) -> (&str, Option<End>) {
    if let Some(offset) = overflow(text) {
        return (&text[..offset], Some(End::Overflow));
    }
    match lex(text) {
        Ok(_) => (text, None),
        Err(error) => {
            let place = Pos { line: error.line, column: error.column };
            let offset = places::offsets(text, [place])[0];
            (&text[..offset], Some(End::Refused(messages::refusal(&error))))
        }
    }
}

/// Where the first duration starts on which `lex` would overflow, if `lex` comes to one.
fn overflow(text: &str) -> Option<usize> {
    let bytes = text.as_bytes();
    let run_starts = |i: &usize| bytes[*i].is_ascii_digit() && (*i == 0 || !bytes[*i - 1].is_ascii_digit());
    (0..bytes.len()).filter(run_starts).filter(|&i| overflows(&text[i..])).find(|&i| starts_number(&text[..i]))
}

/// Whether a number token that starts here is a duration on which `lex` would overflow: it takes both digit runs and
/// the unit, and there are too many fractional digits.
fn overflows(text: &str) -> bool {
    let (whole, rest) = run(text, |c| c.is_ascii_digit());
    let Some(rest) = rest.strip_prefix('.') else { return false };
    let (fraction, rest) = run(rest, |c| c.is_ascii_digit());
    let (unit, _) = run(rest, |c| c.is_ascii_alphabetic());
    fraction.len() >= OVERFLOWING_PLACES && small(whole) && small(fraction) && matches!(unit, "ms" | "s" | "m" | "h")
}

fn run(text: &str, belongs: fn(char) -> bool) -> (&str, &str) {
    text.split_at(text.find(|c| !belongs(c)).unwrap_or(text.len()))
}

fn small(digits: &str) -> bool {
    let digits = digits.trim_start_matches('0');
    digits.is_empty() || digits.parse().is_ok_and(|n: u64| n <= MOST_RUN)
}

/// Whether `lex` starts a number token at a digit that stands behind this text: whether it does at a 1 in that place.
fn starts_number(before: &str) -> bool {
    let probe = lex(&format!("{before}1"));
    let start = places::end(before);
    probe.is_ok_and(|lexed| lexed.tokens.last().is_some_and(|t| t.pos == start && t.kind == TokenKind::Int(1)))
}

fn records(text: &str, tokens: &[Token]) -> Vec<Record> {
    let starts = places::offsets(text, tokens.iter().map(|token| token.pos));
    let ends = starts.iter().copied().skip(1).chain([text.len()]);
    let spans = starts.iter().copied().zip(ends);
    tokens.iter().zip(spans).map(|(token, (from, to))| record(token, from, &text[from..to])).collect()
}

/// The record of a token that starts at `from`; `text` goes from there to the next token's start.
fn record(token: &Token, from: usize, text: &str) -> Record {
    let (kind, number) = kind_and_number(&token.kind);
    let (start, length) = match &token.kind {
        TokenKind::Str(inside) => (from + 1, inside.len()),
        TokenKind::Ident(word) => (from, word.len()),
        _ if kind <= 6 => (from, number_length(text, &token.kind)),
        _ => (from, sign_length(&token.kind)),
    };
    Record { kind, number, start, length, line: token.pos.line, column: token.pos.column }
}

/// The number token's length: every character of its kind before the next token's start. `lex` must give that piece
/// as just this token.
fn number_length(text: &str, kind: &TokenKind) -> usize {
    let (piece, _) = run(text, |c| c.is_ascii_alphanumeric() || c == ':' || c == '.');
    let lexed = lex(piece).unwrap_or_else(|error| panic!("{piece:?}, taken before, is refused: {error:?}"));
    assert!(matches!(&lexed.tokens[..], [one] if one.kind == *kind), "{piece:?} is not {kind:?}");
    piece.len()
}

fn sign_length(kind: &TokenKind) -> usize {
    use TokenKind::{DotDot, EqEq, Ge, Le, Ne};
    if matches!(kind, DotDot | EqEq | Ne | Ge | Le) { 2 } else { 1 }
}

fn kind_and_number(kind: &TokenKind) -> (u32, u32) {
    match kind {
        TokenKind::Ident(_) => (1, 0),
        TokenKind::Str(_) => (2, 0),
        TokenKind::Int(value) => (3, u32::try_from(*value).expect("lex gives at most 1,000,000,000")),
        TokenKind::Time { hour, minute } => (4, u32::from(*hour) * 60 + u32::from(*minute)),
        TokenKind::Duration(ms) => (5, *ms),
        TokenKind::Decimal1e4(value) => (6, *value),
        TokenKind::LParen => (7, 0),
        TokenKind::RParen => (8, 0),
        TokenKind::LBrace => (9, 0),
        TokenKind::RBrace => (10, 0),
        TokenKind::Comma => (11, 0),
        TokenKind::Dot => (12, 0),
        TokenKind::DotDot => (13, 0),
        TokenKind::Assign => (14, 0),
        TokenKind::EqEq => (15, 0),
        TokenKind::Ne => (16, 0),
        TokenKind::Ge => (17, 0),
        TokenKind::Le => (18, 0),
        TokenKind::Gt => (19, 0),
        TokenKind::Lt => (20, 0),
        TokenKind::Plus => (21, 0),
        TokenKind::Minus => (22, 0),
    }
}
