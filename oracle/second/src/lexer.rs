//! Tokens and places: the whole text is lexed before any parsing.

use crate::durations::Duration;
use crate::refusal::{Place, Refusal};
use cases::MOST_TOKENS;

/// The most that a digit run may be.
pub const MOST_RUN: u64 = 1_000_000_000;
const MOST_PLACES: usize = 4;

/// The kinds 1 to 22, in document 01's order.
#[derive(Debug, Clone, Copy, PartialEq, Eq)]
pub enum Kind {
    Word = 1,
    String,
    Integer,
    Time,
    Duration,
    Decimal,
    Open,
    Close,
    OpenBrace,
    CloseBrace,
    Comma,
    Point,
    Points,
    Assign,
    Equal,
    NotEqual,
    AtLeast,
    AtMost,
    Above,
    Below,
    Plus,
    Minus,
}

/// The signs; one that begins with another stands before it.
const SIGNS: [(&str, Kind); 16] = [
    ("..", Kind::Points),
    ("==", Kind::Equal),
    ("!=", Kind::NotEqual),
    (">=", Kind::AtLeast),
    ("<=", Kind::AtMost),
    ("(", Kind::Open),
    (")", Kind::Close),
    ("{", Kind::OpenBrace),
    ("}", Kind::CloseBrace),
    (",", Kind::Comma),
    (".", Kind::Point),
    ("=", Kind::Assign),
    (">", Kind::Above),
    ("<", Kind::Below),
    ("+", Kind::Plus),
    ("-", Kind::Minus),
];

#[derive(Debug, Clone, Copy, PartialEq, Eq)]
pub struct Token {
    pub kind: Kind,
    pub number: u32,
    /// In bytes, like the length; inside the quotes for a string.
    pub start: usize,
    pub length: usize,
    pub place: Place,
}

#[derive(Debug)]
pub struct Lexed {
    /// Every token, or those before the refused one.
    pub tokens: Vec<Token>,
    /// The place of the end of text, or why lexing stopped before it.
    pub end: Result<Place, Refusal>,
    /// Whether a duration was read that document 01's first 17 refuses; such a text is outside the domain.
    pub formerly_17: bool,
}

/// What is wrong with a token: the number of its refusal.
pub type Fault = u32;

/// Lexes the whole text. 19 is asked before the token is read; every place is the token's first character.
pub fn lex(text: &str) -> Lexed {
    let mut scanner = Scanner { text, at: 0, place: Place::FIRST, formerly_17: false };
    let mut tokens = Vec::new();
    let end = loop {
        scanner.skip_blank();
        let place = scanner.place;
        let Some(first) = scanner.peek() else { break Ok(place) };
        let token = if tokens.len() == MOST_TOKENS { Err(19) } else { scanner.token(first) };
        match token {
            Ok(token) => tokens.push(token),
            Err(number) => break Err(Refusal::new(number, place)),
        }
    };
    Lexed { tokens, end, formerly_17: scanner.formerly_17 }
}

/// The 25 characters of Unicode White_Space.
pub fn is_white_space(c: char) -> bool {
    matches!(c,
        '\u{9}'..='\u{D}' | ' ' | '\u{85}' | '\u{A0}' | '\u{1680}' | '\u{2000}'..='\u{200A}'
        | '\u{2028}' | '\u{2029}' | '\u{202F}' | '\u{205F}' | '\u{3000}')
}

fn is_word_part(c: char) -> bool {
    c.is_ascii_alphanumeric() || c == '_'
}

/// A run of digits: its value, and how many digits it has.
#[derive(Debug, Clone, Copy, Default)]
pub struct Run {
    pub value: u64,
    pub count: usize,
}

struct Scanner<'a> {
    text: &'a str,
    at: usize,
    place: Place,
    formerly_17: bool,
}

impl<'a> Scanner<'a> {
    fn rest(&self) -> &'a str {
        &self.text[self.at..]
    }

    fn peek(&self) -> Option<char> {
        self.rest().chars().next()
    }

    /// Takes characters as long as `fits` holds, and gives them.
    fn take_while(&mut self, fits: impl Fn(char) -> bool) -> &'a str {
        let rest = self.rest();
        let length = rest.find(|c| !fits(c)).unwrap_or(rest.len());
        self.take(length)
    }

    /// Takes `length` bytes, which end between two characters.
    fn take(&mut self, length: usize) -> &'a str {
        let taken = &self.rest()[..length];
        self.place = taken.chars().fold(self.place, Place::after);
        self.at += length;
        taken
    }

    /// White space and comments; "`#` opens a comment up to LF".
    fn skip_blank(&mut self) {
        loop {
            self.take_while(is_white_space);
            if self.peek() != Some('#') {
                return;
            }
            self.take_while(|c| c != '\n');
        }
    }

    fn token(&mut self, first: char) -> Result<Token, Fault> {
        let (start, place) = (self.at, self.place);
        if first == '"' {
            return self.string(place);
        }
        let (kind, number) = if first.is_ascii_digit() {
            self.number()?
        } else if is_word_part(first) {
            self.take_while(is_word_part);
            (Kind::Word, 0)
        } else {
            (self.sign()?, 0)
        };
        Ok(Token { kind, number, start, length: self.at - start, place })
    }

    /// 10: can a token begin here? `!` begins one only as `!=`.
    fn sign(&mut self) -> Result<Kind, Fault> {
        let found = SIGNS.iter().find(|(sign, _)| self.rest().starts_with(sign));
        let (sign, kind) = found.ok_or::<Fault>(10)?;
        self.take(sign.len());
        Ok(*kind)
    }

    /// 11: is the string closed before LF or the end? It has no escapes.
    fn string(&mut self, place: Place) -> Result<Token, Fault> {
        self.take(1);
        let start = self.at;
        let inside = self.take_while(|c| c != '"' && c != '\n');
        if self.peek() != Some('"') {
            return Err(11);
        }
        self.take(1);
        Ok(Token { kind: Kind::String, number: 0, start, length: inside.len(), place })
    }

    /// A run of digits, held to the first half of 12 as it is read.
    fn digits(&mut self) -> Result<Run, Fault> {
        let digits = self.take_while(|c| c.is_ascii_digit());
        let add = |sum: u64, digit: u8| sum.saturating_mul(10).saturating_add(u64::from(digit - b'0'));
        let value = digits.bytes().fold(0, add);
        if value > MOST_RUN {
            return Err(12);
        }
        Ok(Run { value, count: digits.len() })
    }

    /// Integer, time, duration or decimal: the four kinds that begin with a digit.
    fn number(&mut self) -> Result<(Kind, u32), Fault> {
        let whole = self.digits()?;
        if self.peek() == Some(':') {
            return Ok((Kind::Time, self.time(whole)?));
        }
        let fraction = self.fraction()?;
        let unit = self.take_while(|c| c.is_ascii_alphabetic());
        match (unit, fraction) {
            ("", None) => Ok((Kind::Integer, word(u128::from(whole.value), 12)?)),
            ("", Some(fraction)) => Ok((Kind::Decimal, decimal(whole, fraction)?)),
            (unit, fraction) => {
                let duration = Duration::new(whole, fraction.unwrap_or_default(), unit)?;
                self.formerly_17 |= duration.formerly_17();
                Ok((Kind::Duration, duration.milliseconds()?))
            }
        }
    }

    /// "A point joins a number only when a digit follows."
    fn fraction(&mut self) -> Result<Option<Run>, Fault> {
        let mut ahead = self.rest().chars();
        if ahead.next() != Some('.') || !ahead.next().is_some_and(|c| c.is_ascii_digit()) {
            return Ok(None);
        }
        self.take(1);
        self.digits().map(Some)
    }

    /// 13: one or two hour digits, two minute digits, at most 23:59; in minutes since midnight.
    fn time(&mut self, hour: Run) -> Result<u32, Fault> {
        self.take(1);
        let minute = self.digits()?;
        let digits_fit = hour.count <= 2 && minute.count == 2;
        if !digits_fit || hour.value > 23 || minute.value > 59 {
            return Err(13);
        }
        word(u128::from(hour.value * 60 + minute.value), 13)
    }
}

/// 15, then the second half of 12: at most four places, and at most 429496.7295; times 10,000.
fn decimal(whole: Run, fraction: Run) -> Result<u32, Fault> {
    if fraction.count > MOST_PLACES {
        return Err(15);
    }
    let scale = power_of_ten(MOST_PLACES - fraction.count);
    word(u128::from(whole.value) * 10_000 + u128::from(fraction.value) * scale, 12)
}

/// Ten to a power of at most 4.
fn power_of_ten(exponent: usize) -> u128 {
    (0..exponent).fold(1, |product, _| product * 10)
}

/// A value as a word of 32 bits; one that does not fit is refused with `number`.
pub fn word(value: u128, number: Fault) -> Result<u32, Fault> {
    u32::try_from(value).map_err(|_| number)
}
