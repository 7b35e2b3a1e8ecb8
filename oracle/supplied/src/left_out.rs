//! The forms in which the supplied Rust is not compared: those with days (document 02 §1), and the payload of an `mqtt` trigger,
//! which the documents leave out (question 40) and the supplied Rust has.
//!
//! The supplied Rust comes to the word of such a form just if, given only the tokens before it, it uses up all of them and then
//! asks for the word's place: for a condition before `day`; before `on` it takes `at` and a time, or sunrise or sunset, as a whole
//! trigger, and before `is` it reads `mqtt` and a topic as one. It looks past the word in hand only inside `input(…)`, so what it
//! does up to the word does not hang on the word. The first such word decides, and the supplied Rust never goes into it.

use crate::cursor::Cursor;
use crate::lexer::{Lexed, Pos, Token, TokenKind};
use crate::messages;
use crate::parser::action::sections;
use dali2rust_rules_model::{CompileError, NameResolver, RuleSet};

/// A form that the supplied Rust comes to and is not compared in.
#[derive(Debug, Clone, Copy, PartialEq, Eq)]
pub enum Reached {
    /// `on` behind `at` and its time or sun, or the condition `day`.
    Days,
    /// `is` behind a topic, at this place.
    Payload(Pos),
}

/// The first such form.
pub fn first_reached(lexed: &Lexed, names: &dyn NameResolver, earlier: &RuleSet) -> Option<Reached> {
    let call = Call { names, earlier };
    (1..lexed.tokens.len()).find_map(|i| call.reaches(&lexed.tokens[..i], &lexed.tokens[i]))
}

/// Whether the tokens end with `when at` and a time, or sunrise or sunset with perhaps an offset.
fn end_with_at(tokens: &[Token]) -> bool {
    let start = match tokens {
        [start @ .., Token { kind: TokenKind::Time { .. }, .. }] => start,
        [start @ .., sun, sign, Token { kind: TokenKind::Duration(_), .. }]
            if is_sun(sun) && matches!(sign.kind, TokenKind::Plus | TokenKind::Minus) => start,
        [start @ .., sun] if is_sun(sun) => start,
        _ => return false,
    };
    matches!(start, [.., when, at] if is_word(when, "when") && is_word(at, "at"))
}

fn is_sun(token: &Token) -> bool {
    is_word(token, "sunrise") || is_word(token, "sunset")
}

fn is_word(token: &Token, word: &str) -> bool {
    matches!(&token.kind, TokenKind::Ident(w) if w == word)
}

fn stands_at(error: &CompileError, pos: Pos) -> bool {
    (error.line, error.column) == (pos.line, pos.column)
}

/// What a call gives beside the text.
struct Call<'a> {
    names: &'a dyn NameResolver,
    earlier: &'a RuleSet,
}

impl Call<'_> {
    fn reaches(&self, before: &[Token], token: &Token) -> Option<Reached> {
        match before {
            [.., link] if is_word(token, "day") && (is_word(link, "if") || is_word(link, "and")) => {
                self.asks(before, token.pos, "expected a condition").then_some(Reached::Days)
            }
            _ if is_word(token, "on") && end_with_at(before) => self.takes(before, token.pos).then_some(Reached::Days),
            [.., when, mqtt, Token { kind: TokenKind::Str(_), .. }]
                if is_word(token, "is") && is_word(mqtt, "mqtt") && is_word(when, "when") =>
            {
                let read = self.takes(before, token.pos) || self.counts(before, token.pos, mqtt.pos);
                read.then_some(Reached::Payload(token.pos))
            }
            _ => None,
        }
    }

    /// Whether the supplied Rust uses up the tokens and then says this at their end.
    fn asks(&self, before: &[Token], end: Pos, message: &str) -> bool {
        let said = sections(&mut self.cursor(before, end), self.earlier);
        said.is_err_and(|error| error.message == message && stands_at(&error, end))
    }

    /// Whether the supplied Rust takes the tokens, and all of them.
    fn takes(&self, before: &[Token], end: Pos) -> bool {
        let mut cursor = self.cursor(before, end);
        sections(&mut cursor, self.earlier).is_ok() && cursor.peek().is_none()
    }

    /// Whether it refuses the last trigger for the count of topics alone, at its `mqtt`; it counts them once it has read the whole
    /// trigger, with the payload if there is one.
    fn counts(&self, before: &[Token], end: Pos, mqtt: Pos) -> bool {
        let said = sections(&mut self.cursor(before, end), self.earlier);
        said.is_err_and(|error| messages::is(66, &error) && stands_at(&error, mqtt))
    }

    fn cursor(&self, tokens: &[Token], end: Pos) -> Cursor<'_> {
        Cursor::new(Lexed { tokens: tokens.to_vec(), end }, self.names)
    }
}
