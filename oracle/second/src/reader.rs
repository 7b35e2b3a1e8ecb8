//! The token in hand, and the questions 20 to 24 that are put to single tokens.

use crate::lexer::{Kind, Token};
use crate::model::Choice;
use crate::profile::LeftOut;
use crate::refusal::{Place, Refusal};
use crate::sheet::View;
use crate::topics::{self, Topics};

/// What a part of the parser gives.
pub type Read<T> = Result<T, Refusal>;

pub const MOST_NAME: usize = 48;
pub const MOST_VAR_TEXT: usize = 16;

/// What becomes of an input argument that sets one already set.
#[derive(Debug, Clone, Copy, PartialEq, Eq)]
pub enum Repeats {
    Refused,
    Replace,
}

/// What a call gives beside the text: what it sees of the sheet, the topics that stand named, and its habit.
pub struct Given<'a> {
    pub sheet: View<'a>,
    pub topics: Topics<'a>,
    pub repeats: Repeats,
}

/// The parser: a list of tokens with the text they are from, where it stands in it, what the call gives, what it met so far that the
/// shop profile leaves out, and whether it met a form with days.
pub struct Reader<'a> {
    text: &'a str,
    tokens: Vec<Token>,
    next: usize,
    end: Place,
    pub given: Given<'a>,
    pub left_out: LeftOut,
    pub met_days: bool,
}

impl<'a> Reader<'a> {
    pub fn new(text: &'a str, tokens: Vec<Token>, end: Place, given: Given<'a>) -> Reader<'a> {
        Reader { text, tokens, next: 0, end, given, left_out: LeftOut::default(), met_days: false }
    }

    pub fn peek(&self) -> Option<Token> {
        self.tokens.get(self.next).copied()
    }

    /// The place of the token in hand, or of the end of text.
    pub fn place(&self) -> Place {
        self.peek().map_or(self.end, |token| token.place)
    }

    /// A refusal at the token in hand or at the end of text.
    pub fn refuse<T>(&self, number: u32) -> Read<T> {
        Err(Refusal::new(number, self.place()))
    }

    /// The text of a token; what is inside the quotes for a string.
    fn written(&self, token: Token) -> &'a str {
        &self.text[token.start..token.start + token.length]
    }

    /// The bytes of it.
    pub fn bytes(&self, token: Token) -> &'a [u8] {
        self.written(token).as_bytes()
    }

    pub fn at_kind(&self, kind: Kind) -> bool {
        self.peek().is_some_and(|token| token.kind == kind)
    }

    pub fn at_word(&self, word: &str) -> bool {
        self.peek().is_some_and(|token| token.kind == Kind::Word && self.bytes(token) == word.as_bytes())
    }

    /// The word that stands here, if `=` is behind it: a key.
    pub fn key(&self) -> Option<&'a [u8]> {
        let behind = self.tokens.get(self.next + 1);
        let assigned = behind.is_some_and(|token| token.kind == Kind::Assign);
        self.peek().filter(|token| assigned && token.kind == Kind::Word).map(|token| self.bytes(token))
    }

    pub fn take_kind(&mut self, kind: Kind) -> bool {
        let found = self.at_kind(kind);
        self.next += usize::from(found);
        found
    }

    pub fn take_word(&mut self, word: &str) -> bool {
        let found = self.at_word(word);
        self.next += usize::from(found);
        found
    }

    /// 20: is this the kind of token that the form has here?
    pub fn expect(&mut self, kind: Kind) -> Read<Token> {
        match self.peek() {
            Some(token) if token.kind == kind => {
                self.next += 1;
                Ok(token)
            }
            _ => self.refuse(20),
        }
    }

    /// 20: is this the one fixed word that the form has here?
    pub fn expect_word(&mut self, word: &str) -> Read<()> {
        if self.take_word(word) { Ok(()) } else { self.refuse(20) }
    }

    pub fn expect_words(&mut self, words: &[&str]) -> Read<()> {
        words.iter().try_for_each(|word| self.expect_word(word))
    }

    /// Any word, taken to be compared; 20 if no word stands here.
    pub fn any_word(&mut self) -> Read<(&'a [u8], Place)> {
        let token = self.expect(Kind::Word)?;
        Ok((self.bytes(token), token.place))
    }

    /// 21: is the word offered here one of the choices?
    pub fn choice(&mut self, choices: &[Choice]) -> Read<Choice> {
        let (word, place) = self.any_word()?;
        one_of(word, choices).ok_or(Refusal::new(21, place))
    }

    /// 22: an integer of at most `most`, judged at once.
    pub fn integer(&mut self, most: u32) -> Read<u32> {
        let token = self.expect(Kind::Integer)?;
        in_range(token, most)
    }

    /// 23 and 24: a quoted name, judged at the string itself.
    pub fn name(&mut self) -> Read<Token> {
        let token = self.expect(Kind::String)?;
        match token.length {
            0 => Err(Refusal::new(23, token.place)),
            1..=MOST_NAME => Ok(token),
            _ => Err(Refusal::new(24, token.place)),
        }
    }

    /// Q: a quoted name in parentheses, not looked up.
    pub fn quoted(&mut self) -> Read<&'a [u8]> {
        self.expect(Kind::Open)?;
        let name = self.name()?;
        self.expect(Kind::Close)?;
        Ok(self.bytes(name))
    }

    /// 64 and 65: a quoted topic.
    pub fn topic(&mut self) -> Read<&'a [u8]> {
        let token = self.expect(Kind::String)?;
        topics::judge(self.written(token), token.place)?;
        Ok(self.bytes(token))
    }

    /// 24: the string that a var is compared with; it may be empty.
    pub fn var_text(&mut self) -> Read<&'a [u8]> {
        let token = self.expect(Kind::String)?;
        if token.length > MOST_VAR_TEXT {
            return Err(Refusal::new(24, token.place));
        }
        Ok(self.bytes(token))
    }
}

/// The choice that the word is, if it is one.
pub fn one_of(word: &[u8], choices: &[Choice]) -> Option<Choice> {
    choices.iter().copied().find(|choice| choice.as_bytes() == word)
}

/// 22, at the number.
pub fn in_range(token: Token, most: u32) -> Read<u32> {
    if token.number <= most { Ok(token.number) } else { Err(Refusal::new(22, token.place)) }
}
