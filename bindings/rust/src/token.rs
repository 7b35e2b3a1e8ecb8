//! The records of the tokens, in the words that were lent for them: the layout of `include/tergyosul.h`.

use crate::Name;

/// How many words the record of a token has: kind, number, start, length, place.
pub const RECORD_WORDS: usize = 5;

/// A place is line times this, plus column.
const LINE: u32 = 65_536;

/// A token of a text, from its record.
#[derive(Debug, Clone, Copy, PartialEq, Eq, Hash)]
pub struct Token {
    /// 1 a word, 2 a string, 3 an integer, 4 a time, 5 a duration, 6 a decimal, 7 to 22 a sign.
    pub kind: u32,
    /// An integer, the minutes of a time since midnight, the milliseconds of a duration, or a decimal times 10,000; else 0.
    pub number: u32,
    /// The token's bytes in the text; of a string those inside its quotes.
    pub bytes: Name,
    place: u32,
}

impl Token {
    /// The line of the token's first character, from 1.
    pub const fn line(&self) -> u32 {
        self.place / LINE
    }

    /// The column of the token's first character, from 1, in characters.
    pub const fn column(&self) -> u32 {
        self.place % LINE
    }

    fn of_record(&[kind, number, start, length, place]: &[u32; RECORD_WORDS]) -> Token {
        Token { kind, number, bytes: Name { start, length }, place }
    }
}

/// The tokens whose records stand in the words, in the text's order. Of words that [`lex`](crate::lex) wrote, the first ones
/// are the text's, as many as it says; those behind them are what the words held before.
pub fn tokens(words: &[u32]) -> impl Iterator<Item = Token> + '_ {
    words.chunks_exact(RECORD_WORDS).filter_map(|record| record.try_into().ok()).map(Token::of_record)
}
