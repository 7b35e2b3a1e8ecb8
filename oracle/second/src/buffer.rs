//! The buffers that a caller lends.

use crate::lexer::Token;
use cases::{place_word, RECORD};

/// What every word holds before a call.
const UNTOUCHED: u32 = u32::MAX;

pub struct Buffer {
    words: Vec<u32>,
}

impl Buffer {
    pub fn new(words: usize) -> Buffer {
        Buffer { words: vec![UNTOUCHED; words] }
    }

    pub fn len(&self) -> usize {
        self.words.len()
    }

    /// Writes the records of the tokens, one behind the other from the first word on.
    pub fn write(&mut self, tokens: &[Token]) {
        for (place, token) in self.words.chunks_exact_mut(RECORD).zip(tokens) {
            place.copy_from_slice(&record(token));
        }
    }

    /// The records, counted up to the first whose kind word is untouched.
    pub fn records(&self) -> Vec<&[u32]> {
        self.words.chunks_exact(RECORD).take_while(|record| record[0] != UNTOUCHED).collect()
    }

    /// Whether every word past the records is untouched.
    pub fn kept(&self) -> bool {
        let used = self.records().len() * RECORD;
        self.words[used..].iter().all(|&word| word == UNTOUCHED)
    }
}

/// "A text of 16,384 bytes cannot pass line or column 16,385", so that start, length and place have room in 32 bits.
pub fn record(token: &Token) -> [u32; RECORD] {
    let word = |size: usize| u32::try_from(size).unwrap_or(UNTOUCHED);
    let place = token.place;
    [token.kind as u32, token.number, word(token.start), word(token.length), place_word(place.line, place.column)]
}

/// What every byte holds before a call that writes bytes.
const UNTOUCHED_BYTE: u8 = 165;

/// Whether every byte past these is untouched, once they are written into a buffer of so many bytes.
pub fn kept_behind(written: &[u8], size: usize) -> bool {
    let mut buffer = vec![UNTOUCHED_BYTE; size];
    buffer[..written.len()].copy_from_slice(written);
    buffer[written.len()..].iter().all(|&byte| byte == UNTOUCHED_BYTE)
}

#[cfg(test)]
mod tests {
    use super::*;

    #[test]
    fn a_word_past_the_records_is_seen() {
        let mut buffer = Buffer::new(13);
        assert!(buffer.kept());
        buffer.words[..6].copy_from_slice(&[1, 0, 0, 1, 65_537, 2]);
        assert_eq!(buffer.records().len(), 2);
        assert!(buffer.kept());
        buffer.words[12] = 0;
        assert!(!buffer.kept());
        buffer.words[5] = UNTOUCHED;
        buffer.words[12] = UNTOUCHED;
        assert_eq!(buffer.records(), [&[1, 0, 0, 1, 65_537]]);
        assert!(buffer.kept());
        buffer.words[6] = 0;
        assert!(!buffer.kept());
    }
}
