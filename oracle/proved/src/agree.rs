//! The comparison of one case: the number, the place, the count and every word of both buffers.

use cases::{Case, Lexing, RECORD};
use std::panic;

/// What every word holds before a call.
pub const UNTOUCHED: u32 = u32::MAX;
/// The words lent for the answer: the four that it takes, and two that must stay as they are.
const ANSWER: usize = 6;

/// A lexer with the shape of `lex_into`.
pub type Lexer<'a> = &'a dyn Fn(&[u8], &mut [u32], &mut [u32]) -> u32;

/// Everything that a call can change.
#[derive(Debug, Clone, PartialEq, Eq)]
pub struct Left {
    pub result: u32,
    pub answer: [u32; ANSWER],
    pub words: Vec<u32>,
}

/// What a case showed on which the readers agree.
#[derive(Debug)]
pub struct Agreed {
    pub lexing: Lexing,
    /// Whether the supplied Rust was compared too.
    pub in_domain: bool,
}

/// What a lexer leaves behind on a case, if every word is untouched before.
pub fn left(lexer: Lexer, case: &Case) -> Left {
    let mut answer = [UNTOUCHED; ANSWER];
    let mut words = vec![UNTOUCHED; case.words];
    let result = lexer(&case.text, &mut words, &mut answer);
    Left { result, answer, words }
}

/// What it must leave behind: the records from the first word on, and no other word changed.
pub fn wanted(lexing: &Lexing, words: usize) -> Left {
    let Lexing { records, number, line, column } = lexing;
    let count = if *number == 0 { records.len() as u32 } else { 0 };
    let mut buffer = vec![UNTOUCHED; words];
    buffer.chunks_exact_mut(RECORD).zip(records).for_each(|(place, record)| place.copy_from_slice(record));
    Left { result: *number, answer: [*number, *line, *column, count, UNTOUCHED, UNTOUCHED], words: buffer }
}

/// Compares a lexer with the second reader, and the supplied Rust with that one in the domain; or says how they differ.
pub fn agree(lexer: Lexer, case: &Case) -> Result<Agreed, String> {
    let (lexing, in_domain) = second::lexing(&case.text, case.words);
    let (found, wanted) = (left(lexer, case), wanted(&lexing, case.words));
    if found != wanted {
        return Err(format!("the second reader: {}\nthe proved lexer:  {}", shown(&wanted), shown(&found)));
    }
    if in_domain {
        let supplied = panic::catch_unwind(|| supplied::lexing(std::str::from_utf8(&case.text).ok()?)).ok().flatten();
        if supplied.as_ref() != Some(&lexing) {
            return Err(format!("the supplied Rust: {supplied:?}\nthe other two:     {lexing:?}"));
        }
    }
    Ok(Agreed { lexing, in_domain })
}

/// The words without the untouched ones at the end.
fn shown(left: &Left) -> String {
    let used = left.words.iter().rposition(|&word| word != UNTOUCHED).map_or(0, |last| last + 1);
    let records: Vec<&[u32]> = left.words[..used].chunks(RECORD).collect();
    format!("result {}, answer {:?}, words {records:?}", left.result, left.answer)
}
