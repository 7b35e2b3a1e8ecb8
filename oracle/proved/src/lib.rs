//! The proved lexer and the whole calls as Rust functions, the comparison of the first with the supplied Rust and the second
//! reader, the tests of the others, and what the speed is measured on.

pub mod agree;
pub mod coverage;
pub mod inputs;
pub mod next_chain;
pub mod short;
pub mod texts;
pub mod whole;

#[cfg(test)]
mod days;
#[cfg(test)]
mod isolation;
#[cfg(test)]
mod tests;
#[cfg(test)]
mod topics;

use cases::Case;

extern "C" {
    /// Each slice is passed as a pointer and a length.
    fn tergyosul_lex(
        text: *const u8,
        text_length: usize,
        words: *mut u32,
        words_length: usize,
        answer: *mut u32,
        answer_length: usize,
    ) -> u32;

    fn tergyosul_sheet_primary(sheet: *const u8, sheet_length: usize) -> u32;

    fn tergyosul_write(
        first: *const u8,
        first_length: usize,
        second: *const u8,
        second_length: usize,
        sheet: *const u8,
        sheet_length: usize,
        party: u8,
        primary: u8,
        lists: *const u32,
        lists_length: usize,
        out: *mut u8,
        out_length: usize,
        answer: *mut u32,
        answer_length: usize,
    ) -> u32;
}

/// The whole calls, which all take the same.
macro_rules! whole_calls {
    ($($name:ident)*) => {
        extern "C" {
            $(fn $name(
                text: *const u8,
                text_length: usize,
                sheet: *const u8,
                sheet_length: usize,
                topics: *const u8,
                topics_length: usize,
                party: u8,
                primary: u8,
                words: *mut u32,
                words_length: usize,
                answer: *mut u32,
                answer_length: usize,
            ) -> u32;)*
        }
    };
}

whole_calls! { tergyosul_read tergyosul_read_archive tergyosul_read_shop }

/// Puts one of them to what a caller lends.
macro_rules! whole_call {
    ($name:ident, $text:expr, $given:expr, $words:expr, $answer:expr) => {{
        let Given { sheet, topics, party, primary } = $given;
        // SAFETY: each pointer and length is a slice that is borrowed for the call, and the two mutable ones overlap nothing.
        unsafe {
            $name(
                $text.as_ptr(),
                $text.len(),
                sheet.as_ptr(),
                sheet.len(),
                topics.as_ptr(),
                topics.len(),
                party,
                primary,
                $words.as_mut_ptr(),
                $words.len(),
                $answer.as_mut_ptr(),
                $answer.len(),
            )
        }
    }};
}

/// What a call answers beside the records in the words.
#[derive(Debug, Clone, Copy, PartialEq, Eq)]
pub struct Answer {
    /// 0, or the number of the refusal.
    pub number: u32,
    /// The place of the refusal, or of the end of text.
    pub line: u32,
    pub column: u32,
    /// How many tokens there are; 0 for a refusal.
    pub count: u32,
}

/// Lexes a text: the records of its tokens go to the words.
pub fn lex(text: &[u8], words: &mut [u32]) -> Answer {
    let mut answer = [0; 4];
    let number = lex_into(text, words, &mut answer);
    let [_, line, column, count] = answer;
    Answer { number, line, column, count }
}

/// The call itself. With an answer of fewer than four words nothing is lexed or written; no word behind the fourth is written.
pub fn lex_into(text: &[u8], words: &mut [u32], answer: &mut [u32]) -> u32 {
    // SAFETY: each pointer and length is a slice that is borrowed for the call, and the two mutable ones overlap nothing.
    unsafe {
        tergyosul_lex(
            text.as_ptr(),
            text.len(),
            words.as_mut_ptr(),
            words.len(),
            answer.as_mut_ptr(),
            answer.len(),
        )
    }
}

/// What a call gives beside the text: a name sheet, the topics of earlier rules, one a line, and its party and its primary.
#[derive(Debug, Clone, Copy)]
pub struct Given<'a> {
    pub sheet: &'a [u8],
    pub topics: &'a [u8],
    pub party: u8,
    pub primary: u8,
}

impl<'a> Given<'a> {
    pub fn of(case: &'a Case) -> Given<'a> {
        Given { sheet: &case.sheet, topics: case.topics(), party: case.party(), primary: case.primary() }
    }
}

/// The default call: reads a rule text with a name sheet, and refuses a repeated argument of `input(`. The layout of the answer is
/// include/tergyosul.h's; with one of fewer than 108 words nothing is read or written.
pub fn read(text: &[u8], given: Given, words: &mut [u32], answer: &mut [u32]) -> u32 {
    whole_call!(tergyosul_read, text, given, words, answer)
}

/// The archive loader's call, whose habit the supplied Rust has too: a repeated argument replaces the earlier one.
pub fn read_archive(text: &[u8], given: Given, words: &mut [u32], answer: &mut [u32]) -> u32 {
    whole_call!(tergyosul_read_archive, text, given, words, answer)
}

/// The shop call: the default call under the shop profile (document 02 §9).
pub fn read_shop(text: &[u8], given: Given, words: &mut [u32], answer: &mut [u32]) -> u32 {
    whole_call!(tergyosul_read_shop, text, given, words, answer)
}

/// Writes the lists of an answer that a whole call gave of the text out as a rule text (document 02 §7). With an answer of fewer than five words
/// nothing is written.
pub fn write(text: &[u8], given: Given, lists: &[u32], out: &mut [u8], answer: &mut [u32]) -> u32 {
    let Given { sheet, party, primary, .. } = given;
    let second: &[u8] = &[];
    // SAFETY: each pointer and length is a slice that is borrowed for the call, and the two mutable ones overlap nothing.
    unsafe {
        tergyosul_write(
            text.as_ptr(),
            text.len(),
            second.as_ptr(),
            second.len(),
            sheet.as_ptr(),
            sheet.len(),
            party,
            primary,
            lists.as_ptr(),
            lists.len(),
            out.as_mut_ptr(),
            out.len(),
            answer.as_mut_ptr(),
            answer.len(),
        )
    }
}

/// The adapter that a sheet's first line names, 0 where it names none.
pub fn sheet_primary(sheet: &[u8]) -> u32 {
    // SAFETY: the pointer and the length are a slice that is borrowed for the call.
    unsafe { tergyosul_sheet_primary(sheet.as_ptr(), sheet.len()) }
}
