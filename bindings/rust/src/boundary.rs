//! The calls of the C library, and all that is unsafe in this crate.
//!
//! `include/tergyosul.h` asks four things of a caller. Each holds for every call from here, because the pointers and lengths
//! are those of slices that are borrowed while the call runs:
//!
//! - No pointer is null, not even with a length of 0: a slice's never is.
//! - Each points to as many elements of its type as the length says. `usize` is C's `size_t`, `u8` and `u32` are its
//!   `uint8_t` and `uint32_t`, and a slice's pointer is aligned. A party and an adapter are a `u8`, so neither is cut.
//! - The elements were written before: those of a slice are initialised. The library writes whole words, so they stay so.
//! - An array that is written is apart from all the others: `words`, `others`, `out` and `answer` are borrowed mutably, so
//!   none overlaps another, a text, rows, the sheet, the topics or the lists. These, which are only read, may be the same bytes.
//!
//! The library has no state, so it keeps no pointer after it returns. That it stays within the slices and returns from every
//! call is proved. The declarations below are the header's.

use crate::{Call, Party};

extern "C" {
    fn tergyosul_read(
        text: *const u8,
        text_length: usize,
        sheet: *const u8,
        sheet_length: usize,
        topics: *const u8,
        topics_length: usize,
        party: u8,
        primary: u8,
        words: *mut u32,
        words_length: usize,
        answer: *mut u32,
        answer_length: usize,
    ) -> u32;

    fn tergyosul_read_archive(
        text: *const u8,
        text_length: usize,
        sheet: *const u8,
        sheet_length: usize,
        topics: *const u8,
        topics_length: usize,
        party: u8,
        primary: u8,
        words: *mut u32,
        words_length: usize,
        answer: *mut u32,
        answer_length: usize,
    ) -> u32;

    fn tergyosul_read_shop(
        text: *const u8,
        text_length: usize,
        sheet: *const u8,
        sheet_length: usize,
        topics: *const u8,
        topics_length: usize,
        party: u8,
        primary: u8,
        words: *mut u32,
        words_length: usize,
        answer: *mut u32,
        answer_length: usize,
    ) -> u32;

    fn tergyosul_join(
        first: *const u8,
        first_length: usize,
        second: *const u8,
        second_length: usize,
        sheet: *const u8,
        sheet_length: usize,
        topics: *const u8,
        topics_length: usize,
        party: u8,
        primary: u8,
        words: *mut u32,
        words_length: usize,
        others: *mut u32,
        others_length: usize,
        answer: *mut u32,
        answer_length: usize,
    ) -> u32;

    fn tergyosul_write(
        first: *const u8,
        first_length: usize,
        second: *const u8,
        second_length: usize,
        sheet: *const u8,
        sheet_length: usize,
        party: u8,
        primary: u8,
        lists: *const u32,
        lists_length: usize,
        out: *mut u8,
        out_length: usize,
        answer: *mut u32,
        answer_length: usize,
    ) -> u32;

    fn tergyosul_rows(
        rows: *const u8,
        rows_length: usize,
        sheet: *const u8,
        sheet_length: usize,
        party: u8,
        primary: u8,
        answer: *mut u32,
        answer_length: usize,
    ) -> u32;

    fn tergyosul_rows_back(
        sheet: *const u8,
        sheet_length: usize,
        party: u8,
        primary: u8,
        lists: *const u32,
        lists_length: usize,
        out: *mut u8,
        out_length: usize,
        answer: *mut u32,
        answer_length: usize,
    ) -> u32;

    fn tergyosul_sheet_primary(sheet: *const u8, sheet_length: usize) -> u32;

    fn tergyosul_lex(
        text: *const u8,
        text_length: usize,
        words: *mut u32,
        words_length: usize,
        answer: *mut u32,
        answer_length: usize,
    ) -> u32;

    fn tergyosul_next_chain(pieces: *const u8, pieces_length: usize, answer: *mut u32, answer_length: usize) -> u32;
}

/// The result of a call whose answer is too short: nothing was read and nothing written.
pub const NO_ROOM: u32 = u32::MAX;

pub fn read(text: &[u8], sheet: &[u8], call: Call<'_>, words: &mut [u32], answer: &mut [u32]) -> u32 {
    // SAFETY: as above: five slices that are borrowed for the call, the two mutable ones apart from all others.
    unsafe {
        tergyosul_read(
            text.as_ptr(),
            text.len(),
            sheet.as_ptr(),
            sheet.len(),
            call.topics.as_ptr(),
            call.topics.len(),
            call.party.number,
            call.party.primary,
            words.as_mut_ptr(),
            words.len(),
            answer.as_mut_ptr(),
            answer.len(),
        )
    }
}

pub fn read_archive(text: &[u8], sheet: &[u8], call: Call<'_>, words: &mut [u32], answer: &mut [u32]) -> u32 {
    // SAFETY: as above: five slices that are borrowed for the call, the two mutable ones apart from all others.
    unsafe {
        tergyosul_read_archive(
            text.as_ptr(),
            text.len(),
            sheet.as_ptr(),
            sheet.len(),
            call.topics.as_ptr(),
            call.topics.len(),
            call.party.number,
            call.party.primary,
            words.as_mut_ptr(),
            words.len(),
            answer.as_mut_ptr(),
            answer.len(),
        )
    }
}

pub fn read_shop(text: &[u8], sheet: &[u8], call: Call<'_>, words: &mut [u32], answer: &mut [u32]) -> u32 {
    // SAFETY: as above: five slices that are borrowed for the call, the two mutable ones apart from all others.
    unsafe {
        tergyosul_read_shop(
            text.as_ptr(),
            text.len(),
            sheet.as_ptr(),
            sheet.len(),
            call.topics.as_ptr(),
            call.topics.len(),
            call.party.number,
            call.party.primary,
            words.as_mut_ptr(),
            words.len(),
            answer.as_mut_ptr(),
            answer.len(),
        )
    }
}

pub fn join(
    [first, second]: [&[u8]; 2],
    sheet: &[u8],
    call: Call<'_>,
    [words, others]: [&mut [u32]; 2],
    answer: &mut [u32],
) -> u32 {
    // SAFETY: as above: seven slices that are borrowed for the call, the three mutable ones apart from all others.
    unsafe {
        tergyosul_join(
            first.as_ptr(),
            first.len(),
            second.as_ptr(),
            second.len(),
            sheet.as_ptr(),
            sheet.len(),
            call.topics.as_ptr(),
            call.topics.len(),
            call.party.number,
            call.party.primary,
            words.as_mut_ptr(),
            words.len(),
            others.as_mut_ptr(),
            others.len(),
            answer.as_mut_ptr(),
            answer.len(),
        )
    }
}

pub fn write(
    [first, second]: [&[u8]; 2],
    sheet: &[u8],
    party: Party,
    lists: &[u32],
    out: &mut [u8],
    answer: &mut [u32],
) -> u32 {
    // SAFETY: as above: six slices that are borrowed for the call, the two mutable ones apart from all others.
    unsafe {
        tergyosul_write(
            first.as_ptr(),
            first.len(),
            second.as_ptr(),
            second.len(),
            sheet.as_ptr(),
            sheet.len(),
            party.number,
            party.primary,
            lists.as_ptr(),
            lists.len(),
            out.as_mut_ptr(),
            out.len(),
            answer.as_mut_ptr(),
            answer.len(),
        )
    }
}

pub fn rows(rows: &[u8], sheet: &[u8], party: Party, answer: &mut [u32]) -> u32 {
    // SAFETY: as above: three slices that are borrowed for the call, the mutable one apart from the others.
    unsafe {
        tergyosul_rows(
            rows.as_ptr(),
            rows.len(),
            sheet.as_ptr(),
            sheet.len(),
            party.number,
            party.primary,
            answer.as_mut_ptr(),
            answer.len(),
        )
    }
}

pub fn rows_back(sheet: &[u8], party: Party, lists: &[u32], out: &mut [u8], answer: &mut [u32]) -> u32 {
    // SAFETY: as above: four slices that are borrowed for the call, the two mutable ones apart from all others.
    unsafe {
        tergyosul_rows_back(
            sheet.as_ptr(),
            sheet.len(),
            party.number,
            party.primary,
            lists.as_ptr(),
            lists.len(),
            out.as_mut_ptr(),
            out.len(),
            answer.as_mut_ptr(),
            answer.len(),
        )
    }
}

pub fn sheet_primary(sheet: &[u8]) -> u32 {
    // SAFETY: as above: a slice that is borrowed for the call and only read.
    unsafe { tergyosul_sheet_primary(sheet.as_ptr(), sheet.len()) }
}

pub fn lex(text: &[u8], words: &mut [u32], answer: &mut [u32]) -> u32 {
    // SAFETY: as above: three slices that are borrowed for the call, the two mutable ones apart from all others.
    unsafe {
        tergyosul_lex(
            text.as_ptr(),
            text.len(),
            words.as_mut_ptr(),
            words.len(),
            answer.as_mut_ptr(),
            answer.len(),
        )
    }
}

pub fn next_chain(pieces: &[u8], answer: &mut [u32]) -> u32 {
    // SAFETY: as above: two slices that are borrowed for the call, the mutable one apart from the other.
    unsafe { tergyosul_next_chain(pieces.as_ptr(), pieces.len(), answer.as_mut_ptr(), answer.len()) }
}
