//! Every short text of a few pieces, for what stands next to what.

use cases::{Case, LEAST_WORDS};

/// Parts of tokens, white space, and characters of one to four bytes; the last two are no characters.
const PIECES: &[&[u8]] = &[
    b"\"", b"#", b"\n", b" ", b".", b":", b"0", b"7", b"10", b"59", b"99999", b"m", b"s", b"h", b"_", b"=", b"!", b"<",
    b"-", b"(", "é".as_bytes(), "\u{2028}".as_bytes(), "\u{1F4A1}".as_bytes(), b"\xC3", b"\xFF",
];

/// How many texts of so many pieces there are.
pub fn count(length: u32) -> u64 {
    (PIECES.len() as u64).pow(length)
}

/// The text of that number, below the count.
pub fn case(length: u32, index: u64) -> Case {
    let mut left = index;
    let mut text = Vec::new();
    for _ in 0..length {
        text.extend_from_slice(PIECES[(left % PIECES.len() as u64) as usize]);
        left /= PIECES.len() as u64;
    }
    Case::new(index, LEAST_WORDS, text, [])
}
