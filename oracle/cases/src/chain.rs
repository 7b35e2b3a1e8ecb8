//! A `next` line of the replay format: where the generator of document 02 §13 goes on from.

use crate::{number, size, Next, MOST_BYTES, MOST_WORDS};
use std::io::{self, BufRead, Write};

/// "over this vocabulary": a piece is the place of its token here, from 0.
pub const VOCABULARY: [&str; 23] = [
    "lamp", "sun", "time", "is", "in", "on", "off", "up", "down", "sunrise", "sunset", "level", "and", "0", "63", "64", "(", ")", ".", "..",
    "==", "+", "-",
];

/// "of at most fifteen tokens in all"; a buffer for a chain has at least so many bytes.
pub const MOST_PIECES: usize = 15;

#[derive(Debug, Clone, PartialEq, Eq)]
pub struct Start {
    pub id: u64,
    /// The length of the buffer for the next chain, in bytes.
    pub size: usize,
    pub pieces: Vec<u8>,
}

/// The pieces as they are written in a rule, one space between.
pub fn written(pieces: &[u8]) -> String {
    pieces.iter().map(|&piece| VOCABULARY[usize::from(piece)]).collect::<Vec<_>>().join(" ")
}

/// The pieces that a text has, one space between.
pub fn pieces(text: &str) -> Vec<u8> {
    let piece = |word: &str| VOCABULARY.iter().position(|&known| known == word).expect("a word of the vocabulary") as u8;
    text.split(' ').map(piece).collect()
}

/// The numbers of a line: so many, from 0 to 255, parted by one space.
fn numbers(line: &str, count: usize) -> Option<Vec<u8>> {
    let fields: Vec<&str> = line.split(' ').filter(|_| !line.is_empty()).collect();
    let numbers: Option<Vec<u8>> = fields.iter().map(|field| u8::try_from(number(field)?).ok()).collect();
    numbers.filter(|numbers| numbers.len() == count)
}

/// The start behind the fields of a first line, with the line of pieces that follows it.
pub(crate) fn read(input: &mut impl BufRead, id: &str, bytes: &str, count: &str) -> io::Result<Next> {
    let header = || Some((number(id)?, size(bytes, MOST_WORDS).filter(|&bytes| bytes >= MOST_PIECES)?, size(count, MOST_BYTES)?));
    let Some((id, size, count)) = header() else { return Ok(Next::Bad) };
    let mut line = Vec::new();
    input.read_until(b'\n', &mut line)?;
    let line = line.strip_suffix(b"\n").and_then(|line| std::str::from_utf8(line).ok());
    Ok(line.and_then(|line| numbers(line, count)).map_or(Next::Bad, |pieces| Next::Chain(Start { id, size, pieces })))
}

pub fn write_start(out: &mut impl Write, start: &Start) -> io::Result<()> {
    let Start { id, size, pieces } = start;
    let numbers: Vec<String> = pieces.iter().map(u8::to_string).collect();
    writeln!(out, "next {id} {size} {}\n{}", pieces.len(), numbers.join(" "))
}

#[cfg(test)]
mod tests {
    use super::*;
    use crate::read_case;

    #[test]
    fn a_written_start_is_read_back() {
        let start = |pieces: &[u8]| Start { id: 9, size: 15, pieces: pieces.to_vec() };
        for start in [start(&[]), start(&[1, 3, 7]), start(&[255; 40]), Start { size: 8_192, ..start(&[0]) }] {
            let mut bytes = Vec::new();
            write_start(&mut bytes, &start).unwrap();
            bytes.extend_from_slice(b"next 1 15 0\n\n");
            let mut input = &bytes[..];
            assert!(matches!(read_case(&mut input).unwrap(), Next::Chain(read) if read == start));
            assert!(matches!(read_case(&mut input).unwrap(), Next::Chain(Start { id: 1, size: 15, pieces }) if pieces.is_empty()));
            assert!(matches!(read_case(&mut input).unwrap(), Next::End));
        }
    }

    #[test]
    fn what_is_no_start_is_bad() {
        for bad in [
            "next 1 14 0\n\n", "next 1 8193 0\n\n", "next 1 15 0\n", "next 1 15\n\n", "next 1 15 1\n\n", "next 1 15 0\n1\n", "next 1 15 2\n1\n",
            "next 1 15 1\n256\n", "next 1 15 1\n1 \n", "next 1 15 2\n1  2\n", "next 1 15 1\n1", "next -1 15 0\n\n", "next 1 15 1\nx\n",
        ] {
            assert!(matches!(read_case(&mut bad.as_bytes()).unwrap(), Next::Bad), "{bad:?}");
        }
    }

    #[test]
    fn pieces_are_words() {
        assert_eq!(pieces("lamp ( 63 ) . level == - 64"), [0, 16, 14, 17, 18, 11, 20, 22, 15]);
        assert!((0..23).all(|piece| pieces(&written(&[piece, 12])) == [piece, 12]));
    }
}
