//! A `join` line of the replay format: two texts whose rules are to be joined (document 02 §3).

use crate::{blocks, byte, number, size, write_blocks, Case, Habit, Next, Settings, MOST_WORDS};
use std::io::{self, BufRead, Write};

#[derive(Debug, Clone, PartialEq, Eq)]
pub struct Join {
    pub id: u64,
    /// The length of the token buffer for each text, in 32-bit words.
    pub words: [usize; 2],
    pub party: u8,
    pub primary: u8,
    pub texts: [Vec<u8>; 2],
    pub sheet: Vec<u8>,
    /// The topics of earlier rules, one a line.
    pub topics: Vec<u8>,
}

impl Join {
    /// The default call on one of the texts, 0 or 1, with the topics that the join lends.
    pub fn call(&self, nth: usize) -> Case {
        let settings = Settings { habit: Habit::Rule, party: self.party, primary: self.primary, topics: self.topics.clone() };
        Case { settings: Some(settings), ..Case::new(self.id, self.words[nth], self.texts[nth].as_slice(), self.sheet.as_slice()) }
    }

    /// The first line, without its LF.
    pub fn first_line(&self) -> String {
        let Join { id, words: [first, second], party, primary, texts, sheet, topics } = self;
        let lengths = [&texts[0], &texts[1], sheet, topics].map(|bytes| bytes.len().to_string()).join(" ");
        format!("join {id} {first} {second} {party} {primary} {lengths}")
    }
}

/// The join behind the nine fields of a first line, with the bytes that follow it.
pub(crate) fn read(input: &mut impl BufRead, fields: [&str; 9]) -> io::Result<Next> {
    let [id, first, second, party, primary, lengths @ ..] = fields;
    let header = || Some((number(id)?, [size(first, MOST_WORDS)?, size(second, MOST_WORDS)?], byte(party)?, byte(primary)?));
    let Some((id, words, party, primary)) = header() else { return Ok(Next::Bad) };
    let Some([one, two, sheet, topics]) = blocks(input, lengths)? else { return Ok(Next::Bad) };
    Ok(Next::Join(Join { id, words, party, primary, texts: [one, two], sheet, topics }))
}

pub fn write_join(out: &mut impl Write, join: &Join) -> io::Result<()> {
    writeln!(out, "{}", join.first_line())?;
    write_blocks(out, &[&join.texts[0], &join.texts[1], &join.sheet, &join.topics])
}

#[cfg(test)]
mod tests {
    use super::*;
    use crate::read_case;

    fn join() -> Join {
        let texts = [b"when \n\xff".to_vec(), b"if".to_vec()];
        Join { id: 7, words: [5_120, 0], party: 255, primary: 3, texts, sheet: b"primary,9\n".to_vec(), topics: b"a\n\nb".to_vec() }
    }

    #[test]
    fn a_written_join_is_read_back() {
        let other = Join { texts: [Vec::new(), Vec::new()], topics: Vec::new(), words: [8_192, 8_192], ..join() };
        let mut bytes = Vec::new();
        for join in [join(), other.clone()] {
            write_join(&mut bytes, &join).unwrap();
        }
        let mut input = &bytes[..];
        assert!(matches!(read_case(&mut input).unwrap(), Next::Join(read) if read == join()));
        assert!(matches!(read_case(&mut input).unwrap(), Next::Join(read) if read == other));
        assert!(matches!(read_case(&mut input).unwrap(), Next::End));
        assert_eq!(join().first_line(), "join 7 5120 0 255 3 7 2 10 4");
    }

    #[test]
    fn its_calls_are_default_calls() {
        let calls = [join().call(0), join().call(1)];
        assert_eq!(calls[0].text, b"when \n\xff");
        assert_eq!(crate::first_line(&calls[0]), "call 7 rule 5120 255 3 7 10 4");
        assert_eq!(crate::first_line(&calls[1]), "call 7 rule 0 255 3 2 10 4");
    }

    #[test]
    fn what_is_no_join_is_bad() {
        for bad in [
            "join 1 2 2 0 0 0 0 0\n\n\n\n", "join 1 2 2 0 0 0 0 0 0\n\n\n\n", "join 1 8193 2 0 0 0 0 0 0\n\n\n\n\n", "join 1 2 8193 0 0 0 0 0 0\n\n\n\n\n",
            "join 1 2 2 256 0 0 0 0 0\n\n\n\n\n", "join 1 2 2 0 256 0 0 0 0\n\n\n\n\n", "join 1 2 2 0 0 20001 0 0 0\n\n\n\n\n",
            "join 1 2 2 0 0 1 0 0 0\nab\n\n\n\n", "join 1 2 2 0 0 0 0 0 0 0\n\n\n\n\n", "join -1 2 2 0 0 0 0 0 0\n\n\n\n\n", "join 1 2 2 0 0 0 0 0 1\n\n\n\n\n",
            "join 1 rule 2 0 0 0 0 0 0\n\n\n\n\n", "join  1 2 2 0 0 0 0 0 0\n\n\n\n\n", "Join 1 2 2 0 0 0 0 0 0\n\n\n\n\n", "join 1 2 2 0 0 0 0 0 0",
        ] {
            assert!(matches!(read_case(&mut bad.as_bytes()).unwrap(), Next::Bad), "{bad:?}");
        }
    }
}
