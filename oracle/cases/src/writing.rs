//! A `write` line of the replay format: two lists of which a section is to be written (document 02 §7).

use crate::{blocks, byte, default_call, lists, number, size, write_blocks, Case, Flat, Next, MOST_WORDS};
use std::io::{self, BufRead, Write};

#[derive(Debug, Clone, PartialEq, Eq)]
pub struct Writing {
    pub id: u64,
    /// The length of the buffer for the text, in bytes.
    pub size: usize,
    pub party: u8,
    pub primary: u8,
    /// Where the names of the entries stand.
    pub texts: [Vec<u8>; 2],
    pub sheet: Vec<u8>,
    pub lists: Flat,
}

impl Writing {
    /// The default call on a text with the sheet, party and primary of this line.
    pub fn call(&self, text: impl Into<Vec<u8>>) -> Case {
        default_call(self.id, self.party, self.primary, text, &self.sheet)
    }

    /// The first line, without its LF.
    pub fn first_line(&self) -> String {
        let Writing { id, size, party, primary, texts, sheet, .. } = self;
        format!("write {id} {size} {party} {primary} {} {} {}", texts[0].len(), texts[1].len(), sheet.len())
    }
}

/// The line behind the seven fields of a first line, with the bytes and LISTS that follow it.
pub(crate) fn read(input: &mut impl BufRead, fields: [&str; 7]) -> io::Result<Next> {
    let [id, bytes, party, primary, lengths @ ..] = fields;
    let header = || Some((number(id)?, size(bytes, MOST_WORDS)?, byte(party)?, byte(primary)?));
    let Some((id, size, party, primary)) = header() else { return Ok(Next::Bad) };
    let Some([one, two, sheet]) = blocks(input, lengths)? else { return Ok(Next::Bad) };
    let Some(lists) = lists::read(input)? else { return Ok(Next::Bad) };
    Ok(Next::Writing(Box::new(Writing { id, size, party, primary, texts: [one, two], sheet, lists })))
}

pub fn write_writing(out: &mut impl Write, writing: &Writing) -> io::Result<()> {
    writeln!(out, "{}", writing.first_line())?;
    write_blocks(out, &[&writing.texts[0], &writing.texts[1], &writing.sheet])?;
    lists::write(out, &writing.lists)
}

#[cfg(test)]
mod tests {
    use super::*;
    use crate::{read_case, Row};

    fn writing() -> Writing {
        let row = |from: u32, first: u32| Row { from, words: std::array::from_fn(|at| first + at as u32) };
        let [triggers, conditions] = [0, 4].map(|list| std::array::from_fn(|at| row(at as u32, (list + at as u32) * 100)));
        let lists = Flat { counts: [1, u32::MAX], triggers, conditions };
        let texts = [b"a\n\xff".to_vec(), b"".to_vec()];
        Writing { id: 7, size: 4_096, party: 255, primary: 3, texts, sheet: b"primary,9\n".to_vec(), lists }
    }

    #[test]
    fn a_written_line_is_read_back() {
        let other = Writing { texts: [Vec::new(), b"1 2".to_vec()], size: 8_192, lists: Flat::default(), ..writing() };
        let mut bytes = Vec::new();
        for writing in [writing(), other.clone()] {
            write_writing(&mut bytes, &writing).unwrap();
        }
        let mut input = &bytes[..];
        assert!(matches!(read_case(&mut input).unwrap(), Next::Writing(read) if *read == writing()));
        assert!(matches!(read_case(&mut input).unwrap(), Next::Writing(read) if *read == other));
        assert!(matches!(read_case(&mut input).unwrap(), Next::End));
        assert_eq!(writing().first_line(), "write 7 4096 255 3 3 0 10");
    }

    #[test]
    fn its_call_is_a_default_call() {
        assert_eq!(crate::first_line(&writing().call("when")), "call 7 rule 5120 255 3 4 10 0");
    }

    #[test]
    fn what_is_no_line_is_bad() {
        let good = format!("write 1 0 0 0 0 0 0\n\n\n\n{}\n", vec!["0"; 106].join(" "));
        assert!(matches!(read_case(&mut good.as_bytes()).unwrap(), Next::Writing(_)));
        for (from, to) in [
            ("write 1", "Write 1"), ("write 1", "write -1"), (" 0 0 0 0 0 0\n", " 0 0 0 0 0\n"), (" 0 0 0 0 0 0\n", " 0 0 0 0 0 0 0\n"),
            ("write 1 0", "write 1 8193"), ("write 1 0 0", "write 1 0 256"), ("write 1 0 0 0", "write 1 0 0 256"), ("0 0 0\n", "20001 0 0\n"),
            ("0 0 0\n", "1 0 0\n"), ("0 0 0\n", "0 0 1\n"), ("\n\n\n\n", "\n\n\n"), ("\n\n\n\n", "\n\n\n\n "), ("\n\n\n\n0", "\n\n\n\nx"),
            ("\n\n\n\n0 ", "\n\n\n\n"),
        ] {
            let bad = good.replacen(from, to, 1);
            assert_ne!(bad, good);
            assert!(matches!(read_case(&mut bad.as_bytes()).unwrap(), Next::Bad), "{from:?} {to:?}");
        }
    }
}
