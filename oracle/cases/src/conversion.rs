//! The lines `rows` and `back` of the replay format: rows of the previous owners' archives that are to be converted to triggers, and lists that are to be
//! converted back (document 02 §10).

use crate::{blocks, byte, default_call, lists, number, size, write_blocks, Case, Flat, Next, MOST_WORDS};
use std::io::{self, BufRead, Write};

#[derive(Debug, Clone, PartialEq, Eq)]
pub struct Conversion {
    pub id: u64,
    pub party: u8,
    pub primary: u8,
    pub sheet: Vec<u8>,
    pub direction: Direction,
}

#[derive(Debug, Clone, PartialEq, Eq)]
pub enum Direction {
    /// A `rows` line.
    Forward { rows: Vec<u8> },
    /// A `back` line. The size is the length of the buffer for the rows, in bytes.
    Back { size: usize, lists: Box<Flat> },
}

impl Conversion {
    /// The default call on a text with the sheet, party and primary of this line.
    pub fn call(&self, text: impl Into<Vec<u8>>) -> Case {
        default_call(self.id, self.party, self.primary, text, &self.sheet)
    }

    /// The conversion of these rows with the sheet, party and primary of this line.
    pub fn of_rows(&self, rows: impl Into<Vec<u8>>) -> Conversion {
        Conversion { direction: Direction::Forward { rows: rows.into() }, ..self.clone() }
    }

    /// The first line, without its LF.
    pub fn first_line(&self) -> String {
        let Conversion { id, party, primary, sheet, direction } = self;
        match direction {
            Direction::Forward { rows } => format!("rows {id} {party} {primary} {} {}", rows.len(), sheet.len()),
            Direction::Back { size, .. } => format!("back {id} {size} {party} {primary} {}", sheet.len()),
        }
    }
}

/// The conversion behind the five fields of a first line, with the bytes that follow it.
pub(crate) fn read_rows(input: &mut impl BufRead, [id, party, primary, lengths @ ..]: [&str; 5]) -> io::Result<Next> {
    let header = || Some((number(id)?, byte(party)?, byte(primary)?));
    let Some((id, party, primary)) = header() else { return Ok(Next::Bad) };
    let Some([rows, sheet]) = blocks(input, lengths)? else { return Ok(Next::Bad) };
    Ok(Next::Conversion(Conversion { id, party, primary, sheet, direction: Direction::Forward { rows } }))
}

/// The same of the other line, with its bytes and LISTS.
pub(crate) fn read_back(input: &mut impl BufRead, [id, bytes, party, primary, length]: [&str; 5]) -> io::Result<Next> {
    let header = || Some((number(id)?, size(bytes, MOST_WORDS)?, byte(party)?, byte(primary)?));
    let Some((id, size, party, primary)) = header() else { return Ok(Next::Bad) };
    let Some([sheet]) = blocks(input, [length])? else { return Ok(Next::Bad) };
    let Some(lists) = lists::read(input)? else { return Ok(Next::Bad) };
    Ok(Next::Conversion(Conversion { id, party, primary, sheet, direction: Direction::Back { size, lists: Box::new(lists) } }))
}

pub fn write_conversion(out: &mut impl Write, conversion: &Conversion) -> io::Result<()> {
    writeln!(out, "{}", conversion.first_line())?;
    match &conversion.direction {
        Direction::Forward { rows } => write_blocks(out, &[rows, &conversion.sheet]),
        Direction::Back { lists, .. } => {
            write_blocks(out, &[&conversion.sheet])?;
            lists::write(out, lists)
        }
    }
}

#[cfg(test)]
mod tests {
    use super::*;
    use crate::{read_case, Row};

    fn forward() -> Conversion {
        let direction = Direction::Forward { rows: b"lamp,\xff,,on\n\n".to_vec() };
        Conversion { id: 7, party: 255, primary: 3, sheet: b"primary,9\n".to_vec(), direction }
    }

    fn back() -> Conversion {
        let lists = Flat { counts: [u32::MAX, 1], ..Flat::new(&[Row::new(2, &[10, 0, 5, 1]); 3], &[Row::new(0, &[14])]) };
        Conversion { direction: Direction::Back { size: 512, lists: Box::new(lists) }, ..forward() }
    }

    #[test]
    fn written_lines_are_read_back() {
        let empty = Conversion { sheet: Vec::new(), ..forward().of_rows("") };
        let all = [forward(), back(), empty.clone(), Conversion { sheet: Vec::new(), ..back() }];
        let mut bytes = Vec::new();
        all.iter().for_each(|conversion| write_conversion(&mut bytes, conversion).unwrap());
        let mut input = &bytes[..];
        for conversion in &all {
            assert!(matches!(read_case(&mut input).unwrap(), Next::Conversion(read) if read == *conversion), "{}", conversion.first_line());
        }
        assert!(matches!(read_case(&mut input).unwrap(), Next::End));
        assert_eq!((forward().first_line(), back().first_line()), ("rows 7 255 3 12 10".into(), "back 7 512 255 3 10".into()));
        assert_eq!(empty.first_line(), "rows 7 255 3 0 0");
    }

    #[test]
    fn its_call_is_a_default_call() {
        for conversion in [forward(), back()] {
            assert_eq!(crate::first_line(&conversion.call("when")), "call 7 rule 5120 255 3 4 10 0");
        }
        assert_eq!(back().of_rows("lamp,\u{e9},,on\n\n"), forward().of_rows("lamp,\u{e9},,on\n\n"));
    }

    #[test]
    fn what_is_no_line_is_bad() {
        let good = format!("back 1 0 0 0 0\n\n{}\n", vec!["0"; 106].join(" "));
        assert!(matches!(read_case(&mut good.as_bytes()).unwrap(), Next::Conversion(_)));
        let backs = [
            ("back 1", "Back 1"), ("back 1", "back -1"), (" 0 0 0 0\n", " 0 0 0\n"), (" 0 0 0 0\n", " 0 0 0 0 0\n"), ("back 1 0", "back 1 8193"),
            ("back 1 0 0", "back 1 0 256"), ("back 1 0 0 0", "back 1 0 0 256"), ("0 0\n\n", "0 20001\n\n"), ("0 0\n\n", "0 1\n\n"), ("\n\n", "\n"),
            ("\n\n0", "\n\nx"), ("\n\n0 ", "\n\n"), ("\n\n0", "\n\n0 0"),
        ].map(|(from, to)| good.replacen(from, to, 1));
        let rows = [
            "rows 1 0 0 0\n\n\n", "rows 1 0 0 0 0 0\n\n\n", "rows 1 256 0 0 0\n\n\n", "rows 1 0 256 0 0\n\n\n", "rows 1 0 0 20001 0\n\n\n",
            "rows 1 0 0 0 20001\n\n\n", "rows 1 0 0 1 0\n\n\n", "rows 1 0 0 0 1\n\n\n", "rows -1 0 0 0 0\n\n\n", "rows 1 0 0 0 0\n\n",
            "rows 1 0 0 0 0\n\nx", "rows 1 0 0 0 0", "Rows 1 0 0 0 0\n\n\n", "rows 1 0  0 0\n\n\n", "rows 1 0 0 +0 0\n\n\n",
        ].map(String::from);
        assert!(matches!(read_case(&mut &b"rows 1 0 0 0 0\n\n\n"[..]).unwrap(), Next::Conversion(_)));
        for bad in backs.iter().chain(&rows) {
            assert_ne!(*bad, good);
            assert!(matches!(read_case(&mut bad.as_bytes()).unwrap(), Next::Bad), "{bad:?}");
        }
    }
}
