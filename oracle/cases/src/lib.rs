//! A case of the replay format (docs/REPLAY.md): what one call of the reader is given.

mod chain;
mod conversion;
mod join;
mod lines;
mod lists;
mod settings;
mod writing;

pub use chain::{pieces, write_start, written, Start, MOST_PIECES, VOCABULARY};
pub use conversion::{write_conversion, Conversion, Direction};
pub use join::{write_join, Join};
pub use lines::{fields, lines};
pub use lists::{Flat, List, Row, ENTRY, ROWS};
pub use settings::{own_primary, Habit, Settings};
pub use writing::{write_writing, Writing};

use std::io::{self, BufRead, Write};

/// The largest token buffer, and the longest text, sheet or topics, that the replay format allows.
pub const MOST_WORDS: usize = 8_192;
pub const MOST_BYTES: usize = 20_000;

#[derive(Debug, Clone, PartialEq, Eq)]
pub struct Case {
    pub id: u64,
    /// The token buffer's length in 32-bit words.
    pub words: usize,
    pub text: Vec<u8>,
    pub sheet: Vec<u8>,
    /// Those of a `call` line; none for a `case` line.
    pub settings: Option<Settings>,
}

impl Case {
    /// A `case` line.
    pub fn new(id: u64, words: usize, text: impl Into<Vec<u8>>, sheet: impl Into<Vec<u8>>) -> Case {
        Case { id, words, text: text.into(), sheet: sheet.into(), settings: None }
    }

    /// A `case` line means the archive habit.
    pub fn habit(&self) -> Habit {
        self.settings.as_ref().map_or(Habit::Archive, |settings| settings.habit)
    }

    /// The party that the call names (document 02 §6); a `case` line means party 0.
    pub fn party(&self) -> u8 {
        self.settings.as_ref().map_or(0, |settings| settings.party)
    }

    /// The call's own primary adapter; a `case` line means the sheet's.
    pub fn primary(&self) -> u8 {
        self.settings.as_ref().map_or_else(|| own_primary(&self.sheet), |settings| settings.primary)
    }

    /// The topics of earlier rules that the call lends, one a line (document 02 §12); a `case` line lends none.
    pub fn topics(&self) -> &[u8] {
        self.settings.as_ref().map_or(&[], |settings| &settings.topics)
    }

    /// The same as a `call` line of this party with this primary.
    pub fn with_party(&self, party: u8, primary: u8) -> Case {
        let settings = Settings { habit: self.habit(), party, primary, topics: self.topics().to_vec() };
        Case { settings: Some(settings), ..self.clone() }
    }

    /// The same as a `call` line that lends these topics.
    pub fn with_topics(&self, topics: impl Into<Vec<u8>>) -> Case {
        let settings = Settings { habit: self.habit(), party: self.party(), primary: self.primary(), topics: topics.into() };
        Case { settings: Some(settings), ..self.clone() }
    }

    /// The same with this habit. A `case` line that has it already stays one.
    pub fn with_habit(&self, habit: Habit) -> Case {
        let mut case = self.clone();
        match &mut case.settings {
            Some(settings) => settings.habit = habit,
            None if habit == Habit::Archive => {}
            None => case.settings = Some(Settings::plain(habit, &self.sheet)),
        }
        case
    }
}

/// The default call of a party, without topics, with the least buffer that is enough.
fn default_call(id: u64, party: u8, primary: u8, text: impl Into<Vec<u8>>, sheet: &[u8]) -> Case {
    let settings = Settings { habit: Habit::Rule, party, primary, topics: Vec::new() };
    Case { settings: Some(settings), ..Case::new(id, LEAST_WORDS, text, sheet) }
}

/// The most tokens of a text.
pub const MOST_TOKENS: usize = 1_024;
/// Words of one token record: kind, number, start, length, place (document 02 §5).
pub const RECORD: usize = 5;
/// The least token buffer that a call takes, and the least before document 02 §5.
pub const LEAST_WORDS: usize = MOST_TOKENS * RECORD;
pub const FORMER_LEAST_WORDS: usize = MOST_TOKENS * 6;
/// What a line counts in the word of a place; a column is less.
const LINE: u32 = 65_536;

/// "Keep both in one word, line × 65,536 + column."
pub fn place_word(line: u32, column: u32) -> u32 {
    line * LINE + column
}

/// The line and the column that the word of a place holds.
pub fn line_and_column(word: u32) -> (u32, u32) {
    (word / LINE, word % LINE)
}

/// What lexing alone leaves behind.
#[derive(Debug, Clone, PartialEq, Eq)]
pub struct Lexing {
    /// The records of all tokens, or of those before the refused one.
    pub records: Vec<[u32; RECORD]>,
    /// 0, or the refusal's number.
    pub number: u32,
    /// The place of the refusal, or of the end of text.
    pub line: u32,
    pub column: u32,
}

/// What reading the next case gave.
#[derive(Debug)]
pub enum Next {
    Case(Case),
    /// A `next` line (document 02 §13).
    Chain(Start),
    /// A `join` line (document 02 §3).
    Join(Join),
    /// A `write` line (document 02 §7).
    Writing(Box<Writing>),
    /// A `rows` or a `back` line (document 02 §10).
    Conversion(Conversion),
    End,
    /// The input is not in the replay format.
    Bad,
}

fn number(field: &str) -> Option<u64> {
    let digits = !field.is_empty() && field.bytes().all(|b| b.is_ascii_digit());
    if digits { field.parse().ok() } else { None }
}

fn size(field: &str, most: usize) -> Option<usize> {
    usize::try_from(number(field)?).ok().filter(|&n| n <= most)
}

fn byte(field: &str) -> Option<u8> {
    u8::try_from(number(field)?).ok()
}

/// The first line of a case: the case without its bytes, and the lengths of text, sheet and topics.
struct Header {
    case: Case,
    text: usize,
    sheet: usize,
    topics: usize,
}

fn header(line: &str) -> Option<Header> {
    let fields: Vec<&str> = line.strip_suffix('\n')?.split(' ').collect();
    match fields[..] {
        ["case", id, words, text, sheet] => header_of(id, words, text, sheet, None, "0"),
        ["call", id, habit, words, party, primary, text, sheet, topics] => {
            let (habit, party, primary) = (Habit::of(habit)?, byte(party)?, byte(primary)?);
            let settings = Settings { habit, party, primary, topics: Vec::new() };
            header_of(id, words, text, sheet, Some(settings), topics)
        }
        _ => None,
    }
}

fn header_of(id: &str, words: &str, text: &str, sheet: &str, settings: Option<Settings>, topics: &str) -> Option<Header> {
    let case = Case { settings, ..Case::new(number(id)?, size(words, MOST_WORDS)?, [], []) };
    Some(Header { case, text: size(text, MOST_BYTES)?, sheet: size(sheet, MOST_BYTES)?, topics: size(topics, MOST_BYTES)? })
}

/// `length` bytes and the LF behind them; nothing where the input ends early or another byte stands there.
fn body(input: &mut impl BufRead, length: usize) -> io::Result<Option<Vec<u8>>> {
    let mut bytes = vec![0; length + 1];
    match input.read_exact(&mut bytes) {
        Ok(()) => Ok((bytes.pop() == Some(b'\n')).then_some(bytes)),
        Err(e) if e.kind() == io::ErrorKind::UnexpectedEof => Ok(None),
        Err(e) => Err(e),
    }
}

/// The blocks of the lengths that these fields name; nothing where a field is no length or a block is not there as it should be.
fn blocks<const N: usize>(input: &mut impl BufRead, lengths: [&str; N]) -> io::Result<Option<[Vec<u8>; N]>> {
    let mut blocks = [const { Vec::new() }; N];
    for (block, length) in blocks.iter_mut().zip(lengths) {
        let Some(length) = size(length, MOST_BYTES) else { return Ok(None) };
        let Some(bytes) = body(input, length)? else { return Ok(None) };
        *block = bytes;
    }
    Ok(Some(blocks))
}

/// Each with an LF behind it.
fn write_blocks(out: &mut impl Write, blocks: &[&[u8]]) -> io::Result<()> {
    blocks.iter().try_for_each(|bytes| {
        out.write_all(bytes)?;
        out.write_all(b"\n")
    })
}

pub fn read_case(input: &mut impl BufRead) -> io::Result<Next> {
    let mut line = Vec::new();
    if input.read_until(b'\n', &mut line)? == 0 {
        return Ok(Next::End);
    }
    let Ok(line) = std::str::from_utf8(&line) else { return Ok(Next::Bad) };
    let words: Vec<&str> = line.trim_end_matches('\n').split(' ').collect();
    match words[..] {
        ["next", id, size, count] => return chain::read(input, id, size, count),
        ["join", ref fields @ ..] => return <[&str; 9]>::try_from(fields).map_or(Ok(Next::Bad), |fields| join::read(input, fields)),
        ["write", ref fields @ ..] => return <[&str; 7]>::try_from(fields).map_or(Ok(Next::Bad), |fields| writing::read(input, fields)),
        ["rows", ref fields @ ..] => return <[&str; 5]>::try_from(fields).map_or(Ok(Next::Bad), |fields| conversion::read_rows(input, fields)),
        ["back", ref fields @ ..] => return <[&str; 5]>::try_from(fields).map_or(Ok(Next::Bad), |fields| conversion::read_back(input, fields)),
        _ => {}
    }
    let Some(Header { mut case, text, sheet, topics }) = header(line) else { return Ok(Next::Bad) };
    let Some(text) = body(input, text)? else { return Ok(Next::Bad) };
    let Some(sheet) = body(input, sheet)? else { return Ok(Next::Bad) };
    (case.text, case.sheet) = (text, sheet);
    if let Some(settings) = &mut case.settings {
        let Some(topics) = body(input, topics)? else { return Ok(Next::Bad) };
        settings.topics = topics;
    }
    Ok(Next::Case(case))
}

/// The first line of a case, without its LF.
pub fn first_line(case: &Case) -> String {
    let Case { id, words, text, sheet, settings } = case;
    let (text, sheet) = (text.len(), sheet.len());
    match settings {
        None => format!("case {id} {words} {text} {sheet}"),
        Some(Settings { habit, party, primary, topics }) => {
            format!("call {id} {} {words} {party} {primary} {text} {sheet} {}", habit.word(), topics.len())
        }
    }
}

pub fn write_case(out: &mut impl Write, case: &Case) -> io::Result<()> {
    writeln!(out, "{}", first_line(case))?;
    write_blocks(out, &[&case.text, &case.sheet])?;
    case.settings.as_ref().map_or(Ok(()), |settings| write_blocks(out, &[&settings.topics]))
}

/// Answers every case of `input`, every start of a chain, every join, every two lists to be written and every conversion on `out`, as the
/// replay format orders it.
pub fn replay(
    input: &mut impl BufRead,
    out: &mut impl Write,
    answer: impl Fn(&Case) -> String,
    next: impl Fn(&Start) -> String,
    join: impl Fn(&Join) -> String,
    write: impl Fn(&Writing) -> String,
    convert: impl Fn(&Conversion) -> String,
) -> io::Result<()> {
    loop {
        match read_case(input)? {
            Next::Case(case) => out.write_all(answer(&case).as_bytes())?,
            Next::Chain(start) => out.write_all(next(&start).as_bytes())?,
            Next::Join(two) => out.write_all(join(&two).as_bytes())?,
            Next::Writing(lists) => out.write_all(write(&lists).as_bytes())?,
            Next::Conversion(conversion) => out.write_all(convert(&conversion).as_bytes())?,
            Next::End => return Ok(()),
            Next::Bad => return out.write_all(b"bad input\n"),
        }
    }
}

#[cfg(test)]
mod tests {
    use super::*;

    #[test]
    fn the_buffer_and_the_places_of_document_02() {
        assert_eq!((LEAST_WORDS, FORMER_LEAST_WORDS), (5_120, 6_144));
        for place in [(1, 1), (1, 16_385), (16_385, 1), (8_192, 8_193), (2, 65_535)] {
            assert_eq!(line_and_column(place_word(place.0, place.1)), place);
        }
        assert_eq!((place_word(1, 1), place_word(16_385, 1), place_word(1, 16_385)), (65_537, 1_073_807_361, 81_921));
    }

    #[test]
    fn a_written_case_is_read_back() {
        let case = Case::new(7, LEAST_WORDS, b"when \n\xff", b"primary,9");
        let other = Settings { habit: Habit::Shop, party: 255, primary: 3, topics: b"a\nb\n".to_vec() };
        let calls = Habit::ALL.map(|habit| case.with_habit(habit));
        let mut written = vec![case.clone(), Case { settings: Some(other), ..case }];
        written.extend(calls);
        let mut bytes = Vec::new();
        written.iter().for_each(|case| write_case(&mut bytes, case).unwrap());
        let mut input = &bytes[..];
        for case in &written {
            assert!(matches!(read_case(&mut input).unwrap(), Next::Case(c) if c == *case), "{}", first_line(case));
        }
        assert!(matches!(read_case(&mut input).unwrap(), Next::End));
        assert_eq!(first_line(&written[1]), "call 7 shop 5120 255 3 7 9 4");
        assert_eq!(first_line(&written[2]), "call 7 rule 5120 0 9 7 9 0");
    }

    #[test]
    fn a_case_has_the_archive_habit() {
        let case = Case::new(1, 0, [], b"primary,4".as_slice());
        assert_eq!((case.habit(), case.with_habit(Habit::Archive)), (Habit::Archive, case.clone()));
        let call = case.with_habit(Habit::Rule);
        assert_eq!((call.habit(), call.with_habit(Habit::Archive).habit()), (Habit::Rule, Habit::Archive));
        assert!(call.with_habit(Habit::Archive).settings.is_some());
    }

    #[test]
    fn a_case_has_party_0_and_the_sheets_primary() {
        let case = Case::new(1, 0, [], b"primary,4".as_slice());
        assert_eq!((case.party(), case.primary()), (0, 4));
        let call = case.with_habit(Habit::Rule);
        assert_eq!((call.party(), call.primary()), (0, 4));
        let other = call.with_party(7, 200);
        assert_eq!((other.habit(), other.party(), other.primary()), (Habit::Rule, 7, 200));
        assert_eq!(first_line(&case.with_party(7, 200)), "call 1 archive 0 7 200 0 9 0");
    }

    #[test]
    fn a_case_lends_no_topics() {
        let case = Case::new(1, 0, [], b"primary,4".as_slice());
        assert_eq!(case.topics(), b"");
        let call = case.with_topics(*b"a\n\nb");
        assert_eq!((call.topics(), call.habit(), call.party(), call.primary()), (&b"a\n\nb"[..], Habit::Archive, 0, 4));
        assert_eq!(call.with_party(7, 200).with_habit(Habit::Rule).topics(), call.topics());
        assert_eq!(first_line(&call), "call 1 archive 0 0 4 0 9 4");
    }

    #[test]
    fn what_is_no_case_is_bad() {
        for bad in [
            "x", "case 1 2 3\n", "case 1 9000 0 0\n\n\n", "case 1 2 1 0\nab\n", "case 1 2 1 0\na", "case -1 2 0 0\n\n\n",
            "call 1 2 0 0\n\n\n", "call 1 rules 2 0 0 0 0 0\n\n\n\n", "call 1 rule 9000 0 0 0 0 0\n\n\n\n",
            "call 1 rule 2 256 0 0 0 0\n\n\n\n", "call 1 rule 2 0 256 0 0 0\n\n\n\n", "call 1 rule 2 0 0 0 0 20001\n\n\n\n",
            "call 1 rule 2 0 0 0 0 0\n\n\n", "call 1 rule 2 0 0 0 0 1\n\n\n\n", "call 1 rule 2 0 0 0 0\n\n\n\n",
            "case 1 rule 2 0 0 0 0 0\n\n\n\n",
        ] {
            assert!(matches!(read_case(&mut bad.as_bytes()).unwrap(), Next::Bad), "{bad:?}");
        }
    }
}
