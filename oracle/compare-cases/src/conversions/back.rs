//! Lists converted back in another way: each line of the sheet that names the reference is asked for by a call on a rule text with its name and adapter. Each
//! step can be another one, so that tests can seed faults.

use super::asked::{Given, Kind, Named, KINDS};
use cases::{fields, lines, Conversion, Flat, List, Row};

/// What is asked, each with a number.
#[derive(Debug, Clone, Copy, PartialEq, Eq)]
pub enum Ask {
    /// 3.
    Sheet,
    /// 53.
    Primary,
    /// 54.
    Room,
    /// 61, for the count of triggers and for an entry.
    Count,
    Entries,
    /// 62.
    Names,
}

/// A trigger that a row can be, with its place among all from 1 on.
#[derive(Debug, Clone, Copy)]
pub struct Entry {
    pub ordinal: usize,
    pub kind: &'static Kind,
    pub adapter: u32,
    pub number: u32,
    pub word: usize,
}

/// A line of the sheet with a name.
#[derive(Debug, Clone, Copy, PartialEq, Eq)]
pub struct Line<'a> {
    /// Its place in the sheet, the first line being 1.
    pub at: usize,
    pub kind: &'a [u8],
    pub adapter: &'a [u8],
    pub number: &'a [u8],
    pub name: &'a [u8],
}

/// The rows, or the number and the line of a refusal.
pub type Said<'a> = Result<&'a [u8], (u32, usize)>;

/// The steps.
#[derive(Clone, Copy)]
pub struct Way {
    pub order: [Ask; 6],
    /// Whether 61 and 62 are asked of one entry after the other.
    pub in_turn: bool,
    pub least: usize,
    pub count: fn(u32) -> bool,
    /// Whether there are conditions, by their count, and the line for them behind so many triggers; and whether they are asked before these.
    pub conditions: fn(u32) -> bool,
    pub behind: fn(usize, u32) -> usize,
    pub conditions_first: bool,
    pub from: fn(u32) -> bool,
    pub kind: fn(u32) -> Option<usize>,
    pub code: fn(u32) -> Option<usize>,
    /// Whether the words behind the code are as they should be, and whether those before it are.
    pub rest: fn(&[u32]) -> bool,
    pub reference: fn(&Entry) -> bool,
    /// Whether a line of the sheet is about the reference, and whether it can be written for it.
    pub is_about: fn(&Entry, &Line) -> bool,
    pub is_written: fn(&Given, &Entry, &Line) -> bool,
    /// The place of the one that is written, among those that can be; behind these are all that are about the reference.
    pub which: fn(&[Line], &[Line]) -> usize,
    pub row: fn(&Given, &Entry, &Line) -> Vec<u8>,
    /// The whole answer.
    pub said: fn(&Conversion, Said) -> String,
}

/// What the words of document 02 say.
pub const RIGHT: Way = Way {
    order: [Ask::Sheet, Ask::Primary, Ask::Room, Ask::Count, Ask::Entries, Ask::Names],
    in_turn: false,
    least: 512,
    count: |triggers| (1..=4).contains(&triggers),
    conditions: |conditions| conditions != 0,
    behind: |triggers, _| triggers + 1,
    conditions_first: false,
    from: |_| true,
    kind: |kind| KINDS.iter().position(|known| known.code == kind),
    code: |code| [1, 2].iter().position(|known| *known == code),
    rest: |rest| rest.iter().all(|word| *word == 0),
    reference: |_| true,
    is_about: |entry, line| {
        let [adapter, number] = [entry.adapter, entry.number].map(|number| number.to_string());
        line.kind == entry.kind.word.as_bytes() && line.adapter == adapter.as_bytes() && line.number == number.as_bytes()
    },
    is_written: |given, entry, line| !line.name.contains(&b',') && picks(given, entry, line),
    which: |_, _| 0,
    row: |_, entry, line| [&[entry.kind.word.as_bytes(), line.name, line.adapter, entry.kind.words[entry.word].as_bytes()].join(&b','), &b"\n"[..]].concat(),
    said: |conversion, said| {
        let said = match said {
            Ok(rows) => format!("written {} {}", rows.len(), rows.iter().fold("x".to_string(), |hex, byte| format!("{hex}{byte:02x}"))),
            Err((number, line)) => format!("refused {number} {line} 0 0"),
        };
        format!("case {}\nbuffer kept\n{said}\n", conversion.id)
    },
};

/// Whether the name of the line, with its adapter named, means the reference in a rule text.
pub fn picks(given: &Given, entry: &Entry, line: &Line) -> bool {
    let named = Named { kind: entry.kind, name: line.name, adapter: String::from_utf8_lossy(line.adapter).into(), word: entry.word };
    given.meant(&named) == Ok(entry.kind.line(&entry.adapter.to_string(), &entry.number.to_string(), entry.word))
}

/// The lines of a well-formed sheet that have names.
pub fn named_lines(sheet: &[u8]) -> Vec<Line<'_>> {
    (1..).zip(lines(sheet)).filter_map(|(at, line)| match fields(line)[..] {
        [kind, adapter, number, name] => Some(Line { at, kind, adapter, number, name }),
        _ => None,
    }).collect()
}

impl Way {
    /// The answer to these lists with a buffer of so many bytes.
    pub fn convert(&self, given: &Given, size: usize, lists: &Flat) -> String {
        let [triggers, conditions] = lists.counts;
        let rows = lists.used(List::Triggers);
        let sheet = named_lines(&given.conversion.sheet);
        let behind = || (self.conditions)(conditions).then(|| (61, (self.behind)(rows.len(), conditions)));
        let before = || behind().filter(|_| self.conditions_first);
        let nameless = |ordinal: usize, row: &Row| self.entry(ordinal, row).filter(|entry| self.line(given, entry, &sheet).is_none()).map(|_| 62);
        let other = |ordinal: usize, row: &Row| self.entry(ordinal, row).is_none().then_some(61);
        let first = given.refused_first();
        for ask in self.order {
            let refused = match ask {
                Ask::Sheet => first.filter(|(number, _)| *number == 3),
                Ask::Primary => first.filter(|(number, _)| *number == 53),
                Ask::Room => (size < self.least).then_some((54, 0)),
                Ask::Count => (!(self.count)(triggers)).then_some((61, 0)),
                Ask::Entries if self.in_turn => first_of(rows, |ordinal, row| other(ordinal, row).or(nameless(ordinal, row))).or_else(behind),
                Ask::Entries => before().or_else(|| first_of(rows, other)).or_else(behind),
                Ask::Names => first_of(rows, nameless),
            };
            if let Some(refused) = refused {
                return (self.said)(given.conversion, Err(refused));
            }
        }
        let entries = (1..).zip(rows).filter_map(|(ordinal, row)| self.entry(ordinal, row));
        let written = entries.filter_map(|entry| Some((self.row)(given, &entry, &self.line(given, &entry, &sheet)?)));
        (self.said)(given.conversion, Ok(&written.collect::<Vec<_>>().concat()))
    }

    /// The trigger of a row of LISTS, if a row can be it.
    pub fn entry(&self, ordinal: usize, row: &Row) -> Option<Entry> {
        let [kind, adapter, number, code, ref rest @ ..] = row.words;
        let (kind, word) = ((self.kind)(kind)?, (self.code)(code)?);
        let entry = Entry { ordinal, kind: &KINDS[kind], adapter, number, word };
        ((self.from)(row.from) && (self.rest)(rest) && (self.reference)(&entry)).then_some(entry)
    }

    /// The line of the sheet whose name is written.
    pub fn line<'s>(&self, given: &Given, entry: &Entry, sheet: &[Line<'s>]) -> Option<Line<'s>> {
        let about: Vec<Line> = sheet.iter().copied().filter(|line| (self.is_about)(entry, line)).collect();
        let fit: Vec<Line> = about.iter().copied().filter(|line| (self.is_written)(given, entry, line)).collect();
        fit.get((self.which)(&fit, &about)).copied()
    }
}

/// The first refusal of an entry, and its ordinal.
fn first_of(rows: &[Row], refused: impl Fn(usize, &Row) -> Option<u32>) -> Option<(u32, usize)> {
    (1..).zip(rows).find_map(|(ordinal, row)| refused(ordinal, row).map(|number| (number, ordinal)))
}
