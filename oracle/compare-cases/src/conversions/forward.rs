//! Rows converted in another way: each is judged field by field, and what it means is asked of calls on rule texts. Each step can be another one, so that
//! tests can seed faults.

use super::asked::{Given, Named, Refused, KINDS};
use cases::Conversion;

/// What is asked, each with a number.
#[derive(Debug, Clone, Copy, PartialEq, Eq)]
pub enum Ask {
    /// 3.
    Sheet,
    /// 53.
    Primary,
    /// 60.
    Shape,
    /// 25, and 31 to 34.
    Names,
}

/// A refusal: its number, the row and the detail.
pub type Refusal = (u32, usize, u32);

/// The lines of the triggers, or a refusal.
pub type Said<'a> = Result<&'a [String], Refusal>;

/// The steps.
#[derive(Clone, Copy)]
pub struct Way {
    pub order: [Ask; 4],
    /// Whether 60 and the name rules are asked of one row after the other.
    pub in_turn: bool,
    /// Whether a row too many is asked before the shape of each.
    pub count_first: bool,
    pub most: usize,
    /// The line of a refusal of no rows, if they are refused.
    pub none: Option<usize>,
    /// The rows with their ends.
    pub rows: fn(&[u8]) -> Vec<&[u8]>,
    /// A row without its end.
    pub end: fn(&[u8]) -> Option<&[u8]>,
    pub fields: fn(&[u8]) -> Option<[&[u8]; 4]>,
    /// The place of K, and that of the word behind K.
    pub kind: fn(&[u8]) -> Option<usize>,
    pub word: fn(usize, &[u8]) -> Option<usize>,
    pub name: fn(&[u8]) -> bool,
    /// What A says, if it is one.
    pub adapter: fn(&[u8]) -> Option<String>,
    /// The line of the trigger, or the number and the detail of a refusal.
    pub meaning: fn(&Given, &Named) -> Result<String, Refused>,
    /// The whole answer.
    pub said: fn(&Conversion, Said) -> String,
}

/// What the words of document 02 say.
pub const RIGHT: Way = Way {
    order: [Ask::Sheet, Ask::Primary, Ask::Shape, Ask::Names],
    in_turn: false,
    count_first: false,
    most: 4,
    none: Some(0),
    rows: cut,
    end: |row| row.split_last().filter(|(last, _)| **last == b'\n').map(|(_, row)| row),
    fields: |row| {
        let commas: Vec<usize> = (0..row.len()).filter(|&at| row[at] == b',').collect();
        let [one, two, three] = commas[..] else { return None };
        Some([&row[..one], &row[one + 1..two], &row[two + 1..three], &row[three + 1..]])
    },
    kind: |kind| KINDS.iter().position(|known| known.word.as_bytes() == kind),
    word: |kind, word| KINDS[kind].words.iter().position(|known| known.as_bytes() == word),
    name: |name| name.len().wrapping_sub(1) < 48 && ![b'"', b'\n', b'\r', b','].iter().any(|byte| name.contains(byte)),
    adapter: |adapter| [String::new()].into_iter().chain((0..=255).map(|adapter| adapter.to_string())).find(|known| known.as_bytes() == adapter),
    meaning: |given, named| given.meant(named),
    said: |conversion, said| {
        let said = match said {
            Ok(lines) => lines.iter().fold(format!("accepted {} 0\n", lines.len()), |said, line| said + line + "\n"),
            Err((number, row, detail)) => format!("refused {number} {row} 0 {detail}\n"),
        };
        format!("case {}\n{said}", conversion.id)
    },
};

/// Cut behind each LF.
pub fn cut(rows: &[u8]) -> Vec<&[u8]> {
    let ends: Vec<usize> = (0..rows.len()).filter(|&at| rows[at] == b'\n' || at + 1 == rows.len()).collect();
    let starts = [0].into_iter().chain(ends.iter().map(|end| end + 1));
    starts.zip(&ends).map(|(start, end)| &rows[start..=*end]).collect()
}

impl Way {
    /// The answer to these rows.
    pub fn convert(&self, given: &Given, rows: &[u8]) -> String {
        let rows = (self.rows)(rows);
        let first = given.refused_first();
        for ask in self.order {
            let refused = match ask {
                Ask::Sheet => first.filter(|(number, _)| *number == 3).map(|(number, line)| (number, line, 0)),
                Ask::Primary => first.filter(|(number, _)| *number == 53).map(|(number, line)| (number, line, 0)),
                Ask::Shape if self.in_turn => self.first(&rows, |row, at| self.misshapen(row, at).or(self.unmeant(given, row))),
                Ask::Shape => self.first(&rows, |row, at| self.misshapen(row, at)),
                Ask::Names => self.first(&rows, |row, _| self.unmeant(given, row)),
            };
            if let Some(refused) = refused {
                return (self.said)(given.conversion, Err(refused));
            }
        }
        let lines = rows.iter().filter_map(|row| (self.meaning)(given, &self.named(row)?).ok());
        (self.said)(given.conversion, Ok(&lines.collect::<Vec<_>>()))
    }

    /// The first refusal of a row; without rows that of none.
    fn first(&self, rows: &[&[u8]], refused: impl Fn(&[u8], usize) -> Option<Refused>) -> Option<Refusal> {
        if rows.is_empty() {
            return self.none.map(|line| (60, line, 0));
        }
        if self.count_first && rows.len() > self.most {
            return Some((60, self.most + 1, 0));
        }
        (1..).zip(rows).find_map(|(at, row)| refused(row, at).map(|(number, detail)| (number, at, detail)))
    }

    fn misshapen(&self, row: &[u8], at: usize) -> Option<Refused> {
        (at > self.most || self.named(row).is_none()).then_some((60, 0))
    }

    fn unmeant(&self, given: &Given, row: &[u8]) -> Option<Refused> {
        (self.meaning)(given, &self.named(row)?).err()
    }

    /// What a row names, if it is well formed.
    pub fn named<'a>(&self, row: &'a [u8]) -> Option<Named<'a>> {
        let [kind, name, adapter, word] = (self.fields)((self.end)(row)?)?;
        let kind = (self.kind)(kind)?;
        let (adapter, word) = ((self.adapter)(adapter)?, (self.word)(kind, word)?);
        (self.name)(name).then_some(Named { kind: &KINDS[kind], name, adapter, word })
    }
}
