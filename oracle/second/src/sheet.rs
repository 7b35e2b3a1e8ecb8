//! The name sheet, and what a call sees of it.

use std::collections::BTreeMap;

const MOST_BYTES: usize = 16_384;
const MOST_ROWS: usize = 512;
const MOST_NAME: usize = 48;
/// The highest adapter and the highest party.
const HIGHEST: u32 = 255;

/// What a row names, and what a reference points at.
#[derive(Debug, Clone, Copy, PartialEq, Eq)]
pub enum Kind {
    Lamp,
    Group,
    Device,
    Input,
}

impl Kind {
    /// The highest number of this kind, in a row as in a reference.
    pub fn highest(self) -> u32 {
        match self {
            Kind::Group => 15,
            Kind::Lamp | Kind::Device | Kind::Input => 63,
        }
    }

    pub fn of(field: &[u8]) -> Option<Kind> {
        match field {
            b"lamp" => Some(Kind::Lamp),
            b"group" => Some(Kind::Group),
            b"device" => Some(Kind::Device),
            b"input" => Some(Kind::Input),
            _ => None,
        }
    }
}

/// A row `K,A,N,name`.
#[derive(Debug, Clone, Copy, PartialEq, Eq)]
pub struct Row<'a> {
    pub kind: Kind,
    pub adapter: u32,
    pub number: u32,
    pub name: &'a [u8],
}

/// A sheet whose lines are all well formed. The adapter that its first line names is not kept: every call names its own.
#[derive(Debug, Default)]
pub struct Sheet<'a> {
    /// The adapters of the `adapter` rows: only these are listed.
    listed: Vec<u32>,
    rows: Vec<Row<'a>>,
    /// The party of each adapter that a `party` row names.
    parties: BTreeMap<u32, u32>,
}

/// What a call sees of a sheet. "A call names its party and its own primary adapter, which stands in for the sheet's", and "only
/// rows on the party's adapters are candidates, and another's adapter counts as not listed", document 02 §6.
#[derive(Debug)]
pub struct View<'a> {
    pub primary: u32,
    pub listed: Vec<u32>,
    pub rows: Vec<Row<'a>>,
}

/// Reads the sheet, or gives its first bad line: 0 if it is too long, 1 if empty, the 513th row's if there are more.
pub fn read(bytes: &[u8]) -> Result<Sheet<'_>, u32> {
    if bytes.len() > MOST_BYTES {
        return Err(0);
    }
    let mut sheet = Sheet::default();
    for (before, line) in (0..).zip(lines(bytes)) {
        if before > MOST_ROWS || !sheet.add(before, line) {
            return Err(u32::try_from(before + 1).unwrap_or(u32::MAX));
        }
    }
    Ok(sheet)
}

/// The lines without their ends. "Lines end with LF, the last may lack it": behind a last LF no further line begins, but a CR there
/// does begin one. "One CR directly before LF or the end of the sheet belongs to the line end", document 02 §8.
fn lines(bytes: &[u8]) -> impl Iterator<Item = &[u8]> {
    let lines = bytes.strip_suffix(b"\n").unwrap_or(bytes).split(|&b| b == b'\n');
    lines.map(|line| line.strip_suffix(b"\r").unwrap_or(line))
}

impl<'a> Sheet<'a> {
    /// Takes a line with `before` lines before it; false if it is not well formed.
    fn add(&mut self, before: usize, line: &'a [u8]) -> bool {
        // "A name runs to the line end, commas included": only the first three commas part fields.
        let fields: Vec<&[u8]> = line.splitn(4, |&b| b == b',').collect();
        match fields[..] {
            [b"primary", primary] if before == 0 => adapter(primary).is_some(),
            _ if before == 0 => false,
            [b"adapter", listed] => adapter(listed).map(|a| self.listed.push(a)).is_some(),
            [b"party", owned, party] => self.assign(owned, party),
            [kind, on, number, name] => {
                row(kind, on, number, name).map(|row| self.rows.push(row)).is_some()
            }
            _ => false,
        }
    }

    /// Takes a row `party,A,P`; "a second such row for one is a bad line (3)", whatever party it names.
    fn assign(&mut self, owned: &[u8], party: &[u8]) -> bool {
        match (adapter(owned), decimal(party, HIGHEST)) {
            (Some(adapter), Some(party)) => self.parties.insert(adapter, party).is_none(),
            _ => false,
        }
    }

    /// "Rows `party,A,P` say whose an adapter is; without one it is party 0's."
    fn party_of(&self, adapter: u32) -> u32 {
        self.parties.get(&adapter).copied().unwrap_or(0)
    }

    /// What the party's call with this primary sees; nothing if the primary is not the party's (53).
    pub fn seen_by(&self, party: u32, primary: u32) -> Option<View<'a>> {
        let own = |adapter: u32| self.party_of(adapter) == party;
        let listed = self.listed.iter().copied().filter(|&adapter| own(adapter)).collect();
        let rows = self.rows.iter().copied().filter(|row| own(row.adapter)).collect();
        own(primary).then_some(View { primary, listed, rows })
    }
}

fn row<'a>(kind: &[u8], on: &[u8], number: &[u8], name: &'a [u8]) -> Option<Row<'a>> {
    let kind = Kind::of(kind)?;
    let adapter = adapter(on)?;
    let number = decimal(number, kind.highest())?;
    is_name(name).then_some(Row { kind, adapter, number, name })
}

/// "A name has no quote, LF or other CR", and 1 to 48 bytes. A line of the sheet has no LF.
pub fn is_name(bytes: &[u8]) -> bool {
    (1..=MOST_NAME).contains(&bytes.len()) && !bytes.iter().any(|byte| b"\"\n\r".contains(byte))
}

/// The number of an adapter: 0 to 255, without a leading zero.
pub fn adapter(field: &[u8]) -> Option<u32> {
    decimal(field, HIGHEST)
}

/// A decimal number of at most `most` (which has at most three digits), without a leading zero.
fn decimal(field: &[u8], most: u32) -> Option<u32> {
    let digits = (1..=3).contains(&field.len()) && field.iter().all(u8::is_ascii_digit);
    let leading_zero = field.len() > 1 && field[0] == b'0';
    if !digits || leading_zero {
        return None;
    }
    let value = field.iter().fold(0, |sum, digit| sum * 10 + u32::from(digit - b'0'));
    (value <= most).then_some(value)
}
