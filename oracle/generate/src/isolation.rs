//! Document 02 §6: "For two accepted sheets that agree on which adapters are the party's, and on those adapters' rows in their
//! order, the same text and primary given and all else alike, the party's call gives the same answer."

use crate::line_ends::Ends;
use crate::rng::Rng;
use crate::sheet::{KINDS, MOST_BYTES, MOST_ROWS};
use cases::{fields, lines, Case};

/// With so many bytes of rows that are kept, there is room for a party row for each adapter and for some others.
const ROOMY: usize = 10_000;

fn number(field: &[u8]) -> Option<u8> {
    std::str::from_utf8(field).ok()?.parse().ok()
}

/// The fields behind the first of a row as numbers, as far as they are.
fn numbers(row: &[u8]) -> (Option<u8>, Option<u8>) {
    let mut fields = fields(row).into_iter().skip(1).map(number);
    (fields.next().flatten(), fields.next().flatten())
}

fn is_party_row(row: &[u8]) -> bool {
    row.starts_with(b"party,")
}

/// The party of each adapter.
fn parties(rows: &[&[u8]]) -> [u8; 256] {
    let mut parties = [0; 256];
    for row in rows.iter().filter(|row| is_party_row(row)) {
        if let (Some(adapter), Some(party)) = numbers(row) {
            parties[usize::from(adapter)] = party;
        }
    }
    parties
}

/// The same call on another sheet, which has the party's rows in their order and is different elsewhere: in the first line, in
/// where the party rows stand, in whose the adapters of others are, in the rows on these, and in the line ends. The case's sheet is
/// well formed, and so is the other.
pub fn beside(case: &Case) -> Case {
    let mut rng = Rng::new(case.id, 0);
    let lines = lines(&case.sheet);
    let old = &lines[1..];
    let (parties, party) = (parties(old), case.party());
    let own = |adapter: u8| parties[usize::from(adapter)] == party;
    let of_party = |row: &&[u8]| !is_party_row(row) && numbers(row).0.is_some_and(own);
    let kept: Vec<Vec<u8>> = old.iter().copied().filter(of_party).map(<[u8]>::to_vec).collect();
    let tight = kept.iter().map(|row| row.len() + 1).sum::<usize>() > ROOMY;
    let mut sheet = Beside { rng: &mut rng, party, tight, rows: kept };
    sheet.assign(&own);
    sheet.fill(&own);
    Case { sheet: sheet.bytes(), settings: case.with_party(party, case.primary()).settings, ..case.clone() }
}

/// The other sheet, as it is made.
struct Beside<'a> {
    rng: &'a mut Rng,
    party: u8,
    /// Whether there is room for what must be there only.
    tight: bool,
    rows: Vec<Vec<u8>>,
}

impl Beside<'_> {
    fn insert(&mut self, row: Vec<u8>) {
        let at = self.rng.within(0, self.rows.len());
        self.rows.insert(at, row);
    }

    /// A party that is not the call's; of one digit, so that a row with it is no longer than it was.
    fn another(&mut self) -> u8 {
        let other = self.rng.below(9) as u8;
        if other < self.party { other } else { other + 1 }
    }

    /// The party rows: those without which an adapter would change sides, and some others.
    fn assign(&mut self, own: &dyn Fn(u8) -> bool) {
        for adapter in 0..=255 {
            let due = own(adapter) != (self.party == 0);
            let more = !self.tight && self.rows.len() < MOST_ROWS / 2 && self.rng.once_in(16);
            if due || more {
                let party = if own(adapter) { self.party } else { self.another() };
                self.insert(format!("party,{adapter},{party}").into_bytes());
            }
        }
    }

    /// Rows on adapters of others, with names of the party's rows among them.
    fn fill(&mut self, own: &dyn Fn(u8) -> bool) {
        let others: Vec<u8> = (0..=255).filter(|&adapter| !own(adapter)).collect();
        let names: Vec<Vec<u8>> = self.rows.iter().filter_map(|row| fields(row).get(3).map(|name| name.to_vec())).collect();
        if others.is_empty() || self.tight {
            return;
        }
        for _ in 0..self.rng.below(12) {
            let adapter = self.rng.pick(&others);
            let row = match self.rng.below(4) {
                0 => format!("adapter,{adapter}").into_bytes(),
                _ => self.named(adapter, &names),
            };
            if self.rows.len() < MOST_ROWS {
                self.insert(row);
            }
        }
    }

    fn named(&mut self, adapter: u8, names: &[Vec<u8>]) -> Vec<u8> {
        let kind = self.rng.pick(&KINDS);
        let number = self.rng.within(0, kind.last());
        let mut row = format!("{},{adapter},{number},", kind.word()).into_bytes();
        let known = !names.is_empty() && !self.rng.once_in(4);
        row.extend_from_slice(if known { &names[self.rng.below(names.len())] } else { b"Oven" });
        row
    }

    fn bytes(mut self) -> Vec<u8> {
        let primary = self.rng.below(if self.tight { 10 } else { 256 });
        self.rows.insert(0, format!("primary,{primary}").into_bytes());
        let ends = if self.tight { Ends::Lf } else { Ends::any(self.rng) };
        let mut bytes = ends.join(self.rng, &self.rows);
        if bytes.len() > MOST_BYTES {
            bytes.pop();
        }
        bytes
    }
}
