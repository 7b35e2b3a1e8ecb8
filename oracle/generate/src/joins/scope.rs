//! What the texts of a join can refer to without being refused: the party's adapters and rows, and a few names, topics and texts that both
//! texts share.

use super::entry::{near_string, Leaf};
use crate::rng::Rng;
use crate::sheet::{Kind, KINDS};
use crate::topics::fits;
use crate::vocabulary::{NAMES, TOPICS, VAR_TEXTS};
use cases::{fields, lines};

/// A row of a sheet with a name.
#[derive(Debug, Clone, PartialEq)]
pub struct Row {
    pub kind: Kind,
    pub adapter: u8,
    pub number: usize,
    pub name: Vec<u8>,
}

pub struct Scope {
    pub primary: u8,
    /// The adapters that may be named.
    pub listed: Vec<u8>,
    rows: Vec<Row>,
    names: Vec<Vec<u8>>,
    topics: Vec<Vec<u8>>,
    texts: Vec<Vec<u8>>,
}

fn digits(field: &[u8]) -> Option<usize> {
    std::str::from_utf8(field).ok()?.parse().ok()
}

/// The rows with names of a well-formed sheet.
pub fn named_rows(sheet: &[u8]) -> Vec<Row> {
    lines(sheet).into_iter().filter_map(row).collect()
}

fn row(line: &[u8]) -> Option<Row> {
    let [kind, adapter, number, name] = fields(line)[..] else { return None };
    let kind = KINDS.into_iter().find(|known| known.word().as_bytes() == kind)?;
    Some(Row { kind, adapter: digits(adapter)? as u8, number: digits(number)?, name: name.to_vec() })
}

/// A few strings: one, some beside it, and others.
fn few(rng: &mut Rng, from: &[&[u8]], least: usize, most: usize) -> Vec<Vec<u8>> {
    let mut few = vec![rng.pick(from).to_vec()];
    for _ in 0..rng.within(1, 3) {
        let last = few[few.len() - 1].clone();
        few.push(if rng.once_in(3) { Some(rng.pick(from).to_vec()) } else { near_string(rng, &last, least, most) }.unwrap_or(last));
    }
    few
}

impl Scope {
    /// The scope of a party's call on a well-formed sheet, with this primary and these lent topics.
    pub fn of(rng: &mut Rng, sheet: &[u8], party: u8, primary: u8, lent: &[Vec<u8>]) -> Scope {
        let lines = lines(sheet);
        let of_party = |adapter: u8| {
            let start = format!("party,{adapter},");
            let found = lines.iter().find_map(|line| line.strip_prefix(start.as_bytes()));
            found.map_or(Some(0), digits) == Some(party.into())
        };
        let adapters = lines.iter().filter_map(|line| line.strip_prefix(b"adapter,").and_then(digits));
        let listed: Vec<u8> = adapters.map(|adapter| adapter as u8).filter(|adapter| of_party(*adapter)).collect();
        let rows = lines.iter().filter_map(|line| row(line)).filter(|row| of_party(row.adapter) && std::str::from_utf8(&row.name).is_ok());
        let topics: Vec<&[u8]> = TOPICS.iter().map(|topic| topic.as_bytes()).collect();
        let mut topics: Vec<Vec<u8>> = few(rng, &topics, 1, 48).into_iter().filter(|topic| fits(topic)).collect();
        topics.extend(lent.iter().filter(|topic| fits(topic)).take(2).cloned());
        let texts: Vec<&[u8]> = VAR_TEXTS.iter().map(|text| text.as_bytes()).chain([&b"0"[..], b"5", b"-5"]).collect();
        Scope { primary, rows: rows.collect(), listed, names: few(rng, NAMES, 1, 48), topics, texts: few(rng, &texts, 0, 16) }
    }

    /// The rows of a kind on adapters that may be named or need not be.
    pub fn rows(&self, kind: Kind) -> impl Iterator<Item = &Row> {
        let in_reach = |row: &&Row| row.adapter == self.primary || self.listed.contains(&row.adapter);
        self.rows.iter().filter(move |row| row.kind == kind).filter(in_reach)
    }

    /// The names that pick this number of this kind, and whether the adapter must be named with each.
    pub fn names_of(&self, kind: Kind, adapter: u8, number: usize) -> Vec<(Vec<u8>, bool)> {
        let same = |row: &Row, name: &[u8]| row.kind == kind && row.name == name;
        let picks = |row: &&Row| row.kind == kind && (row.adapter, row.number) == (adapter, number);
        let counted = self.rows.iter().filter(picks).map(|row| {
            let all = self.rows.iter().filter(|other| same(other, &row.name));
            let here = all.clone().filter(|other| other.adapter == adapter).count();
            (row.name.clone(), all.count(), here)
        });
        let usable = |(_, all, here): &(Vec<u8>, usize, usize)| *all == 1 || *here == 1 && self.listed.contains(&adapter);
        counted.filter(usable).map(|(name, all, _)| (name, all > 1)).collect()
    }

    /// An adapter on which a number can be written.
    pub fn adapter(&self, rng: &mut Rng) -> Leaf {
        let other = !self.listed.is_empty() && rng.once_in(2);
        Leaf::Adapter(if other { rng.pick(&self.listed) } else { self.primary })
    }

    pub fn name(&self, rng: &mut Rng) -> Vec<u8> {
        self.names[rng.below(self.names.len())].clone()
    }

    pub fn topic(&self, rng: &mut Rng) -> Vec<u8> {
        if self.topics.is_empty() { b"a".to_vec() } else { self.topics[rng.below(self.topics.len())].clone() }
    }

    pub fn text(&self, rng: &mut Rng) -> Vec<u8> {
        self.texts[rng.below(self.texts.len())].clone()
    }
}
