//! Document 02 §6: whose the adapters of a sheet are, and calls of several parties and primaries.

use crate::grammar::{quoted, Walk};
use crate::rng::Rng;
use crate::sheet::{Kind, Row, Sheet};
use crate::topics;
use cases::{Habit, Settings};

/// Parties beside party 0.
const OTHERS: &[u8] = &[1, 3, 7, 10, 99, 255];
/// From so many rows on a sheet may have a party row for every adapter.
const MANY_ROWS: usize = 300;

/// An adapter and the party that a row gives it to.
pub type Owned = (u8, u8);

/// Party rows for a sheet of `count` rows about these adapters, at most one for each adapter: most are of two parties, some
/// say what holds without them, and some are about adapters that no other row names.
pub fn rows(rng: &mut Rng, adapters: &[u8], count: usize) -> Vec<Owned> {
    let other = rng.pick(OTHERS);
    let mut rows = Vec::new();
    for &adapter in adapters {
        if !rng.once_in(4) {
            assign(&mut rows, adapter, party(rng, other));
        }
    }
    let more = if count >= MANY_ROWS && rng.once_in(2) { 256 } else { rng.below(3) };
    for nth in 0..more {
        let adapter = if more == 256 { nth as u8 } else { rng.below(256) as u8 };
        assign(&mut rows, adapter, party(rng, other));
    }
    rows
}

fn party(rng: &mut Rng, other: u8) -> u8 {
    match rng.below(8) {
        0 | 1 => 0,
        2 => rng.pick(OTHERS),
        _ => other,
    }
}

/// Any party that a row may name.
pub fn any(rng: &mut Rng) -> u8 {
    let other = rng.pick(OTHERS);
    party(rng, other)
}

fn assign(rows: &mut Vec<Owned>, adapter: u8, party: u8) {
    if !rows.iter().any(|row| row.0 == adapter) {
        rows.push((adapter, party));
    }
}

/// A call on the sheet: mostly of a party that has an adapter there, with an adapter of its own as the primary, which may be
/// the sheet's; now and then of another party, with another's adapter, or with one that no row names.
pub fn settings(rng: &mut Rng, habit: Habit, sheet: &Sheet) -> Settings {
    let adapter = rng.pick(&sheet.adapters);
    let party = sheet.party_of(adapter);
    let (party, primary) = match rng.below(24) {
        0 => (party, rng.pick(&sheet.adapters)),
        1 => (rng.pick(OTHERS), adapter),
        2 => (party, rng.below(256) as u8),
        3 => (0, sheet.primary),
        4..=11 if sheet.party_of(sheet.primary) == party => (party, sheet.primary),
        _ => (party, adapter),
    };
    Settings { habit, party, primary, topics: topics::lent(rng) }
}

impl Walk<'_> {
    /// Now and then a name that the party and another have, mostly with an adapter of the party's, whether the name is on it or
    /// not; false if nothing was written.
    pub(crate) fn name_on_both_sides(&mut self, kind: Kind) -> bool {
        let sheet = self.sheet;
        let own = |row: &&Row| row.kind == kind && sheet.is_own(row.adapter);
        let anothers = |name: &[u8]| sheet.rows.iter().any(|row| row.kind == kind && row.name == name && !sheet.is_own(row.adapter));
        if sheet.parties.is_empty() || !self.rng.once_in(6) {
            return false;
        }
        let names: Vec<&[u8]> = sheet.rows.iter().filter(own).map(|row| row.name).filter(|name| anothers(name)).collect();
        if names.is_empty() {
            return false;
        }
        let name = self.rng.pick(&names);
        self.out.push(quoted(name));
        let listed = self.listed(true);
        if !listed.is_empty() && !self.rng.once_in(3) {
            self.say(", adapter =");
            let adapter = self.rng.pick(&listed);
            self.decimal(adapter.into());
        }
        true
    }
}
