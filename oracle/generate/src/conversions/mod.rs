//! Document 02 §10: rows of the previous owners' archives that are to be converted to triggers, and lists that are to be converted back. Most are about the
//! rows of their sheet; many are damaged.

mod back;
mod rows;
mod sheets;

use crate::joins::{named_rows, Row};
use crate::rng::Rng;
use crate::sheet::{self, Kind, Sheet};
use crate::{parties, spoil_sheet};
use cases::{Conversion, Direction, Habit, MOST_BYTES};

/// What a row can be about, with its words.
const KINDS: [(Kind, [&str; 2]); 3] =
    [(Kind::Lamp, ["on", "off"]), (Kind::Group, ["any_on", "all_off"]), (Kind::Device, ["offline", "online"])];

/// A sheet, and its rows with names.
struct Known<'a> {
    sheet: &'a Sheet,
    rows: Vec<Row>,
    /// The places of those that can be meant: with their adapter named they pick a reference, and have no comma.
    good: Vec<usize>,
    /// The places of the party's whose names another party has too.
    shared: Vec<usize>,
}

impl<'a> Known<'a> {
    fn of(sheet: &'a Sheet) -> Known<'a> {
        let rows = named_rows(&sheet.bytes);
        let same = |one: &Row, other: &Row| one.kind == other.kind && one.name == other.name;
        let own = |row: &Row| row.kind != Kind::Input && sheet.is_own(row.adapter);
        let alone = |row: &Row| rows.iter().filter(|other| same(row, other) && other.adapter == row.adapter).count() == 1;
        let good = |row: &Row| own(row) && sheet.listed.contains(&row.adapter) && !row.name.contains(&b',') && alone(row);
        let shared = |row: &Row| own(row) && rows.iter().any(|other| same(row, other) && !sheet.is_own(other.adapter));
        let places = |is: &dyn Fn(&Row) -> bool| (0..rows.len()).filter(|&at| is(&rows[at])).collect();
        let (good, shared) = (places(&good), places(&shared));
        Known { sheet, rows, good, shared }
    }

    /// The party's adapters that are listed.
    fn listed(&self) -> Vec<u8> {
        self.sheet.listed.iter().copied().filter(|adapter| self.sheet.is_own(*adapter)).collect()
    }

    /// A row whose name another party has too, if there is one.
    fn shared(&self, rng: &mut Rng) -> Option<&Row> {
        (!self.shared.is_empty()).then(|| &self.rows[rng.pick(&self.shared)])
    }

    /// A row of the sheet, mostly one that can be meant, if there is one.
    fn row(&self, rng: &mut Rng) -> Option<&Row> {
        let all = || (0..self.rows.len()).collect();
        let places: Vec<usize> = match rng.below(20) {
            0..=5 if self.rows.len() > MANY => vec![self.rows.len() - 1],
            0..=13 => self.good.clone(),
            14 => all(),
            _ => (0..self.rows.len()).filter(|&at| self.rows[at].kind != Kind::Input && self.sheet.is_own(self.rows[at].adapter)).collect(),
        };
        let places = if places.is_empty() { all() } else { places };
        (!places.is_empty()).then(|| &self.rows[rng.pick(&places)])
    }
}

/// From so many rows on the last one is meant more often.
const MANY: usize = 200;

/// Keeps conversions and cases of one seed apart.
const CONVERSIONS: u64 = 0x726f_7773;

/// The conversion `index` of the sequence that `seed` gives.
pub fn conversion(seed: u64, index: u64) -> Conversion {
    let mut rng = Rng::new(seed ^ CONVERSIONS, index);
    let rng = &mut rng;
    let mut sheet = sheets::any(rng);
    let settings = parties::settings(rng, Habit::Rule, &sheet);
    sheet.party = settings.party;
    let known = Known::of(&sheet);
    let mut primary = settings.primary;
    let mut direction = if rng.once_in(2) { rows::any(rng, &known) } else { back::any(rng, &known, primary) };
    if rng.once_in(4) {
        spoil_sheet(rng, &mut sheet);
    }
    if rng.once_in(30) {
        pile_up(rng, &mut sheet, &mut primary, &mut direction);
    }
    if let Direction::Forward { rows } = &mut direction {
        rows.truncate(MOST_BYTES);
    }
    sheet.bytes.truncate(MOST_BYTES);
    Conversion { id: index, party: settings.party, primary, sheet: sheet.bytes, direction }
}

/// Several things wrong at once, for the order in which they are asked.
fn pile_up(rng: &mut Rng, sheet: &mut Sheet, primary: &mut u8, direction: &mut Direction) {
    if rng.once_in(3) {
        let which = rng.below(sheet::BREAKS);
        sheet.bytes = sheet::broken(rng, which);
    }
    if rng.once_in(2) {
        *primary = rng.pick(&sheet.adapters);
    }
    match direction {
        Direction::Forward { rows } => rows::spoil(rng, rows),
        Direction::Back { size, lists } => back::spoil(rng, size, lists),
    }
}
