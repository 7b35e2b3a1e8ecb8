//! Lists that are to be converted back: triggers about rows of the sheet, others, conditions, and words that are no entry.

use super::{Known, KINDS};
use crate::rng::Rng;
use crate::sheet::Kind;
use crate::writings::damage::{no_kind, word, wrong_count};
use crate::writings::roles::Role;
use crate::writings::values::Adapters;
use crate::writings::{any_row, past_the_counts};
use cases::{Direction, Flat, List, Row, ENTRY};

/// The least buffer, in bytes, the longest rows, and the largest buffer of the replay format.
const LEAST_BYTES: usize = 512;
const LONGEST: usize = 272;
const LARGEST: usize = 8_192;

pub fn any(rng: &mut Rng, known: &Known, primary: u8) -> Direction {
    let adapters = Adapters::of(known.sheet, primary);
    let mut lists = Flat { counts: [rng.pick(&[1, 1, 1, 2, 2, 3, 4, 4]), 0], ..Flat::default() };
    for at in 0..lists.used(List::Triggers).len() {
        let again = at > 0 && rng.once_in(10);
        lists.triggers[at] = if again { lists.triggers[at - 1] } else { trigger(rng, known) };
    }
    if rng.once_in(12) {
        (lists.counts[0], lists.triggers) = (4, [lists.triggers[0]; 4]);
    }
    if rng.once_in(10) {
        lists.counts[1] = rng.pick(&[1, 1, 2, 3, 4, 5, 256, u32::MAX]);
        lists.conditions = std::array::from_fn(|_| any_row(rng, List::Conditions, &adapters));
    }
    if rng.once_in(4) {
        past_the_counts(rng, &mut lists);
    }
    for _ in 0..rng.pick(&[0, 0, 0, 0, 0, 1, 1, 2]) {
        damage(rng, &mut lists, &adapters);
    }
    if rng.once_in(3) {
        lists.triggers.iter_mut().for_each(|row| row.from = rng.pick(&[0, 1, 2, 3, u32::MAX]));
    }
    Direction::Back { size: size(rng), lists: Box::new(lists) }
}

/// Mostly the least buffer that is enough.
fn size(rng: &mut Rng) -> usize {
    match rng.below(80) {
        0 => 0,
        1 => rng.pick(&[1, LONGEST - 1, LONGEST, LONGEST, LONGEST + 1, 256]),
        2 | 3 => LEAST_BYTES - 1,
        4 => rng.within(0, LEAST_BYTES),
        5 | 6 => LARGEST,
        7 => LEAST_BYTES + 1,
        8 => 4_096,
        9 => rng.within(LEAST_BYTES, LARGEST),
        _ => LEAST_BYTES,
    }
}

/// A trigger that a row can be, mostly about a row of the sheet, or about what is beside it.
fn trigger(rng: &mut Rng, known: &Known) -> Row {
    let kind = |kind: Kind| match kind {
        Kind::Group => 12,
        Kind::Device => 14,
        Kind::Lamp | Kind::Input => 10,
    };
    let mut words = match known.row(rng).filter(|_| !rng.once_in(24)) {
        Some(row) => [kind(row.kind), row.adapter.into(), row.number as u32, rng.pick(&[1, 2])],
        None => {
            let of = rng.pick(&KINDS).0;
            [kind(of), rng.pick(&known.sheet.adapters).into(), rng.within(0, of.last()) as u32, rng.pick(&[1, 2])]
        }
    };
    match rng.below(40) {
        0 => words[0] = rng.pick(&[10, 12, 14]),
        1 => words[1] = rng.pick(&known.sheet.adapters).into(),
        2 => words[2] = (words[2] + 1).min(63),
        3 => words[1] = rng.below(256) as u32,
        _ => {}
    }
    Row::new(rng.pick(&[1, 2]), &words)
}

/// One word, count or row made wrong, or different.
fn damage(rng: &mut Rng, lists: &mut Flat, adapters: &Adapters) {
    let used = lists.used(List::Triggers).len();
    if used == 0 {
        return;
    }
    let row = &mut lists.triggers[rng.below(used)];
    match rng.below(16) {
        0..=2 => *row = any_row(rng, List::Triggers, adapters),
        3 | 4 => word(rng, List::Triggers, row, |role| role == Role::Unnamed),
        5 => word(rng, List::Triggers, row, |role| role != Role::Unnamed),
        6 => row.words[3] = rng.pick(&[0, 3, 3, 257, 1 << 31 | 1, u32::MAX]),
        7 => row.words[2] = rng.pick(&[16, 64, 64, row.words[2] | 1 << 8, row.words[2] | 1 << 16, row.words[2] | 1 << 31, u32::MAX]),
        8 => row.words[1] = rng.pick(&[256, 256, row.words[1] | 1 << 8, row.words[1] | 1 << 16, row.words[1] | 1 << 31, u32::MAX]),
        9 => row.words[0] = rng.pick(&[row.words[0] | 1 << 8, row.words[0] | 1 << 31, row.words[0].wrapping_add(1), row.words[0].wrapping_sub(1), 3, 6]),
        10 => no_kind(rng, List::Triggers, row),
        11 => row.words[rng.below(ENTRY)] ^= 1 << rng.below(32),
        12 | 13 => lists.counts[0] = wrong_count(rng, lists.counts[0]),
        14 => lists.counts[1] = wrong_count(rng, 1),
        _ => { let (one, two) = (rng.below(used), rng.below(used)); lists.triggers.swap(one, two) }
    }
}

/// A buffer, a count or an entry that is wrong.
pub fn spoil(rng: &mut Rng, size: &mut usize, lists: &mut Flat) {
    if rng.once_in(2) {
        *size = rng.pick(&[0, LEAST_BYTES - 1]);
    }
    match rng.below(4) {
        0 => lists.counts[0] = rng.pick(&[0, 5, u32::MAX]),
        1 => lists.counts[1] = rng.pick(&[1, 5]),
        2 => { let at = rng.below(lists.triggers.len()); lists.triggers[at].words[0] = rng.pick(&[17, 22]) }
        _ => lists.triggers[0].words[2] = 64,
    }
}
