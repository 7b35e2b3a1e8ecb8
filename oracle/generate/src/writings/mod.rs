//! Document 02 §7: two lists to be written. Some are what a rule gives, or two joined ones; the others are made of words, with names of their
//! own. Many are damaged.

pub(crate) mod damage;
mod names;
pub mod roles;
pub(crate) mod values;

use crate::joins::{Rule, Scope};
use crate::rng::Rng;
use crate::sheet::{self, Sheet};
use crate::{parties, spoil_sheet};
use cases::{Case, Flat, Habit, Join, List, Row, Writing, ENTRY, LEAST_WORDS, MOST_BYTES, ROWS};
use roles::{kinds, roles, Role};
use values::Adapters;

/// The least buffer, in bytes, and the largest of the replay format.
const LEAST_BYTES: usize = 4_096;
const LARGEST: usize = 8_192;

/// A reader's lists in the flat layout, of a call and of a join, as far as these are accepted.
#[derive(Clone, Copy)]
pub struct Reads {
    pub call: fn(&Case) -> Option<Flat>,
    pub join: fn(&Join) -> Option<Flat>,
}

/// Keeps lists to be written and cases of one seed apart.
const WRITINGS: u64 = 0x7772_6974;

/// The lists `index` of the sequence that `seed` gives, with this reader.
pub fn writing(seed: u64, index: u64, reads: Reads) -> Writing {
    let mut rng = Rng::new(seed ^ WRITINGS, index);
    let rng = &mut rng;
    let (mut sheet, mut writing) = without_lists(rng, index);
    let adapters = Adapters::of(&sheet, writing.primary);
    if rng.once_in(2) || !read(rng, &sheet, &mut writing, reads) {
        made_of_words(rng, &mut writing, &adapters);
    }
    if rng.once_in(4) {
        let strings = names::strings(&writing);
        names::settle(rng, &mut writing, strings);
    }
    if rng.once_in(4) {
        past_the_counts(rng, &mut writing.lists);
    }
    for _ in 0..rng.pick(&[0, 0, 0, 0, 1, 1, 1, 1, 2, 3]) {
        damage::any(rng, &mut writing, &adapters);
    }
    if rng.once_in(6) {
        damage::reach(rng, &mut writing, &adapters);
    }
    if rng.once_in(4) {
        spoil_sheet(rng, &mut sheet);
    }
    if rng.once_in(30) {
        pile_up(rng, &mut writing, &mut sheet, &adapters);
    }
    writing.texts.iter_mut().for_each(|text| text.truncate(MOST_BYTES));
    sheet.bytes.truncate(MOST_BYTES);
    Writing { sheet: sheet.bytes, ..writing }
}

/// A sheet, and a call on it that has no lists yet: of a party, with a primary.
fn without_lists(rng: &mut Rng, index: u64) -> (Sheet, Writing) {
    let mut sheet = sheet::good(rng, 2);
    let settings = parties::settings(rng, Habit::Rule, &sheet);
    sheet.party = settings.party;
    let writing = Writing {
        id: index,
        size: size(rng),
        party: settings.party,
        primary: settings.primary,
        texts: [Vec::new(), Vec::new()],
        sheet: sheet.bytes.clone(),
        lists: Flat::default(),
    };
    (sheet, writing)
}

/// Mostly the least buffer that is enough.
fn size(rng: &mut Rng) -> usize {
    match rng.below(100) {
        0 => 0,
        1 => rng.pick(&[1, 512, 886, 1_024]),
        2 | 3 => LEAST_BYTES - 1,
        4 => rng.within(0, LEAST_BYTES),
        5..=7 => LARGEST,
        8 => LEAST_BYTES + 1,
        9..=11 => rng.within(LEAST_BYTES, LARGEST),
        _ => LEAST_BYTES,
    }
}

/// The lists of a rule, or of two that are joined; false if the texts are refused.
fn read(rng: &mut Rng, sheet: &Sheet, writing: &mut Writing, reads: Reads) -> bool {
    let scope = Scope::of(rng, &sheet.bytes, writing.party, writing.primary, &[]);
    let first = Rule::any(rng, &scope);
    let mut second = first.beside(rng, &scope);
    second.conditions.clone_from(&first.conditions);
    let texts = [first.text(rng, &scope), second.text(rng, &scope)];
    let lists = if rng.once_in(2) {
        (reads.call)(&writing.call(texts[0].as_slice()))
    } else {
        let Writing { id, party, primary, .. } = *writing;
        let (texts, sheet) = (texts.clone(), sheet.bytes.clone());
        (reads.join)(&Join { id, words: [LEAST_WORDS; 2], party, primary, texts, sheet, topics: Vec::new() })
    };
    let Some(lists) = lists else { return false };
    (writing.texts, writing.lists) = (texts, lists);
    true
}

/// Lists of any kinds, each word as its role allows, and texts with their names.
fn made_of_words(rng: &mut Rng, writing: &mut Writing, adapters: &Adapters) {
    writing.lists.counts = [rng.pick(&[1, 1, 1, 2, 2, 3, 4, 4]), rng.pick(&[0, 1, 1, 1, 2, 3, 4, 4])];
    for list in List::BOTH {
        for at in 0..writing.lists.used(list).len() {
            let again = at > 0 && rng.once_in(12);
            let row = if again { writing.lists.rows(list)[at - 1] } else { any_row(rng, list, adapters) };
            writing.lists.rows_mut(list)[at] = row;
        }
    }
    let strings = names::places(&writing.lists).into_iter().map(|place| (place, names::good(rng, place.range))).collect();
    names::settle(rng, writing, strings);
}

/// An entry of any kind, each word as its role allows; of names and texts alone the words are 0.
pub(crate) fn any_row(rng: &mut Rng, list: List, adapters: &Adapters) -> Row {
    // Entries with a value have more forms than all others together.
    let kind = if list == List::Conditions && rng.once_in(2) { rng.pick(&[4, 5, 8, 15, 15]) } else { rng.within(1, kinds(list) as usize) as u32 };
    let mut words = [0; ENTRY];
    words[0] = kind;
    for at in 1..ENTRY {
        match roles(list, &words)[at] {
            Role::Low => words[at..at + 2].copy_from_slice(&values::halves(values::number(rng))),
            Role::High => {}
            // A text is one of four kinds of values, and none of the others has texts.
            Role::Code(4) if rng.once_in(2) => words[at] = 4,
            role => words[at] = values::good(rng, role, adapters),
        }
    }
    Row { from: rng.pick(&[1, 2]), words }
}

/// Anything in the rows that are not in use.
pub(crate) fn past_the_counts(rng: &mut Rng, lists: &mut Flat) {
    for list in List::BOTH {
        let used = lists.used(list).len();
        for row in &mut lists.rows_mut(list)[used..ROWS] {
            *row = Row { from: rng.pick(&[0, 1, 2, 3, u32::MAX]), words: std::array::from_fn(|_| rng.next() as u32) };
        }
    }
}

/// Several things wrong at once, for the order in which they are asked.
fn pile_up(rng: &mut Rng, writing: &mut Writing, sheet: &mut Sheet, adapters: &Adapters) {
    if rng.once_in(4) {
        let which = rng.below(sheet::BREAKS);
        sheet.bytes = sheet::broken(rng, which);
    }
    if rng.once_in(3) {
        writing.primary = rng.pick(&sheet.adapters);
    }
    if rng.once_in(3) {
        writing.size = rng.pick(&[0, LEAST_BYTES - 1]);
    }
    for _ in 0..rng.below(5) {
        damage::any(rng, writing, adapters);
    }
}
