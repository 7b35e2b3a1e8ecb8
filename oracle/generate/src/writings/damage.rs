//! What can be wrong with two lists: a word, a count, a name, an adapter, several of them.

use super::names::{self, Place};
use super::roles::{kinds, roles, Range, Role};
use super::values::{self, Adapters};
use crate::rng::Rng;
use cases::{List, Row, Writing, ENTRY, ROWS};

/// A row in use, if there is one.
fn any_row(rng: &mut Rng, writing: &Writing) -> Option<(List, usize)> {
    let used = List::BOTH.into_iter().flat_map(|list| (0..writing.lists.used(list).len()).map(move |row| (list, row)));
    let used: Vec<(List, usize)> = used.collect();
    (!used.is_empty()).then(|| rng.pick(&used))
}

/// One word, FROM, count, name or row made wrong, or different.
pub fn any(rng: &mut Rng, writing: &mut Writing, adapters: &Adapters) {
    let Some((list, at)) = any_row(rng, writing) else { return };
    let row = &mut writing.lists.rows_mut(list)[at];
    match rng.below(46) {
        0..=8 => word(rng, list, row, |role| role != Role::Unnamed),
        9..=16 => word(rng, list, row, |role| role == Role::Unnamed),
        17 | 18 => row.from = rng.pick(&[0, 3, 1, 2, 257, 258, 1 << 31, u32::MAX]),
        19 => row.words[0] = rng.within(1, kinds(list) as usize) as u32,
        20 => no_kind(rng, list, row),
        21 | 22 => writing.lists.counts[list as usize] = wrong_count(rng, writing.lists.counts[list as usize]),
        23..=26 => out_of_reach(rng, list, row, adapters),
        27..=30 => name(rng, writing),
        31..=33 => cut(rng, writing),
        34 | 35 => number(rng, writing),
        36 => { let (one, two) = (rng.below(ENTRY), rng.below(ENTRY)); row.words.swap(one, two) }
        37 if rng.once_in(2) => row.words[rng.below(ENTRY)] ^= 1 << rng.below(32),
        37 => row.words = std::array::from_fn(|_| if rng.once_in(2) { 0 } else { rng.next() as u32 }),
        38 => another_row(rng, writing, list, at),
        _ => bound(rng, list, row),
    }
}

/// A kind that the list has not, often with nothing beside it.
pub fn no_kind(rng: &mut Rng, list: List, row: &mut Row) {
    row.words[0] = rng.pick(&[0, kinds(list) + 1, 17, 21, 22, 255, row.words[0] | 256, u32::MAX]);
    if rng.once_in(2) {
        row.words[1..].fill(0);
    }
}

/// Rows with adapters that mostly cannot be written.
pub fn reach(rng: &mut Rng, writing: &mut Writing, adapters: &Adapters) {
    for list in List::BOTH {
        for at in 0..writing.lists.used(list).len() {
            if rng.once_in(2) {
                out_of_reach(rng, list, &mut writing.lists.rows_mut(list)[at], adapters);
            }
        }
    }
}

/// A word of such a role that does not fit it.
pub fn word(rng: &mut Rng, list: List, row: &mut Row, of: impl Fn(Role) -> bool) {
    let roles = roles(list, &row.words);
    let places: Vec<usize> = (0..ENTRY).filter(|&at| of(roles[at])).collect();
    if !places.is_empty() {
        let at = rng.pick(&places);
        row.words[at] = values::wrong(rng, roles[at], row.words[at]);
    }
}

/// All words of a row at a bound, or one of them just past it.
fn bound(rng: &mut Rng, list: List, row: &mut Row) {
    let roles = roles(list, &row.words);
    let places: Vec<usize> = (1..ENTRY).filter(|&at| values::past(roles[at]).is_some()).collect();
    if places.is_empty() || rng.once_in(4) {
        row.words.iter_mut().zip(roles).for_each(|(word, role)| *word = if let Role::Number(most) = role { most } else { *word });
    } else {
        let at = rng.pick(&places);
        row.words[at] = values::past(roles[at]).unwrap_or_default();
    }
}

pub fn wrong_count(rng: &mut Rng, count: u32) -> u32 {
    rng.pick(&[0, 0, 5, 5, 6, 8, 256, count | 1 << 8, count | 1 << 16, count | 1 << 31, u32::MAX, count.saturating_sub(1), 4])
}

/// The adapters of a row, one or all, made others, which mostly cannot be written.
fn out_of_reach(rng: &mut Rng, list: List, row: &mut Row, adapters: &Adapters) {
    let (adapter, all) = (adapters.any(rng), rng.once_in(2));
    let roles = roles(list, &row.words);
    for (word, role) in row.words.iter_mut().zip(roles) {
        if matches!(role, Role::Adapter | Role::Broadcast) && (all || rng.once_in(2)) {
            *word = adapter;
        }
    }
}

/// A name that no rule can have in the place of one of them.
fn name(rng: &mut Rng, writing: &mut Writing) {
    let mut strings = names::strings(writing);
    let Some(at) = any_place(rng, &names::places(&writing.lists)) else { return };
    strings[at].1 = names::wrong(rng, strings[at].0.range);
    names::settle(rng, writing, strings);
}

/// One of these places; often one of a text or a topic, which are few.
fn any_place(rng: &mut Rng, places: &[Place]) -> Option<usize> {
    let few: Vec<usize> = (0..places.len()).filter(|&at| places[at].range != Range::Name).collect();
    if !few.is_empty() && rng.once_in(2) {
        return Some(rng.pick(&few));
    }
    (!places.is_empty()).then(|| rng.below(places.len()))
}

/// A text that ends with a name, or within it, or a name whose range is moved or made longer or shorter.
fn cut(rng: &mut Rng, writing: &mut Writing) {
    let places = names::places(&writing.lists);
    let Some(at) = any_place(rng, &places) else { return };
    let Place { list, row, word, .. } = places[at];
    let row = &mut writing.lists.rows_mut(list)[row];
    let [start, length] = [row.words[word], row.words[word + 1]];
    let from = (row.from as usize).wrapping_sub(1);
    match (rng.below(9), writing.texts.get_mut(from)) {
        (0 | 1, Some(text)) => text.truncate(start.saturating_add(length) as usize),
        (2, Some(text)) => text.truncate((start.saturating_add(length) as usize).saturating_sub(1)),
        (3, Some(text)) => row.words[word] = (text.len() as u32).saturating_sub(length),
        (4, Some(text)) => row.words[word + 1] = (text.len() as u32).saturating_sub(start) + 1,
        (5, Some(text)) => row.words[word] = (text.len() as u32).saturating_sub(length) + 1,
        _ if length == 0 => row.words[word] = rng.pick(&[start.saturating_add(1), 20_001, u32::MAX]),
        (6, _) => row.words[word + 1] = length.wrapping_sub(1),
        (7, _) => row.words[word] = start.wrapping_sub(1),
        _ => row.words[word] = rng.pick(&[u32::MAX, u32::MAX - length, (u32::MAX - length).wrapping_add(1), 1 << 31, start | 1 << 16]),
    }
}

/// A literal or an added number, mostly a wrong one.
fn number(rng: &mut Rng, writing: &mut Writing) {
    let low = |row: &Row| roles(List::Conditions, &row.words).iter().position(|role| *role == Role::Low);
    let places: Vec<(usize, usize)> = writing.lists.used(List::Conditions).iter().enumerate().filter_map(|(at, row)| Some((at, low(row)?))).collect();
    if !places.is_empty() {
        let (at, low) = rng.pick(&places);
        let number = if rng.once_in(6) { values::number(rng) } else { values::wrong_number(rng) };
        writing.lists.conditions[at].words[low..low + 2].copy_from_slice(&values::halves(number));
    }
}

/// A row with what another has, of this list or of the other, or with the other's FROM.
fn another_row(rng: &mut Rng, writing: &mut Writing, list: List, at: usize) {
    let (other, from) = (rng.pick(&List::BOTH), rng.below(ROWS));
    let row = writing.lists.rows(other)[from];
    let own = &mut writing.lists.rows_mut(list)[at];
    if rng.once_in(4) { own.from = row.from } else { *own = row }
}
