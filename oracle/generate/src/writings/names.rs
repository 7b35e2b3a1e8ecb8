//! The texts in which the names of entries stand, and the names in them.

use super::roles::{roles, Range, Role};
use crate::rng::Rng;
use crate::topics;
use crate::vocabulary::{FORBIDDEN, ILL_FORMED, LONG_NAMES, LONG_VAR_TEXTS, NAMES, RAW_NAMES, TOPICS, VAR_TEXTS};
use cases::{Flat, List, Writing, MOST_BYTES};

/// The longest name, and the longest text that a var is compared with.
const MOST_NAME: usize = 48;
const MOST_TEXT: usize = 16;

/// What may stand between the names.
const BETWEEN: &[&[u8]] = &[
    b"", b" ", b"\"", b"\n", b"\xff", b"#", b"a", b"when timer(\"", b"\xc3", b"\xa9", b"\") fires\n", b"\0", "\u{e9}".as_bytes(), b"                 ",
];

/// A range of a row: its list and row, the word where it begins, and what it is.
#[derive(Debug, Clone, Copy)]
pub struct Place {
    pub list: List,
    pub row: usize,
    pub word: usize,
    pub range: Range,
}

/// The ranges of all rows in use.
pub fn places(lists: &Flat) -> Vec<Place> {
    let mut places = Vec::new();
    for list in List::BOTH {
        for (row, used) in lists.used(list).iter().enumerate() {
            let ranges = roles(list, &used.words).into_iter().enumerate();
            places.extend(ranges.filter_map(|(word, role)| match role {
                Role::Start(range) => Some(Place { list, row, word, range }),
                _ => None,
            }));
        }
    }
    places
}

/// What a range holds, as far as it is inside its text.
fn held(writing: &Writing, place: Place) -> Option<Vec<u8>> {
    let row = &writing.lists.rows(place.list)[place.row];
    let [start, length] = [row.words[place.word], row.words[place.word + 1]].map(|word| word as usize);
    let text = writing.texts.get((row.from as usize).checked_sub(1)?)?;
    text.get(start..start.checked_add(length)?).map(<[u8]>::to_vec)
}

/// All ranges with what they hold, empty if they are outside their text.
pub fn strings(writing: &Writing) -> Vec<(Place, Vec<u8>)> {
    places(&writing.lists).into_iter().map(|place| (place, held(writing, place).unwrap_or_default())).collect()
}

/// Makes both texts anew, so that each range holds this string.
pub fn settle(rng: &mut Rng, writing: &mut Writing, mut strings: Vec<(Place, Vec<u8>)>) {
    for at in 1..strings.len() {
        strings.swap(at, rng.below(at + 1));
    }
    for from in [1, 2] {
        let (mut text, mut empty) = (front(rng), Vec::new());
        for (place, string) in &strings {
            if writing.lists.rows(place.list)[place.row].from != from {
                continue;
            }
            let known = text.windows(string.len().max(1)).position(|window| window == string).filter(|_| rng.once_in(3));
            let start = known.unwrap_or_else(|| {
                text.extend_from_slice(if rng.once_in(2) { b"" } else { rng.pick(BETWEEN) });
                text.extend_from_slice(string);
                text.len() - string.len()
            });
            let words = &mut writing.lists.rows_mut(place.list)[place.row].words;
            words[place.word..place.word + 2].copy_from_slice(&[start as u32, string.len() as u32]);
            if string.is_empty() && rng.once_in(2) {
                empty.push(*place);
            }
        }
        text.extend_from_slice(if rng.once_in(2) { b"" } else { rng.pick(BETWEEN) });
        // An empty text may stand at the very end.
        for place in empty {
            writing.lists.rows_mut(place.list)[place.row].words[place.word] = text.len() as u32;
        }
        writing.texts[from as usize - 1] = text;
    }
}

/// What stands before the first name: mostly nothing, now and then more than a rule may have. Names take less than the rest of the room.
fn front(rng: &mut Rng) -> Vec<u8> {
    match rng.below(40) {
        0 => vec![b' '; rng.pick(&[255, 256, 16_384, 16_385, MOST_BYTES - 2_000])],
        1 => vec![0xff; rng.pick(&[1, 300])],
        2..=10 => rng.pick(BETWEEN).to_vec(),
        _ => Vec::new(),
    }
}

/// A name, topic or text that a rule can have.
pub fn good(rng: &mut Rng, range: Range) -> Vec<u8> {
    match range {
        Range::Name if rng.once_in(6) => of_length(rng, MOST_NAME),
        Range::Name if rng.once_in(6) => rng.pick(&["+", "#", "a\r", "\u{fdd0}", "\0", "\u{85}", "a+b", "\t"]).into(),
        Range::Name => rng.pick(NAMES).to_vec(),
        Range::Topic if rng.once_in(4) => of_length(rng, MOST_NAME),
        Range::Topic if rng.once_in(2) => rng.pick(TOPICS).into(),
        Range::Topic => Some(topics::any(rng)).filter(|topic| topics::fits(topic)).unwrap_or(b"a".to_vec()),
        Range::Text if rng.once_in(3) => Vec::new(),
        Range::Text if rng.once_in(6) => of_length(rng, MOST_TEXT),
        Range::Text => rng.pick(VAR_TEXTS).into(),
    }
}

/// So many bytes, of narrow or of wide characters.
fn of_length(rng: &mut Rng, length: usize) -> Vec<u8> {
    let c = rng.pick(&["a", "\u{e9}", "\u{65e5}", "\u{1f4a1}"]);
    [&b"x".repeat(length % c.len())[..], c.repeat(length / c.len()).as_bytes()].concat()
}

/// One that no rule can have: too long, empty, not UTF-8, with a quote or LF, or as a topic forbidden.
pub fn wrong(rng: &mut Rng, range: Range) -> Vec<u8> {
    match rng.below(10) {
        0 => [rng.pick(&[&b""[..], b"a"]), rng.pick(ILL_FORMED)].concat(),
        1 => rng.pick(RAW_NAMES).to_vec(),
        2 => rng.pick(&["\"", "a\"", "\"a", "a\"b"]).into(),
        3 => rng.pick(&["\n", "a\n", "\na", "a\nb"]).into(),
        4 if range != Range::Text => Vec::new(),
        5..=8 if range == Range::Topic => {
            let (c, (before, behind)) = (rng.pick(FORBIDDEN), rng.pick(&[("", ""), ("a", ""), ("", "a"), ("a", "b")]));
            format!("{before}{c}{behind}").into_bytes()
        }
        5 => { let most = longest(range); of_length(rng, most + 1) }
        _ if range == Range::Text => rng.pick(LONG_VAR_TEXTS).into(),
        _ => rng.pick(LONG_NAMES).into(),
    }
}

pub fn longest(range: Range) -> usize {
    if range == Range::Text { MOST_TEXT } else { MOST_NAME }
}
