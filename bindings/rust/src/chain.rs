//! Every short chain of conditions, for comparison runs (document 02 §13).

use crate::{boundary, layout, with_room, Refusal};
use core::{fmt, iter};

/// The words, numbers and signs of which chains are made. A piece is the place of one of them here, 0 to 22.
pub const VOCABULARY: [&str; 23] = [
    "lamp", "sun", "time", "is", "in", "on", "off", "up", "down", "sunrise", "sunset", "level", "and", "0", "63", "64", "(", ")", ".", "..",
    "==", "+", "-",
];

/// How many pieces a chain has at most.
pub const MOST_PIECES: usize = 15;

/// Where the pieces stand in an answer: behind number, line, column, detail and the count.
const PIECES: usize = 5;

/// The length of an answer of the library's `tergyosul_next_chain`.
pub(crate) const CHAIN_WORDS: usize = PIECES + MOST_PIECES;

/// A chain of one to four conditions, joined by `and`. It is shown as it is written in a rule behind `if`, one space between.
#[derive(Clone, Copy, PartialEq, Eq, Hash)]
pub struct Chain {
    // Those past the count are 0.
    pieces: [u8; MOST_PIECES],
    count: usize,
}

impl Chain {
    /// The chain's pieces, 3 to 15 of them.
    pub fn pieces(&self) -> &[u8] {
        &self.pieces[..self.count]
    }
}

impl fmt::Display for Chain {
    fn fmt(&self, f: &mut fmt::Formatter<'_>) -> fmt::Result {
        self.pieces().iter().enumerate().try_for_each(|(i, &piece)| {
            let space = if i == 0 { "" } else { " " };
            write!(f, "{space}{}", VOCABULARY[usize::from(piece)])
        })
    }
}

impl fmt::Debug for Chain {
    fn fmt(&self, f: &mut fmt::Formatter<'_>) -> fmt::Result {
        write!(f, "Chain({self})")
    }
}

/// The chain behind `start` in the list, which is that of [`chains`]: the first where `start` has no pieces, and `None` behind the
/// last. A start that has pieces and is no chain of the list is refused with 67.
///
/// ```
/// let first = tergyosul::next_chain(&[])?.expect("the list has chains");
/// assert_eq!(first.to_string(), "sun is up");
/// let second = tergyosul::next_chain(first.pieces())?.expect("it has more than one");
/// assert_eq!(second.to_string(), "sun is down");
///
/// let refusal = tergyosul::next_chain(&[1, 3]).unwrap_err();
/// assert_eq!(refusal.to_string(), "the start is no chain of the list (refusal 67)");
/// # Ok::<(), tergyosul::Refusal>(())
/// ```
///
/// # Panics
///
/// If the linked library gives an answer outside the layout of `include/tergyosul.h`. The proved library gives none, so
/// that means that another one was linked.
pub fn next_chain(start: &[u8]) -> Result<Option<Chain>, Refusal> {
    let mut answer = [0; CHAIN_WORDS];
    with_room(boundary::next_chain(start, &mut answer))?;
    decoded(&answer)
}

/// Every chain of one to four conditions, joined by `and`, that is accepted behind `if` and has at most [`MOST_PIECES`] tokens of the
/// [`VOCABULARY`]: shorter ones first, then by the vocabulary's order, token by token. There are 636.
///
/// # Panics
///
/// As [`next_chain`].
pub fn chains() -> impl Iterator<Item = Chain> {
    let behind = |start: &[u8]| next_chain(start).ok().flatten();
    iter::successors(behind(&[]), move |chain| behind(chain.pieces()))
}

/// The chain of an answer, that none follows, or the refusal.
pub(crate) fn decoded(answer: &[u32; CHAIN_WORDS]) -> Result<Option<Chain>, Refusal> {
    let [number, line, column, detail, count, words @ ..] = *answer;
    if number != 0 {
        return Err(Refusal { number, line, column, detail });
    }
    let count = usize::try_from(count).ok().filter(|&count| count <= MOST_PIECES).unwrap_or_else(|| layout::broken());
    let piece = |word: u32| u8::try_from(word).ok().filter(|&piece| usize::from(piece) < VOCABULARY.len()).unwrap_or_else(|| layout::broken());
    Ok(Some(Chain { pieces: words.map(piece), count }).filter(|chain| chain.count > 0))
}
