//! Tergyosul, the rule reader of the lighting controllers, for Rust.
//!
//! [`read`] takes a rule text and a name sheet, both as bytes, and whose call it is ([`Party`]), perhaps with the topics of
//! earlier rules ([`Call`]). It gives the rule's triggers and conditions, or one numbered refusal with its place. A rule is
//! written out as a text again by [`Rule::written`]. Rows of the previous owners are triggers by [`convert_rows`], and a rule
//! that rows can say is rows by [`Rule::to_rows`]. All of that is done by the proved library, through its C ABI
//! (`include/tergyosul.h`); this crate passes the slices and turns the answer's words into types, with a case for each kind
//! and code of that header. It needs no standard library, allocates nothing and keeps nothing between calls, so that calls
//! may run at the same time.
//!
//! ```
//! use tergyosul::{Condition, Party, Power, Ref, Sun, Trigger};
//!
//! let text = b"when lamp(\"Till\") turns on when timer(\"Close\") fires if sun is down";
//! let sheet = b"primary,0\nadapter,1\nlamp,1,7,Till\n";
//! let party = Party::of_sheet(sheet);
//! let mut words = [0; tergyosul::TOKEN_WORDS];
//!
//! let rule = tergyosul::read(text, sheet, party, &mut words).expect("the rule is well formed");
//! let till = Ref { adapter: 1, number: 7 };
//! assert_eq!(rule.triggers()[0], Trigger::LampTurns(till, Power::On));
//! assert_eq!(rule.conditions(), [Condition::SunIs(Sun::Down)]);
//!
//! // A name that the rule only carries is a range of the text's bytes.
//! let Trigger::TimerFires(name) = rule.triggers()[1] else { panic!("the second trigger is a timer's") };
//! assert_eq!(name.of(text), Some(&b"Close"[..]));
//!
//! let refusal = tergyosul::read(b"when lamp(\"Tills\") turns on", sheet, party, &mut words).unwrap_err();
//! assert_eq!((refusal.number, refusal.line, refusal.column), (31, 1, 11));
//! assert_eq!(refusal.to_string(), "1:11: no row of that kind has the name (refusal 31)");
//!
//! // What was read is written out, with numbers for the sheet's names.
//! let written = rule.written(text, sheet, party).expect("its adapter is listed");
//! assert_eq!(written.to_string(), "when lamp ( 7 , adapter = 1 ) turns on when timer ( \"Close\" ) fires if sun is down");
//! ```

#![no_std]
#![deny(unsafe_code, missing_docs)]

#[cfg(test)]
extern crate std;

#[allow(unsafe_code)]
mod boundary;
mod call;
mod chain;
mod days;
mod joined;
mod layout;
mod party;
mod refusal;
mod rows;
mod rule;
#[cfg(test)]
mod tests;
mod token;
mod written;

pub use call::Call;
pub use chain::{chains, next_chain, Chain, MOST_PIECES, VOCABULARY};
pub use days::{Day, Days};
pub use joined::{join, JoinRefusal, Joined, Text};
pub use party::{sheet_primary, Party};
pub use refusal::Refusal;
pub use rows::{convert_rows, write_rows, Rows, ROWS_LEAST_BYTES, ROWS_MOST_BYTES};
pub use rule::{
    Aggregate, Comparison, Condition, Crossing, Event, Hcl, InputRef, LightTarget, Name, Occupancy, Online, Operand,
    Override, Power, Reading, Ref, Rule, Selector, SolarEvent, Sun, TimeBound, Trigger, Value,
};
pub use token::{tokens, Token, RECORD_WORDS};
pub use written::{write, Written, LEAST_BYTES};

/// The length of the words of a rule ([`Rule::words`]), as `include/tergyosul.h` lays an answer out: nine rows of twelve.
pub const ANSWER_WORDS: usize = 108;

/// How many words a caller lends for the tokens of a text, at least: 1,024 records. With fewer [`read`], [`read_archive`],
/// [`read_shop`], [`join`] and [`lex`] give refusal 2.
pub const TOKEN_WORDS: usize = 1_024 * RECORD_WORDS;

/// The length of an answer of the library's `tergyosul_lex`.
const LEX_WORDS: usize = 4;

/// Reads a rule text with a name sheet, for a party with its own primary adapter, perhaps with the topics of earlier rules:
/// `call` is a [`Party`], or one [`with_topics`](Party::with_topics).
///
/// The records of the tokens go to `words`, from which [`tokens`] takes them; with refusals 1 to 4 and 53 these are left as
/// they are. What the words hold before plays no part. A primary adapter that is not the party's is refused with 53, and an
/// argument of `input(` that sets one already set with 63. A new topic where eight or more are lent or named earlier is
/// refused with 66. Where a day is read, a word that is no [`Day`]'s is refused with 50.
///
/// # Panics
///
/// If the linked library gives an answer outside the layout of `include/tergyosul.h`. The proved library gives none, so
/// that means that another one was linked.
pub fn read<'a>(text: &[u8], sheet: &[u8], call: impl Into<Call<'a>>, words: &mut [u32]) -> Result<Rule, Refusal> {
    let call = call.into();
    answered(|answer| boundary::read(text, sheet, call, words, answer))
}

/// Reads a rule text with a name sheet as the archive loader does: a repeated argument of `input(` replaces the earlier one.
/// Everything else is as with [`read`]: what that one does not refuse with 63 is answered alike.
///
/// ```
/// use tergyosul::{Event, Party, Ref, Selector, Trigger};
///
/// let text = b"when input(dev=3, dev=5, inst=0) is press";
/// let sheet = b"primary,0\n";
/// let party = Party::of_sheet(sheet);
/// let mut words = [0; tergyosul::TOKEN_WORDS];
///
/// let refusal = tergyosul::read(text, sheet, party, &mut words).unwrap_err();
/// assert_eq!((refusal.number, refusal.line, refusal.column), (63, 1, 19));
///
/// let rule = tergyosul::read_archive(text, sheet, party, &mut words)?;
/// let five = Ref { adapter: 0, number: 5 };
/// assert_eq!(rule.triggers(), [Trigger::InputEvent(Selector::Instance(five, 0), Event::Press)]);
/// # Ok::<(), tergyosul::Refusal>(())
/// ```
///
/// # Panics
///
/// As [`read`].
pub fn read_archive<'a>(text: &[u8], sheet: &[u8], call: impl Into<Call<'a>>, words: &mut [u32]) -> Result<Rule, Refusal> {
    let call = call.into();
    answered(|answer| boundary::read_archive(text, sheet, call, words, answer))
}

/// Reads a rule text with a name sheet under the shop profile: rules that shop staff may edit have only a safe part of the
/// language. On an accepted reading a reference to a lamp, group, device or input device by its number is refused with 57,
/// `broadcast` with 58 and a reading of `event` with 59, at the number or the word; the earliest place decides. Everything
/// else is as with [`read`]: what that one refuses is refused alike, and what is accepted here has the same lists there.
///
/// ```
/// use tergyosul::Party;
///
/// let sheet = b"primary,0\nlamp,1,7,Till\n";
/// let party = Party::of_sheet(sheet);
/// let mut words = [0; tergyosul::TOKEN_WORDS];
///
/// let named = b"when lamp(\"Till\") turns on";
/// let rule = tergyosul::read_shop(named, sheet, party, &mut words)?;
/// assert_eq!(rule, tergyosul::read(named, sheet, party, &mut words)?);
///
/// let refusal = tergyosul::read_shop(b"when lamp(7) turns on", sheet, party, &mut words).unwrap_err();
/// assert_eq!((refusal.number, refusal.line, refusal.column), (57, 1, 11));
/// # Ok::<(), tergyosul::Refusal>(())
/// ```
///
/// # Panics
///
/// As [`read`].
pub fn read_shop<'a>(text: &[u8], sheet: &[u8], call: impl Into<Call<'a>>, words: &mut [u32]) -> Result<Rule, Refusal> {
    let call = call.into();
    answered(|answer| boundary::read_shop(text, sheet, call, words, answer))
}

/// Lexes a text alone, and gives the count of its tokens. Their records go to `words`, as [`read`] writes them.
///
/// Questions 1, 2 and 4 are asked first, as [`read`] asks them; with these refusals `words` is left as it is. Then 10 to 19.
///
/// ```
/// let mut words = [0; tergyosul::TOKEN_WORDS];
/// let count = tergyosul::lex(b"when\n  every 5s", &mut words)?;
/// let last = tergyosul::tokens(&words).take(count).last().expect("there are three");
/// assert_eq!((last.line(), last.column(), last.number), (2, 9, 5_000));
/// # Ok::<(), tergyosul::Refusal>(())
/// ```
pub fn lex(text: &[u8], words: &mut [u32]) -> Result<usize, Refusal> {
    let mut answer = [0; LEX_WORDS];
    with_room(boundary::lex(text, words, &mut answer))?;
    let [number, line, column, count] = answer;
    if number != 0 {
        return Err(Refusal { number, line, column, detail: 0 });
    }
    Ok(count as usize)
}

/// What a call that reads answers: it writes the words, and gives the number.
fn answered(read: impl FnOnce(&mut [u32]) -> u32) -> Result<Rule, Refusal> {
    layout::rule(&answer_of(read)?)
}

/// The words of an answer that a call writes.
fn answer_of(call: impl FnOnce(&mut [u32]) -> u32) -> Result<[u32; ANSWER_WORDS], Refusal> {
    let mut answer = [0; ANSWER_WORDS];
    with_room(call(&mut answer))?;
    Ok(answer)
}

/// The arrays above have room for the answer, so the proved library never says that there is none. Another one's word for it
/// is a refusal with that number, not a rule without triggers.
fn with_room(number: u32) -> Result<(), Refusal> {
    if number == boundary::NO_ROOM {
        return Err(Refusal { number, line: 0, column: 0, detail: 0 });
    }
    Ok(())
}
