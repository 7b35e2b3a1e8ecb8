//! A second reader of document 01 with the requests of document 02 that have landed, in plain Rust and written from those
//! documents alone, for the comparison runs.

mod buffer;
mod chains;
mod conditions;
mod convert;
mod days;
mod durations;
mod flat;
mod join;
mod lexer;
mod model;
mod print;
mod profile;
mod reader;
mod references;
mod refusal;
mod sections;
mod sheet;
mod topics;
mod triggers;
mod values;
mod write;

pub use chains::{chains, next};
pub use convert::convert;
pub use flat::{flat_of_call, flat_of_join};
pub use join::join;
pub use write::write;

use buffer::Buffer;
use cases::{Case, Habit, Lexing, LEAST_WORDS};
use model::Lists;
use reader::{Given, Read, Reader, Repeats};
use refusal::{Place, Refusal};
use sheet::{Sheet, View};
use topics::Topics;

const MOST_TEXT: usize = 16_384;

/// What one call leaves behind.
struct Outcome<'a> {
    buffer: Buffer,
    result: Read<Lists<'a>>,
    /// Whether lexing read a duration that document 01's first 17 refuses.
    formerly_17: bool,
    /// Whether parsing came to a form with days.
    met_days: bool,
}

/// The answer to a case, in the replay format.
pub fn answer(case: &Case) -> String {
    let outcome = read(case);
    print::answer(case.id, &outcome.buffer, &outcome.result)
}

/// Document 01's domain of the comparison: "accepted sheets, texts past questions 1 to 4 and 19, no duration of 20 or
/// more fractional digits, and no text on which the Rust reaches a left-out form"; less, by document 02 §2, "texts with a
/// duration that the old first 17 refuses", whatever is answered now; and by §11 "the Rust comparison runs on the archive
/// call". By §6 the Rust's resolver gets the party's rows and the call's primary, "in calls whose primary is the party's": not
/// for 53. By §12 "lent topics in UTF-8 form the reference's rule set": not others. A payload is a left-out form: 40. By §1 texts
/// with days "stay outside the domain, as a difference": those on which `on` behind `at` and its time or sun, or the condition `day`,
/// is reached, whatever is answered.
pub fn in_domain(case: &Case) -> bool {
    if case.habit() != Habit::Archive || std::str::from_utf8(case.topics()).is_err() {
        return false;
    }
    let outcome = read(case);
    let asked_of_both = |refusal: &Refusal| !matches!(refusal.number, 1..=4 | 19 | 40 | 53);
    !outcome.formerly_17 && !outcome.met_days && outcome.result.as_ref().err().is_none_or(asked_of_both)
}

/// Whether the lexer reads a duration in this text that document 01's first 17 refuses.
pub fn formerly_17(text: &str) -> bool {
    lexer::lex(text).formerly_17
}

/// Lexing alone: questions 1, 2, 4 and 10 to 19. With it, whether the supplied Rust must give the same: not for 1, 2, 4 and
/// 19, nor where a duration was read that document 01's first 17 refuses.
pub fn lexing(text: &[u8], words: usize) -> (Lexing, bool) {
    if let Err(refusal) = room(text, words) {
        return (lexing_with(Vec::new(), refusal.number, refusal.place), false);
    }
    let text = match well_formed(text) {
        Ok(text) => text,
        Err(place) => return (lexing_with(Vec::new(), 4, place), false),
    };
    let lexed = lexer::lex(text);
    let records = lexed.tokens.iter().map(buffer::record).collect();
    let (number, place) = lexed.end.map_or_else(|refusal| (refusal.number, refusal.place), |end| (0, end));
    (lexing_with(records, number, place), number != 19 && !lexed.formerly_17)
}

fn lexing_with(records: Vec<[u32; cases::RECORD]>, number: u32, place: Place) -> Lexing {
    Lexing { records, number, line: place.line, column: place.column }
}

/// One call.
fn read(case: &Case) -> Outcome<'_> {
    read_behind(case, Topics::lent(case.topics()))
}

/// One call behind these topics: the questions 1 to 4 and 53, the lexing of the whole text, then the parsing, then the profile if the
/// call has it.
fn read_behind<'a>(case: &'a Case, topics: Topics<'a>) -> Outcome<'a> {
    let mut buffer = Buffer::new(case.words);
    let (view, text) = match admit(case, &buffer) {
        Ok(admitted) => admitted,
        Err(refusal) => return Outcome { buffer, result: Err(refusal), formerly_17: false, met_days: false },
    };
    let lexed = lexer::lex(text);
    buffer.write(&lexed.tokens);
    let given = Given { sheet: view, topics, repeats: repeats(case) };
    let formerly_17 = lexed.formerly_17;
    let end = match lexed.end {
        Ok(end) => end,
        Err(refusal) => return Outcome { buffer, result: Err(refusal), formerly_17, met_days: false },
    };
    let mut reader = Reader::new(text, lexed.tokens, end, given);
    let result = lists(case.habit(), &mut reader);
    Outcome { buffer, result, formerly_17, met_days: reader.met_days }
}

/// Both lists. The profile of the shop call is judged "on an accepted reading", document 02 §9.
fn lists<'a>(habit: Habit, reader: &mut Reader<'a>) -> Read<Lists<'a>> {
    let lists = reader.sections()?;
    match reader.left_out.earliest() {
        Some(refusal) if habit == Habit::Shop => Err(refusal),
        _ => Ok(lists),
    }
}

/// "By default a repeat is now turned away; the archive loader keeps a call with the old habit", document 02 §11.
fn repeats(case: &Case) -> Repeats {
    match case.habit() {
        Habit::Archive => Repeats::Replace,
        Habit::Rule | Habit::Shop => Repeats::Refused,
    }
}

/// The questions 1 to 4, in this order; then "it refuses a primary that is not the party's with 53, at 0:0, after question 4",
/// document 02 §6.
fn admit<'a>(case: &'a Case, buffer: &Buffer) -> Read<(View<'a>, &'a str)> {
    room(&case.text, buffer.len())?;
    let sheet = well_formed_sheet(&case.sheet)?;
    let text = well_formed(&case.text).map_err(|place| Refusal::new(4, place))?;
    let view = seen(&sheet, case.party(), case.primary())?;
    Ok((view, text))
}

/// Question 3.
fn well_formed_sheet(bytes: &[u8]) -> Read<Sheet<'_>> {
    sheet::read(bytes).map_err(|line| Refusal::new(3, Place { line, column: 0 }))
}

/// 53.
fn seen<'a>(sheet: &Sheet<'a>, party: u8, primary: u8) -> Read<View<'a>> {
    sheet.seen_by(party.into(), primary.into()).ok_or(Refusal::new(53, Place::NONE))
}

/// The questions 1 and 2; "the buffer at least 5,120 (question 2)", document 02 §5.
fn room(text: &[u8], words: usize) -> Read<()> {
    if text.len() > MOST_TEXT {
        return Err(Refusal::new(1, Place::NONE));
    }
    if words < LEAST_WORDS {
        return Err(Refusal::new(2, Place::NONE));
    }
    Ok(())
}

/// The text, or the first place where no UTF-8 sequence begins, counted in characters.
fn well_formed(bytes: &[u8]) -> Result<&str, Place> {
    std::str::from_utf8(bytes).map_err(|error| {
        let before = String::from_utf8_lossy(&bytes[..error.valid_up_to()]);
        before.chars().fold(Place::FIRST, Place::after)
    })
}

#[cfg(test)]
mod utf8_tests;
