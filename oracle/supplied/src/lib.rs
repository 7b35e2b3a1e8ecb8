//! The supplied Rust, unmodified, answering cases of the replay format (docs/REPLAY.md).
//!
//! STAND-INS.md says which part of an answer comes from the supplied Rust and which from the code here.

include!(concat!(env!("OUT_DIR"), "/tree.rs"));

#[cfg(test)]
mod forms;
mod left_out;
mod messages;
mod places;
mod sheet;
mod shown;
mod tokens;
mod topics;

/// The supplied `lex` itself, as it stands, to be timed.
pub use crate::lexer::lex as supplied_lex;

use crate::cursor::Cursor;
use crate::left_out::Reached;
use crate::lexer::{Lexed, Pos};
use crate::sheet::{Names, Sheet};
use crate::tokens::Record;
use dali2rust_rules_model::{CompileError, Condition, RuleSet, Trigger};
use std::fmt::Write;
use std::str::Utf8Error;

/// The longest text that document 01 allows.
const MOST_TEXT_BYTES: usize = 16_384;

/// Why a text is not taken: the number, place and detail of document 01.
#[derive(Debug, Clone, Copy, PartialEq, Eq)]
pub(crate) struct Refusal {
    pub number: u32,
    pub line: u32,
    pub column: u32,
    pub detail: u32,
}

impl Refusal {
    fn at(number: u32, pos: Pos) -> Refusal {
        Refusal { number, line: pos.line, column: pos.column, detail: 0 }
    }
}

/// What the reader is to say of a case, behind its token records.
pub(crate) enum Verdict {
    Refused(Refusal),
    Accepted(Vec<Trigger>, Vec<Condition>),
    /// The supplied Rust has no answer that could be compared.
    OutsideTheDomain,
}

/// The text that the replay format orders for the case: its token records, then the refusal or the two lists.
///
/// Of the settings of a call the party, the primary and the lent topics count; what the supplied Rust does with repeated
/// arguments is the archive habit, and it has no profile. A case on which the supplied Rust would overflow, whose text it would parse with lent
/// topics that are not UTF-8, or on which it comes to a form with days, has the one line `outside the domain` instead.
pub fn answer(case: &cases::Case) -> String {
    let (records, verdict) = judged(case);
    let mut out = format!("case {}\n", case.id);
    if let Verdict::OutsideTheDomain = verdict {
        out += "outside the domain\n";
        return out;
    }
    for r in &records {
        line(&mut out, format_args!("token {} {} {} {} {} {}", r.kind, r.number, r.start, r.length, r.line, r.column));
    }
    out += "buffer kept\n";
    match verdict {
        Verdict::Refused(r) => {
            line(&mut out, format_args!("refused {} {} {} {}", r.number, r.line, r.column, r.detail));
        }
        Verdict::Accepted(triggers, conditions) => lists(&mut out, &triggers, &conditions),
        Verdict::OutsideTheDomain => unreachable!("answered above"),
    }
    out
}

/// Lexing alone: what the supplied `lex` gives, as records and a place. There is none where it would overflow.
pub fn lexing(text: &str) -> Option<cases::Lexing> {
    let read = tokens::read(text);
    let (number, line, column) = match read.end {
        tokens::End::Lexed(lexed) => (0, lexed.end.line, lexed.end.column),
        tokens::End::Refused(refusal) => (refusal.number, refusal.line, refusal.column),
        tokens::End::Overflow => return None,
    };
    let records = read.records.iter().map(Record::words).collect();
    Some(cases::Lexing { records, number, line, column })
}

fn line(out: &mut String, text: std::fmt::Arguments<'_>) {
    writeln!(out, "{text}").expect("a string takes any text");
}

fn lists(out: &mut String, triggers: &[Trigger], conditions: &[Condition]) {
    line(out, format_args!("accepted {} {}", triggers.len(), conditions.len()));
    for trigger in triggers {
        line(out, format_args!("T {}", shown::trigger(trigger)));
    }
    for condition in conditions {
        line(out, format_args!("C {}", shown::condition(condition)));
    }
}

/// The records that the call writes, and the verdict. Questions 1 to 4 and 53 write no record.
fn judged(case: &cases::Case) -> (Vec<Record>, Verdict) {
    let refused = |refusal| (Vec::new(), Verdict::Refused(refusal));
    let nowhere = |number| Refusal { number, line: 0, column: 0, detail: 0 };
    if case.text.len() > MOST_TEXT_BYTES {
        return refused(nowhere(1));
    }
    if case.words < cases::LEAST_WORDS {
        return refused(nowhere(2));
    }
    let sheet = match Sheet::read(&case.sheet) {
        Ok(sheet) => sheet,
        Err(line) => return refused(Refusal { number: 3, line, column: 0, detail: 0 }),
    };
    let text = match places::utf8(&case.text) {
        Ok(text) => text,
        Err(pos) => return refused(Refusal::at(4, pos)),
    };
    let Some(names) = sheet.names_for(case.party(), case.primary()) else { return refused(nowhere(53)) };
    let read = tokens::read(text);
    let verdict = match read.end {
        tokens::End::Refused(refusal) => Verdict::Refused(refusal),
        tokens::End::Overflow => Verdict::OutsideTheDomain,
        tokens::End::Lexed(lexed) => {
            topics::earlier(case.topics()).map_or(Verdict::OutsideTheDomain, |earlier| parsed(lexed, &names, &earlier))
        }
    };
    (read.records, verdict)
}

/// What is said once every token is read: nothing for a form with days that the supplied Rust comes to, 40 for a payload, else
/// what its two sections say, else 41 for a token behind them.
fn parsed(lexed: Lexed, names: &Names, earlier: &RuleSet) -> Verdict {
    match left_out::first_reached(&lexed, names, earlier) {
        Some(Reached::Days) => return Verdict::OutsideTheDomain,
        Some(Reached::Payload(is)) => return Verdict::Refused(Refusal::at(40, is)),
        None => {}
    }
    let mut cursor = Cursor::new(lexed, names);
    match parser::action::sections(&mut cursor, earlier) {
        Err(error) => Verdict::Refused(messages::refusal(&error)),
        Ok(_) if cursor.peek().is_some() => Verdict::Refused(Refusal::at(41, cursor.here())),
        Ok((triggers, conditions)) => Verdict::Accepted(triggers, conditions),
    }
}

/// Why a plain call takes nothing.
#[derive(Debug)]
pub enum Untaken {
    /// The sheet's first bad line.
    Sheet(u32),
    /// The primary is not the party's.
    Primary,
    Text(Utf8Error),
    /// The lent topics are not UTF-8.
    Topics,
    /// What the supplied Rust says.
    Rule(CompileError),
    /// A token is left behind both sections.
    Rest,
}

/// The sheet alone into the tables of a party's call, to be timed apart: this part is the driver's, not the supplied Rust's.
pub fn plain_sheet(sheet: &[u8], party: u8, primary: u8) -> Result<Names, Untaken> {
    let sheet = Sheet::read(sheet).map_err(Untaken::Sheet)?;
    sheet.names_for(party, primary).ok_or(Untaken::Primary)
}

/// The same of the lent topics, into a rule set.
pub fn plain_topics(topics: &[u8]) -> Result<RuleSet, Untaken> {
    topics::earlier(topics).ok_or(Untaken::Topics)
}

/// A whole call with nothing around it, to be timed: the sheet into its tables, the topics into a rule set, the text as
/// characters, the supplied `lex`, and its two sections up to the end of the tokens. Questions 1, 2 and 19 are not asked, and no
/// records are made.
pub fn plain_call(case: &cases::Case) -> Result<(Vec<Trigger>, Vec<Condition>), Untaken> {
    let names = plain_sheet(&case.sheet, case.party(), case.primary())?;
    let earlier = plain_topics(case.topics())?;
    let text = std::str::from_utf8(&case.text).map_err(Untaken::Text)?;
    let lexed = supplied_lex(text).map_err(Untaken::Rule)?;
    let mut cursor = Cursor::new(lexed, &names);
    let lists = parser::action::sections(&mut cursor, &earlier).map_err(Untaken::Rule)?;
    if cursor.peek().is_some() {
        return Err(Untaken::Rest);
    }
    Ok(lists)
}

/// The supplied files as they stand in docs/src, and as they were built, for the tests.
#[cfg(test)]
macro_rules! sources {
    ($($file:literal)*) => {
        pub(crate) const SOURCES: &[(&str, &str)] = &[$((
            include_str!(concat!(env!("OUT_DIR"), "/lang/", $file)),
            include_str!(concat!("../../../docs/src/crates/dali2rust-rules-lang/src/", $file)),
        )),*];
    };
}

#[cfg(test)]
sources! {
    "lexer.rs" "cursor.rs" "parser/mod.rs" "parser/condition.rs" "parser/expr.rs" "parser/refs.rs"
    "parser/timeval.rs" "parser/trigger.rs"
}

#[cfg(test)]
mod tests {
    #[test]
    fn the_supplied_files_are_built_unmodified() {
        assert!(crate::SOURCES.iter().all(|(built, supplied)| built == supplied));
    }

    #[test]
    fn lexing_alone_gives_records_and_a_place() {
        let lexing = |records: &[[u32; cases::RECORD]], number, line, column| {
            Some(cases::Lexing { records: records.to_vec(), number, line, column })
        };
        assert_eq!(crate::lexing("\"é\"\n5s"), lexing(&[[2, 0, 1, 2, 65_537], [5, 5_000, 5, 2, 131_073]], 0, 2, 3));
        assert_eq!(crate::lexing("a @"), lexing(&[[1, 0, 0, 1, 65_537]], 10, 1, 3));
        assert_eq!(crate::lexing("0.00000000000000000000s"), None);
    }
}
