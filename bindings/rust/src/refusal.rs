//! Why a text is not taken.

use crate::boundary::NO_ROOM;
use core::fmt;

/// A refusal: its number, its place and a detail. `docs/MANUAL.md` has an example of each and says what to do.
#[derive(Debug, Clone, Copy, PartialEq, Eq, Hash)]
pub struct Refusal {
    /// 1 to 4, 10 to 13, 15 to 41 or 50 to 67.
    pub number: u32,
    /// From 1, or 0 where there is no place. For number 3 it is the sheet's line, for 55, 56, 61 and 62 an entry of the lists,
    /// the conditions behind the triggers, for 60 and all others of [`convert_rows`](crate::convert_rows) a row, else the
    /// text's line.
    pub line: u32,
    /// From 1, in characters; 0 for the numbers 1 to 3, 51 to 56, 60 to 62 and 67, and for a row.
    pub column: u32,
    /// With 32 an adapter, with 33 and 34 a count of rows, else 0.
    pub detail: u32,
}

impl Refusal {
    /// What the number means, in a few words.
    pub const fn meaning(&self) -> &'static str {
        match self.number {
            1 => "the text has more than 16384 bytes",
            2 => "fewer than 5120 words were lent for the tokens",
            3 => "the sheet is not well formed",
            4 => "the text is not UTF-8",
            10 => "no token begins here",
            11 => "a string is not closed on its line",
            12 => "a number is too large",
            13 => "this is no time of day",
            15 => "a decimal has more than four places",
            16 => "there is no such unit",
            17 => "a duration is too long",
            18 => "a duration is no whole number of milliseconds",
            19 => "the text has more than 1024 tokens",
            20 => "something else belongs here",
            21 => "the word is none of the choices",
            22 => "a number is out of range",
            23 => "a name is empty",
            24 => "a name or text is too long",
            25 => "the adapter is not listed",
            26 => "a third argument has no name",
            27 => "group stands together with dev or inst",
            28 => "there is neither dev nor group",
            29 => "dev stands without inst",
            30 => "this form needs one instance",
            31 => "no row of that kind has the name",
            32 => "the name stands on another adapter",
            33 => "several rows on one adapter have the name",
            34 => "several adapters have the name",
            35 => "a period is below one second",
            36 => "a solar offset is too long",
            37 => "there are more than four triggers",
            38 => "there is no trigger",
            39 => "there are more than four conditions",
            40 => "`is` behind a topic is left out",
            41 => "the text goes on after the rule",
            50 => "the word is no day",
            51 => "the conditions of the two rules differ",
            52 => "the two rules have more than four triggers",
            53 => "the primary adapter is not the party's",
            54 => "too few bytes were lent for what is written",
            55 => "no text gives such lists",
            56 => "an adapter is not listed, or broadcast is not on the primary one",
            57 => "the shop profile takes a name here, no number",
            58 => "the shop profile has no broadcast",
            59 => "the shop profile has no reading of event",
            60 => "one to four well-formed rows belong here",
            61 => "no rows say such a list",
            62 => "the sheet has no name for it that a row can have",
            63 => "an argument is given a second time",
            64 => "a topic is empty, or a character of it is forbidden",
            65 => "a topic has more than 48 bytes",
            66 => "eight other topics are named already",
            67 => "the start is no chain of the list",
            NO_ROOM => "there is no room for the answer",
            _ => "the number is not known",
        }
    }
}

impl fmt::Display for Refusal {
    fn fmt(&self, f: &mut fmt::Formatter<'_>) -> fmt::Result {
        match *self {
            Refusal { line: 0, .. } => {}
            Refusal { number: 3, line, .. } => write!(f, "sheet line {line}: ")?,
            Refusal { number: 55 | 56 | 61 | 62, line, .. } => write!(f, "entry {line}: ")?,
            // A text's columns begin at 1.
            Refusal { line, column: 0, .. } => write!(f, "row {line}: ")?,
            Refusal { line, column, .. } => write!(f, "{line}:{column}: ")?,
        }
        f.write_str(self.meaning())?;
        match *self {
            Refusal { number: 32, detail, .. } => write!(f, ", adapter {detail}")?,
            Refusal { number: 33 | 34, detail, .. } => write!(f, ", {detail} rows")?,
            _ => {}
        }
        write!(f, " (refusal {})", self.number)
    }
}

impl core::error::Error for Refusal {}
