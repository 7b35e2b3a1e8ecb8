//! A run over many conversions: the second reader's answers are held to another way to convert, to what becomes of its own rows and to its answers with other
//! sheets, and a replay program to all of these.

use super::asked::{Given, KINDS};
use super::coverage::Coverage;
use super::{back, forward};
use crate::external::{External, Input};
use crate::held::{self, Held};
use crate::readers::{guard, guarded, past_question_3, Reader};
use crate::shrink::shrink_conversion;
use crate::writings::reread;
use cases::{write_conversion, Case, Conversion, Direction, List};
use std::io;

pub type Converter<'a> = &'a (dyn Fn(&Conversion) -> String + Sync);

pub struct Readers<'a> {
    /// What the second reader converts, and its calls.
    pub convert: Converter<'a>,
    pub call: Reader<'a>,
    pub replay: Option<External>,
}

/// What differed from the second reader's answer.
#[derive(Debug, Clone, Copy, PartialEq, Eq)]
pub enum Other {
    /// Another way to convert, with the second reader's calls.
    Way,
    /// What the rows that it made convert to: "With the same sheet, party and primary, rows made this way convert to the same list."
    Again,
    /// Its answer with another sheet that agrees for the party (document 02 §6).
    Beside,
    Replay,
    /// What the replay program makes of the rows that the second reader made.
    Replayed,
}

impl Other {
    pub fn name(self) -> &'static str {
        match self {
            Other::Way => "another way to convert",
            Other::Again => "what the rows convert to",
            Other::Beside => "the answer with a sheet that agrees for the party",
            Other::Replay => "the replay program",
            Other::Replayed => "what the replay program converts the rows to",
        }
    }
}

pub type Difference = held::Difference<Conversion, Other>;

/// The same conversion with another sheet, which agrees for the party. Its own is well formed.
pub fn beside(conversion: &Conversion) -> Conversion {
    Conversion { sheet: generate::beside(&conversion.call("")).sheet, ..conversion.clone() }
}

/// The answer of the other way.
pub fn by_way(conversion: &Conversion, forward: &forward::Way, back: &back::Way, call: &dyn Fn(&Case) -> String) -> String {
    let given = Given { conversion, call };
    match &conversion.direction {
        Direction::Forward { rows } => forward.convert(&given, rows),
        Direction::Back { size, lists } => back.convert(&given, *size, lists),
    }
}

/// The conversion of the rows that this answer to a `back` line has written.
fn of_written(conversion: &Conversion, answer: &str) -> Option<Conversion> {
    reread::bytes(answer).map(|rows| conversion.of_rows(rows))
}

/// What such a conversion must answer: the list itself.
fn of_list(conversion: &Conversion) -> Option<String> {
    let Direction::Back { lists, .. } = &conversion.direction else { return None };
    let rows = lists.used(List::Triggers);
    let line = |words: &[u32]| {
        let kind = KINDS.iter().find(|kind| kind.code == words[0])?;
        let word = (words[3] as usize).checked_sub(1).filter(|word| *word < 2)?;
        Some(kind.line(&words[1].to_string(), &words[2].to_string(), word) + "\n")
    };
    let lines: Option<String> = rows.iter().map(|row| line(&row.words)).collect();
    Some(format!("case {}\naccepted {} 0\n{}", conversion.id, rows.len(), lines.unwrap_or_default()))
}

impl Held for Readers<'_> {
    type Line = Conversion;
    type Other = Other;
    type Coverage = Coverage;

    const OTHERS: &'static [Other] = &[Other::Way, Other::Again, Other::Beside];
    const REPLAY: Other = Other::Replay;

    fn answer(&self, conversion: &Conversion) -> String {
        guard(|| (self.convert)(conversion))
    }

    fn other(&self, other: Other, conversion: &Conversion) -> Option<String> {
        let answer = self.answer(conversion);
        let again = |said: String, due: String| if said == due { answer.clone() } else { format!("{answer}converted again\n{said}") };
        match other {
            Other::Way => Some(guard(|| by_way(conversion, &forward::RIGHT, &back::RIGHT, &|case| guarded(self.call, case)))),
            Other::Again => Some(again(self.answer(&of_written(conversion, &answer)?), of_list(conversion)?)),
            Other::Beside => Held::beside(self, conversion, &answer).map(|beside| self.answer(&beside)),
            Other::Replay => Some(self.replay.as_ref()?.answer_to(conversion, write_conversion)),
            Other::Replayed => {
                let rows = of_written(conversion, &answer)?;
                Some(again(self.replay.as_ref()?.answer_to(&rows, write_conversion), self.answer(&rows)))
            }
        }
    }

    fn beside(&self, conversion: &Conversion, answer: &str) -> Option<Conversion> {
        past_question_3(answer).then(|| beside(conversion))
    }

    fn count(&self, coverage: &mut Coverage, conversion: &Conversion, answer: &str, beside: bool) {
        coverage.add(conversion, answer);
        coverage.beside += u64::from(beside);
    }

    fn replay(&self) -> Option<&External> {
        self.replay.as_ref()
    }

    fn write(input: &mut Input, conversion: &Conversion) -> io::Result<()> {
        write_conversion(input, conversion)
    }

    fn shrink(conversion: &Conversion, tries: usize, shows: &mut dyn FnMut(&Conversion) -> bool) -> Conversion {
        shrink_conversion(conversion, tries, shows)
    }

    fn is_slow(other: Other) -> bool {
        matches!(other, Other::Replay | Other::Replayed)
    }

    /// What the program converts the rows to.
    fn made_again(&self, replay: &External, conversions: &[Conversion], answers: &[String]) -> io::Result<Option<(usize, Other, String)>> {
        let written = conversions.iter().zip(answers).enumerate().filter_map(|(at, (line, answer))| Some((at, of_written(line, answer)?)));
        let (places, rows): (Vec<usize>, Vec<Conversion>) = written.unzip();
        let said = replay.answers_to(&rows, write_conversion)?;
        let different = (0..rows.len()).find(|&nth| said[nth] != self.answer(&rows[nth]));
        Ok(different.map(|nth| (places[nth], Other::Replayed, said[nth].clone())))
    }
}
