//! A run over many lists to be written: what the second reader writes is held to another way to write, to what it and the supplied Rust read from
//! its text and to what it writes with other sheets, and a replay program to all of these.

use super::coverage::Coverage;
use super::reread::{call, reread};
use super::way::{Given, RIGHT};
use crate::external::{External, Input};
use crate::held::{self, Held};
use crate::readers::{guard, guarded, past_question_3, Reader};
use crate::shrink::shrink_writing;
use cases::{write_writing, Case, Flat, Habit, Writing};
use std::io;

pub type Writer<'a> = &'a (dyn Fn(&Writing) -> String + Sync);

pub struct Readers<'a> {
    /// What the second reader writes, its calls, and the lists of these.
    pub write: Writer<'a>,
    pub call: Reader<'a>,
    pub read: &'a (dyn Fn(&Case) -> Option<Flat> + Sync),
    pub in_domain: &'a (dyn Fn(&Case) -> bool + Sync),
    pub supplied: Reader<'a>,
    pub replay: Option<External>,
}

/// What differed from the second reader's answer.
#[derive(Debug, Clone, Copy, PartialEq, Eq)]
pub enum Other {
    /// Another way to write, with the second reader's calls.
    Way,
    /// The lists that the second reader reads from the text that it wrote.
    Reread,
    /// The supplied Rust's call on that text, if the domain has it.
    Supplied,
    /// Its answer with another sheet that agrees for the party (document 02 §6).
    Beside,
    Replay,
    /// The replay program's call on the text that the second reader wrote.
    Replayed,
}

impl Other {
    pub fn name(self) -> &'static str {
        match self {
            Other::Way => "another way to write",
            Other::Reread => "what is read from the written text",
            Other::Supplied => "what the supplied Rust reads from the written text",
            Other::Beside => "the answer with a sheet that agrees for the party",
            Other::Replay => "the replay program",
            Other::Replayed => "what the replay program reads from the written text",
        }
    }
}

pub type Difference = held::Difference<Writing, Other>;

/// The same lists with another sheet, which agrees for the party. Their own is well formed.
pub fn beside(writing: &Writing) -> Writing {
    Writing { sheet: generate::beside(&writing.call("")).sheet, ..writing.clone() }
}

impl Readers<'_> {
    /// The archive call on the text that an answer says was written, if the supplied Rust can be held to it.
    fn in_the_domain(&self, writing: &Writing, answer: &str) -> Option<Case> {
        call(writing, answer).map(|call| call.with_habit(Habit::Archive)).filter(|call| (self.in_domain)(call))
    }

    /// The answer itself if this is what the second reader says to the call, else with what was read.
    fn read_by(&self, answer: String, call: &Case, read: String) -> String {
        if read == guarded(self.call, call) { answer } else { format!("{answer}read back\n{read}") }
    }
}

impl Held for Readers<'_> {
    type Line = Writing;
    type Other = Other;
    type Coverage = Coverage;

    const OTHERS: &'static [Other] = &[Other::Way, Other::Reread, Other::Supplied, Other::Beside];
    const REPLAY: Other = Other::Replay;

    fn answer(&self, writing: &Writing) -> String {
        guard(|| (self.write)(writing))
    }

    fn other(&self, other: Other, writing: &Writing) -> Option<String> {
        let answer = self.answer(writing);
        match other {
            Other::Way => Some(guard(|| RIGHT.write(&Given { writing, call: &|case| guarded(self.call, case) }))),
            Other::Reread => reread(writing, &answer, &self.read),
            Other::Supplied => {
                let call = self.in_the_domain(writing, &answer)?;
                Some(self.read_by(answer, &call, guarded(self.supplied, &call)))
            }
            Other::Beside => Held::beside(self, writing, &answer).map(|beside| self.answer(&beside)),
            Other::Replay => Some(self.replay.as_ref()?.answer_to(writing, write_writing)),
            Other::Replayed => {
                let call = call(writing, &answer)?;
                let read = self.replay.as_ref()?.answer(&call);
                Some(self.read_by(answer, &call, read))
            }
        }
    }

    fn beside(&self, writing: &Writing, answer: &str) -> Option<Writing> {
        past_question_3(answer).then(|| beside(writing))
    }

    fn count(&self, coverage: &mut Coverage, writing: &Writing, answer: &str, beside: bool) {
        coverage.add(writing, answer);
        coverage.in_domain += u64::from(self.in_the_domain(writing, answer).is_some());
        coverage.beside += u64::from(beside);
    }

    fn replay(&self) -> Option<&External> {
        self.replay.as_ref()
    }

    fn write(input: &mut Input, writing: &Writing) -> io::Result<()> {
        write_writing(input, writing)
    }

    fn shrink(writing: &Writing, tries: usize, shows: &mut dyn FnMut(&Writing) -> bool) -> Writing {
        shrink_writing(writing, tries, shows)
    }

    fn is_slow(other: Other) -> bool {
        matches!(other, Other::Replay | Other::Replayed)
    }

    /// What the program reads from the written texts.
    fn made_again(&self, replay: &External, writings: &[Writing], answers: &[String]) -> io::Result<Option<(usize, Other, String)>> {
        let written = writings.iter().zip(answers).enumerate().filter_map(|(at, (writing, answer))| Some((at, call(writing, answer)?)));
        let (places, calls): (Vec<usize>, Vec<Case>) = written.unzip();
        let read = replay.answers(&calls)?;
        let different = (0..calls.len()).find(|&nth| read[nth] != guarded(self.call, &calls[nth]));
        Ok(different.map(|nth| (places[nth], Other::Replayed, read[nth].clone())))
    }
}
