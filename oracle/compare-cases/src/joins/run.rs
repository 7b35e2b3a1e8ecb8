//! A run over many joins: the second reader's joins are held to its own calls on both texts and to its joins on other sheets, and a replay
//! program to them.

use super::calls::by_calls;
use super::coverage::Coverage;
use crate::external::{External, Input};
use crate::held::{self, Held};
use crate::readers::{guard, guarded, Reader};
use crate::shrink::shrink_join;
use cases::{write_join, Join};
use std::io;

pub type Joining<'a> = &'a (dyn Fn(&Join) -> String + Sync);

pub struct Readers<'a> {
    /// The second reader's joins, and its calls.
    pub join: Joining<'a>,
    pub call: Reader<'a>,
    pub replay: Option<External>,
}

/// What differed from the second reader's join.
#[derive(Debug, Clone, Copy, PartialEq, Eq)]
pub enum Other {
    /// What its calls on both texts come to: the first, and then the second behind the first's topics.
    Calls,
    /// Its join on another sheet that agrees for the party (document 02 §6).
    Beside,
    Replay,
}

impl Other {
    pub fn name(self) -> &'static str {
        match self {
            Other::Calls => "what the calls on both texts say",
            Other::Beside => "the join on a sheet that agrees for the party",
            Other::Replay => "the replay program",
        }
    }
}

pub type Difference = held::Difference<Join, Other>;

/// The same join on another sheet, which agrees for the party. Its own is well formed.
pub fn beside(join: &Join) -> Join {
    Join { sheet: generate::beside(&join.call(0)).sheet, ..join.clone() }
}

impl Held for Readers<'_> {
    type Line = Join;
    type Other = Other;
    type Coverage = Coverage;

    const OTHERS: &'static [Other] = &[Other::Calls, Other::Beside];
    const REPLAY: Other = Other::Replay;

    fn answer(&self, join: &Join) -> String {
        guard(|| (self.join)(join))
    }

    fn other(&self, other: Other, join: &Join) -> Option<String> {
        match other {
            Other::Calls => Some(guard(|| by_calls(join, &|case| guarded(self.call, case)))),
            Other::Beside => Held::beside(self, join, &self.answer(join)).map(|beside| self.answer(&beside)),
            Other::Replay => Some(self.replay.as_ref()?.answer_to(join, write_join)),
        }
    }

    fn beside(&self, join: &Join, answer: &str) -> Option<Join> {
        past_question_3(answer).then(|| beside(join))
    }

    fn count(&self, coverage: &mut Coverage, join: &Join, answer: &str, beside: bool) {
        coverage.add(join, answer);
        coverage.beside += u64::from(beside);
    }

    fn replay(&self) -> Option<&External> {
        self.replay.as_ref()
    }

    fn write(input: &mut Input, join: &Join) -> io::Result<()> {
        write_join(input, join)
    }

    fn shrink(join: &Join, tries: usize, shows: &mut dyn FnMut(&Join) -> bool) -> Join {
        shrink_join(join, tries, shows)
    }

    fn is_slow(other: Other) -> bool {
        other == Other::Replay
    }
}

/// Whether an answer shows that the sheet is accepted.
fn past_question_3(answer: &str) -> bool {
    !["1", "2", "3"].iter().any(|number| answer.contains(&format!("\nrefused 1 {number} ")))
}
