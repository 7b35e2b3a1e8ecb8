//! The readers that are compared, and the comparison of one case.

use crate::external::External;
use crate::profile::refused_by_profile;
use crate::reflowed::{reflow, Reflowed};
use crate::tokens::refusal;
use cases::{Case, Habit};
use std::cell::Cell;
use std::panic::{self, AssertUnwindSafe};

/// How many layouts of one text are tried while a difference is made small.
const ATTEMPTS: u64 = 12;

pub type Reader<'a> = &'a (dyn Fn(&Case) -> String + Sync);

/// The second reader answers every case; the supplied one is held to it inside the domain, the replay program, if
/// there is one, everywhere. The second reader's default call is held to its own archive call, its shop call to its default call,
/// its call on one sheet to the same call on another that agrees for the party, and its call on one text to the same call on another
/// with the same tokens.
pub struct Readers<'a> {
    pub second: Reader<'a>,
    pub in_domain: &'a (dyn Fn(&Case) -> bool + Sync),
    pub supplied: Reader<'a>,
    pub replay: Option<External>,
}

/// The reader that differed from the second one.
#[derive(Debug, Clone, Copy, PartialEq, Eq)]
pub enum Other {
    Supplied,
    Replay,
    /// The second reader's archive call. "The archive loader keeps a call with the old habit, unchanged" (document 02
    /// §11): where the default call's answer is not 63, it is the archive call's.
    Archive,
    /// The second reader's default call. "What the profile accepts is what the full reader accepts, less those forms, with equal
    /// lists" (document 02 §9): where the shop call's answer is not 57 to 59, it is the default call's; where it is, the default
    /// call accepts and leaves the same records.
    Default,
    /// The second reader's call on another sheet. "For two accepted sheets that agree on which adapters are the party's, and on
    /// those adapters' rows in their order, the party's call gives the same answer" (document 02 §6).
    Beside,
    /// The second reader's call on another text with the same tokens, which gets "equal lists, names compared by bytes, or the same
    /// refusal number and detail at the corresponding token or at both ends (2, 3 and 53 at the same place)" (document 02 §14).
    Reflowed,
}

impl Other {
    pub fn name(self) -> &'static str {
        match self {
            Other::Supplied => "the supplied Rust",
            Other::Replay => "the replay program",
            Other::Archive => "the archive call",
            Other::Default => "the default call",
            Other::Beside => "the call on a sheet that agrees for the party",
            Other::Reflowed => "the call on the reflowed text, with the places of the first one,",
        }
    }
}

thread_local! {
    /// Whether a panic on this thread is a reader's, and so an answer rather than a fault of the comparison.
    static GUARDED: Cell<bool> = const { Cell::new(false) };
}

/// Keeps the panics of readers off the terminal; they count as answers.
pub fn quiet_panics() {
    let usual = panic::take_hook();
    panic::set_hook(Box::new(move |info| {
        if !GUARDED.get() {
            usual(info);
        }
    }));
}

/// A reader's answer, or the line `panicked`.
pub fn guarded(reader: Reader, case: &Case) -> String {
    guard(|| reader(case))
}

/// The same of any answer.
pub fn guard(answer: impl FnOnce() -> String) -> String {
    let before = GUARDED.replace(true);
    let answer = panic::catch_unwind(AssertUnwindSafe(answer));
    GUARDED.set(before);
    answer.unwrap_or_else(|_| "panicked\n".to_string())
}

pub fn refused_as_repeat(answer: &str) -> bool {
    matches!(refusal(answer), Some(("63", _)))
}

/// What the shop call must say whose answer is given, by what the default call says: the same, but with a refusal of the profile in
/// the place of the lists.
pub fn under_the_profile(default: String, shop: &str) -> String {
    match (default.split_once("accepted "), shop.split_once("refused ")) {
        (Some((records, _)), Some((_, refusal))) if refused_by_profile(shop) => format!("{records}refused {refusal}"),
        _ => default,
    }
}

/// Whether the answer shows that the sheet is accepted.
pub fn past_question_3(answer: &str) -> bool {
    !matches!(refusal(answer), Some(("1" | "2" | "3", _)))
}

impl Readers<'_> {
    pub fn second(&self, case: &Case) -> String {
        guarded(self.second, case)
    }

    pub fn in_domain(&self, case: &Case) -> bool {
        (self.in_domain)(case)
    }

    /// The other reader's answer to this case alone; nothing where it need not answer as the second reader does.
    pub fn other(&self, other: Other, case: &Case) -> Option<String> {
        match other {
            Other::Supplied => self.in_domain(case).then(|| guarded(self.supplied, case)),
            Other::Replay => Some(self.replay.as_ref()?.answer(case)),
            Other::Archive => {
                let bound = case.habit() == Habit::Rule && !refused_as_repeat(&self.second(case));
                bound.then(|| self.second(&case.with_habit(Habit::Archive)))
            }
            Other::Default => (case.habit() == Habit::Shop).then(|| {
                under_the_profile(self.second(&case.with_habit(Habit::Rule)), &self.second(case))
            }),
            Other::Beside => {
                let accepted = past_question_3(&self.second(case));
                accepted.then(|| self.second(&generate::beside(case)))
            }
            Other::Reflowed => self.unlike_reflowed(case).map(|(_, answer)| answer),
        }
    }

    /// The answer to the call on a reflowed text, with the case's own places.
    pub fn carried_back(&self, reflowed: &Reflowed) -> String {
        reflowed.carried_back(&self.second(&reflowed.case))
    }

    /// A reflowed text, of a few that are tried, on which the call says something else than on the case, and what it says. A text that
    /// the generator got wrong is none.
    pub fn unlike_reflowed(&self, case: &Case) -> Option<(Reflowed, String)> {
        let own = self.second(case);
        let tried = (0..ATTEMPTS).filter_map(|attempt| reflow(case, attempt).ok().flatten());
        let mut answered = tried.map(|reflowed| {
            let answer = self.carried_back(&reflowed);
            (reflowed, answer)
        });
        answered.find(|(_, answer)| *answer != own)
    }

    pub fn differs(&self, other: Other, case: &Case) -> bool {
        self.other(other, case).is_some_and(|answer| answer != self.second(case))
    }
}
