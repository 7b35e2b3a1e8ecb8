//! A run over many cases: what is compared for each.

use crate::batches::{in_batches, Found};
use crate::features::Coverage;
use crate::layout;
use crate::readers::{past_question_3, refused_as_repeat, under_the_profile, Other, Readers};
use crate::reflowed::{reflow, Reflowed};
use crate::shrink::{shrink, shrink_text};
use cases::{Case, Habit};
use generate::Rng;
use std::io;

pub use crate::batches::Plan;

/// A case on which two readers differ.
#[derive(Debug, Clone)]
pub struct Difference {
    pub case: Case,
    pub other: Other,
    /// The other's answer, in the place where the difference was met.
    pub answer: String,
    /// Whether the difference shows on this case alone; if not, only after the cases before it.
    pub alone: bool,
    /// The reflowed text that got the other answer, if it is one.
    pub reflowed: Option<Vec<u8>>,
}

impl Difference {
    fn alone(case: Case, other: Other, answer: String) -> Difference {
        Difference { case, other, answer, alone: true, reflowed: None }
    }
}

pub type Outcome = Found<Coverage, Difference>;

/// Compares every case of the plan, and gives the difference with the lowest number if there is one.
pub fn run(plan: &Plan, readers: &Readers) -> io::Result<Outcome> {
    in_batches(plan, &|cases: &[Case], coverage: &mut Coverage| compare(cases, readers, coverage))
}

/// Compares the cases of one batch, in order. The replay program gets the sheets beside theirs too, and must give the same, and the
/// reflowed texts. A reflowed text with other tokens is a fault of the generator, and the run fails.
fn compare(cases: &[Case], readers: &Readers, coverage: &mut Coverage) -> io::Result<Option<Difference>> {
    let mut asked = Vec::with_capacity(cases.len() * 2);
    let mut answers = Vec::with_capacity(cases.len() * 2);
    for case in cases {
        let answer = readers.second(case);
        let (in_domain, found) = compare_habits(case, readers);
        coverage.add(case, &answer, in_domain);
        let beside = has_beside(case, &answer).then(|| generate::beside(case));
        if let Some(found) = found.or_else(|| compare_beside(case, &answer, beside.as_ref(), readers)) {
            return Ok(Some(found));
        }
        coverage.beside += u64::from(beside.is_some());
        for case in [case.clone()].into_iter().chain(beside) {
            asked.push(case);
            answers.push(answer.clone());
        }
        let Some(reflowed) = reflowed(case)? else { continue };
        let said = readers.second(&reflowed.case);
        if let Some(found) = compare_reflowed(case, &answer, &reflowed, &said) {
            return Ok(Some(found));
        }
        coverage.add_reflowed(&layout::sorts(case, &answer, &reflowed));
        asked.push(reflowed.case);
        answers.push(said);
    }
    let Some(replay) = &readers.replay else { return Ok(None) };
    let mut replayed = replay.answers(&asked)?;
    let Some(at) = (0..asked.len()).find(|&at| replayed[at] != answers[at]) else { return Ok(None) };
    let answer = std::mem::take(&mut replayed[at]);
    Ok(Some(isolate(&asked, at, answer, readers)))
}

/// A quarter of the cases are compared with the same call on a reflowed text, if their own passes questions 1 and 4 and the lexer.
fn reflowed(case: &Case) -> io::Result<Option<Reflowed>> {
    let chosen = Rng::new(case.id, 1).once_in(4);
    if chosen { reflow(case, 0).map_err(io::Error::other) } else { Ok(None) }
}

fn compare_reflowed(case: &Case, answer: &str, reflowed: &Reflowed, said: &str) -> Option<Difference> {
    let other = reflowed.carried_back(said);
    let text = Some(reflowed.case.text.clone());
    (other != answer).then(|| Difference { reflowed: text, ..Difference::alone(case.clone(), Other::Reflowed, other) })
}

/// Every sheet with party rows gets one beside it, and some of the others, which are all alike to party 0.
fn has_beside(case: &Case, answer: &str) -> bool {
    let shared = case.sheet.windows(7).any(|part| part == b"\nparty,");
    past_question_3(answer) && (shared || case.id % 8 == 0)
}

fn compare_beside(case: &Case, answer: &str, beside: Option<&Case>, readers: &Readers) -> Option<Difference> {
    let other = readers.second(beside?);
    (other != answer).then(|| Difference::alone(case.clone(), Other::Beside, other))
}

/// The archive call of a case against the supplied Rust, if the domain has it, its default call against its archive call, and its
/// shop call against its default call. Says whether the domain has it.
fn compare_habits(case: &Case, readers: &Readers) -> (bool, Option<Difference>) {
    let [archive, default, shop] = [Habit::Archive, Habit::Rule, Habit::Shop].map(|habit| case.with_habit(habit));
    let [old, new, shop_says] = [&archive, &default, &shop].map(|case| readers.second(case));
    let supplied = readers.other(Other::Supplied, &archive);
    let in_domain = supplied.is_some();
    let differs = |case, other, answer| (in_domain, Some(Difference::alone(case, other, answer)));
    if let Some(answer) = supplied.filter(|supplied| *supplied != old) {
        return differs(archive, Other::Supplied, answer);
    }
    if new != old && !refused_as_repeat(&new) {
        return differs(default, Other::Archive, old);
    }
    let due = under_the_profile(new, &shop_says);
    if due != shop_says {
        return differs(shop, Other::Default, due);
    }
    (in_domain, None)
}

/// The replay program differed at `at`. If it does not do so on that case alone, perhaps it does on a later one that
/// made it stop before its output was out.
fn isolate(cases: &[Case], at: usize, answer: String, readers: &Readers) -> Difference {
    let other = Other::Replay;
    let alone = cases[at..].iter().find(|case| readers.differs(other, case));
    match alone {
        Some(case) => {
            let answer = readers.other(other, case).unwrap_or_default();
            Difference::alone(case.clone(), other, answer)
        }
        None => Difference { alone: false, ..Difference::alone(cases[at].clone(), other, answer) },
    }
}

/// The difference on the smallest case found.
pub fn smallest(difference: &Difference, readers: &Readers) -> Difference {
    let other = difference.other;
    if !difference.alone {
        return difference.clone();
    }
    // A process for each try is slow, so the replay program gets fewer; and so are several layouts.
    let tries = match other {
        Other::Replay => 5_000,
        Other::Reflowed => 20_000,
        _ => 200_000,
    };
    let case = shrink(&difference.case, tries, &mut |case| readers.differs(other, case));
    if other == Other::Reflowed {
        return smallest_reflowed(difference, case, tries, readers);
    }
    let answer = readers.other(other, &case).unwrap_or_default();
    Difference { case, answer, ..difference.clone() }
}

/// The difference on this case, with a reflowed text that is small too. If none of the layouts tried shows it, it stays as it was.
fn smallest_reflowed(difference: &Difference, case: Case, tries: usize, readers: &Readers) -> Difference {
    let Some((found, _)) = readers.unlike_reflowed(&case) else { return difference.clone() };
    let own = readers.second(&case);
    let said = |text: &[u8]| Reflowed::of(&case, text.to_vec()).map(|reflowed| readers.carried_back(&reflowed));
    let text = shrink_text(&found.case.text, tries, &mut |text| said(text).is_some_and(|answer| answer != own));
    let answer = said(&text).unwrap_or_default();
    Difference { case, answer, reflowed: Some(text), ..difference.clone() }
}
