//! A run over many lines of one sort: what the second reader answers is held to other ways to come to it, and a replay program to it.

use crate::batches::{in_batches, Counts, Found, Plan};
use crate::external::{External, Input};
use std::io;

/// The readers of one sort of line.
pub trait Held: Sync {
    type Line: Clone + Sync;
    /// What an answer can be held to.
    type Other: Copy + 'static;
    type Coverage: Counts;

    /// Those that need no replay program, in the order in which they are asked, and the program's answer to the line.
    const OTHERS: &'static [Self::Other];
    const REPLAY: Self::Other;

    /// The second reader's answer.
    fn answer(&self, line: &Self::Line) -> String;
    /// What the answer must also have been; nothing where there is nothing to hold it to.
    fn other(&self, other: Self::Other, line: &Self::Line) -> Option<String>;
    /// The same line with another sheet that agrees for the party (document 02 §6), if the answer shows that its own is accepted.
    fn beside(&self, line: &Self::Line, answer: &str) -> Option<Self::Line>;
    fn count(&self, coverage: &mut Self::Coverage, line: &Self::Line, answer: &str, beside: bool);
    fn replay(&self) -> Option<&External>;
    fn write(input: &mut Input, line: &Self::Line) -> io::Result<()>;
    /// The line as small as it gets with `shows` true of it, which is asked at most `tries` times.
    fn shrink(line: &Self::Line, tries: usize, shows: &mut dyn FnMut(&Self::Line) -> bool) -> Self::Line;
    /// Whether a process is run for each try.
    fn is_slow(other: Self::Other) -> bool;

    /// Of what these answers have written, the first from which the replay program makes something else than the second reader: its place, and
    /// what that is and comes to.
    fn made_again(&self, _: &External, _: &[Self::Line], _: &[String]) -> io::Result<Option<(usize, Self::Other, String)>> {
        Ok(None)
    }

    fn differs(&self, other: Self::Other, line: &Self::Line) -> bool {
        self.other(other, line).is_some_and(|answer| answer != self.answer(line))
    }
}

/// A line on which two readers differ.
#[derive(Debug, Clone)]
pub struct Difference<L, O> {
    pub line: L,
    pub other: O,
    pub answer: String,
    /// Whether the difference shows on this line alone; if not, only after those before it.
    pub alone: bool,
}

type Different<H> = Difference<<H as Held>::Line, <H as Held>::Other>;
type Outcome<H> = Found<<H as Held>::Coverage, Different<H>>;

/// All lines of the plan; gives the difference with the lowest number if there is one.
pub fn run<H: Held>(plan: &Plan<H::Line>, readers: &H) -> io::Result<Outcome<H>>
where
    Different<H>: Send,
{
    in_batches(plan, &|lines: &[H::Line], coverage: &mut H::Coverage| compare(lines, readers, coverage))
}

/// The lines of one batch, in order. The replay program gets them with the sheets beside theirs too, and must give the same.
fn compare<H: Held>(lines: &[H::Line], readers: &H, coverage: &mut H::Coverage) -> io::Result<Option<Different<H>>> {
    let (mut asked, mut answers) = (Vec::new(), Vec::new());
    for line in lines {
        let answer = readers.answer(line);
        for &other in H::OTHERS {
            let said = readers.other(other, line);
            if let Some(said) = said.filter(|said| *said != answer) {
                return Ok(Some(Difference { line: line.clone(), other, answer: said, alone: true }));
            }
        }
        let beside = readers.beside(line, &answer);
        readers.count(coverage, line, &answer, beside.is_some());
        for line in [line.clone()].into_iter().chain(beside) {
            asked.push(line);
            answers.push(answer.clone());
        }
    }
    let Some(replay) = readers.replay() else { return Ok(None) };
    let replayed = replay.answers_to(&asked, H::write)?;
    if let Some(at) = (0..asked.len()).find(|&at| replayed[at] != answers[at]) {
        return Ok(Some(isolate(H::REPLAY, &asked[at..], &replayed[at], readers)));
    }
    let again = readers.made_again(replay, &asked, &answers)?;
    Ok(again.map(|(at, other, answer)| isolate(other, &asked[at..], &answer, readers)))
}

/// The replay program differed at the first of these. If it does not do so on that line alone, perhaps it does on a later one that made it stop
/// before its output was out.
fn isolate<H: Held>(other: H::Other, lines: &[H::Line], answer: &str, readers: &H) -> Different<H> {
    match lines.iter().find(|line| readers.differs(other, line)) {
        Some(line) => Difference { line: line.clone(), other, answer: readers.other(other, line).unwrap_or_default(), alone: true },
        None => Difference { line: lines[0].clone(), other, answer: answer.to_string(), alone: false },
    }
}

/// The difference on the smallest line found.
pub fn smallest<H: Held>(difference: &Different<H>, readers: &H) -> Different<H> {
    let other = difference.other;
    if !difference.alone {
        return Difference { line: difference.line.clone(), other, answer: difference.answer.clone(), alone: false };
    }
    let tries = if H::is_slow(other) { 5_000 } else { 50_000 };
    let line = H::shrink(&difference.line, tries, &mut |line| readers.differs(other, line));
    let answer = readers.other(other, &line).unwrap_or_default();
    Difference { line, other, answer, alone: true }
}
