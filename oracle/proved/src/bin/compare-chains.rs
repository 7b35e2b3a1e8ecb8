//! Compares the proved generator of document 02 §13 with the second reader's list, and both with what the readers accept. Exit 0 means that
//! they agree, 1 that not, 2 that the command line is wrong.

use cases::{write_case, write_start, Case, Habit, Start, MOST_PIECES};
use generate::chains::{accepted, beside, rule, starts};
use proved::next_chain::{next, verdict};
use second::chains;
use std::collections::BTreeSet;
use std::io::{self, BufWriter, Write};
use std::process::ExitCode;

const USAGE: &str = "compare-chains            compares the proved generator and the readers
compare-chains input      every chain behind `if` and every start that is tried, as replay input
compare-chains answers    the second reader's answers to these";

fn main() -> ExitCode {
    let words: Vec<String> = std::env::args().skip(1).collect();
    let done = match words.iter().map(String::as_str).collect::<Vec<_>>()[..] {
        [] => return if compared() { ExitCode::SUCCESS } else { ExitCode::from(1) },
        ["input"] => each(|out, case| write_case(out, case), |out, start| write_start(out, start)),
        ["answers"] => each(
            |out, case| out.write_all(second::answer(case).as_bytes()),
            |out, start| out.write_all(second::next(start).as_bytes()),
        ),
        _ => {
            eprintln!("{USAGE}");
            return ExitCode::from(2);
        }
    };
    done.map_or(ExitCode::from(2), |()| ExitCode::SUCCESS)
}

/// Each chain of the list as a rule, of either call.
fn rules() -> impl Iterator<Item = Case> {
    chains().iter().flat_map(|chain| [Habit::Rule, Habit::Archive].map(|habit| rule(chain).with_habit(habit)))
}

/// Nothing, each chain of the list, all sequences beside these, and the stored starts.
fn tried() -> Vec<Start> {
    let beside = chains().iter().flat_map(|chain| beside(chain));
    let sequences: BTreeSet<Vec<u8>> = [vec![]].into_iter().chain(chains().iter().cloned()).chain(beside).collect();
    let sequences = sequences.into_iter().map(|pieces| Start { id: 0, size: MOST_PIECES, pieces });
    let starts = sequences.chain(starts(chains())).zip(1..);
    starts.map(|(start, id)| Start { id, ..start }).collect()
}

type Out = BufWriter<io::StdoutLock<'static>>;

fn each(case: impl Fn(&mut Out, &Case) -> io::Result<()>, start: impl Fn(&mut Out, &Start) -> io::Result<()>) -> io::Result<()> {
    let mut out = BufWriter::new(io::stdout().lock());
    rules().try_for_each(|rule| case(&mut out, &rule))?;
    tried().iter().try_for_each(|tried| start(&mut out, tried))?;
    out.flush()
}

/// Says what holds, up to the first that does not.
fn compared() -> bool {
    let tried = tried();
    let generated = |what: &str, holds: bool| {
        println!("{what}: {}", if holds { "yes" } else { "NO" });
        holds
    };
    generated("the generator, run from nothing, gives the second reader's list", listed() == chains())
        && generated(&format!("{} starts, {} of them not in the list, are answered alike", tried.len(), unlisted(&tried)), tried.iter().all(same))
        && generated("the proved reader, by both calls, accepts each chain, with its conditions", rules().all(|rule| is_read(&rule)))
        && generated("the second reader and the supplied Rust accept each, and read the same", rules().all(|rule| agrees(&rule)))
        && generated("the proved reader accepts no others behind `if`", accepted(&verdict) == chains())
        && generated("the second reader accepts no others", accepted(&second::answer) == chains())
        && generated("the supplied Rust accepts no others", accepted(&supplied::answer) == chains())
}

/// What the proved generator gives from nothing on, up to where none follows, or one more than there are.
fn listed() -> Vec<Vec<u8>> {
    let mut listed: Vec<Vec<u8>> = Vec::new();
    while listed.len() <= chains().len() {
        let start = Start { id: 0, size: MOST_PIECES, pieces: listed.last().cloned().unwrap_or_default() };
        let answer = next(&start);
        let Some(chain) = answer.lines().find_map(|line| line.strip_prefix("chain ")) else { break };
        listed.push(chain.split(' ').filter_map(|piece| piece.parse().ok()).collect());
    }
    listed
}

fn unlisted(tried: &[Start]) -> usize {
    tried.iter().filter(|start| second::next(start).contains("refused 67 0 0 0")).count()
}

/// Both generators answer alike; if not, it is said how.
fn same(start: &Start) -> bool {
    let (proved, second) = (next(start), second::next(start));
    if proved != second {
        println!("{:?}\n--- the second reader\n{second}--- the proved generator\n{proved}", start.pieces);
    }
    proved == second
}

fn is_read(rule: &Case) -> bool {
    verdict(rule).starts_with("accepted 1 ") && second::answer(rule).contains(&verdict(rule))
}

fn agrees(rule: &Case) -> bool {
    let answer = second::answer(rule);
    answer.contains("\naccepted 1 ") && supplied::answer(rule) == answer
}
