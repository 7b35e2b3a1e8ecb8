//! What a whole call leaves behind, and what the second reader says of the same call.

use crate::agree::UNTOUCHED;
use crate::inputs::ANSWER;
use crate::Given;
use cases::{Case, RECORD};

/// A whole call with the shape of `read`.
pub type Call = fn(&[u8], Given, &mut [u32], &mut [u32]) -> u32;

/// Everything that a call can change.
#[derive(Debug, Clone, PartialEq, Eq)]
pub struct Left {
    pub result: u32,
    pub answer: Vec<u32>,
    pub words: Vec<u32>,
}

/// What a call leaves behind on a case, if every word is untouched before.
pub fn left(call: Call, case: &Case) -> Left {
    let mut answer = vec![UNTOUCHED; ANSWER];
    let mut words = vec![UNTOUCHED; case.words];
    let result = call(&case.text, Given::of(case), &mut words, &mut answer);
    Left { result, answer, words }
}

/// The last line that the second reader must give for it, but for the lists, and the count of token lines.
pub fn said(left: &Left) -> (String, usize) {
    let [number, line, column, detail, triggers, conditions] = left.answer[..6] else { panic!("the answer is longer") };
    assert_eq!(number, left.result);
    let said = match number {
        0 => format!("accepted {triggers} {conditions}"),
        _ => format!("refused {number} {line} {column} {detail}"),
    };
    (said, left.words.chunks_exact(RECORD).take_while(|record| record[0] != UNTOUCHED).count())
}

pub fn said_by_the_second(case: &Case) -> (String, usize) {
    let answer = second::answer(case);
    let verdict = |line: &&str| line.starts_with("accepted ") || line.starts_with("refused ");
    let said = answer.lines().find(verdict).expect("an answer has one").to_string();
    (said, answer.lines().filter(|line| line.starts_with("token ")).count())
}

/// The cases that the whole calls are tested on.
pub fn generated() -> impl Iterator<Item = Case> {
    (0..20_000).map(|index| generate::case(3, index))
}

/// That the call sees nothing of another party's rows: for two sheets that agree for the party, every word of the answer and of the
/// tokens is the same.
pub fn assert_isolated(call: Call) {
    let mut compared = 0;
    for case in generated() {
        let found = left(call, &case);
        if matches!(found.result, 1..=3) {
            continue;
        }
        let beside = generate::beside(&case);
        assert_eq!(left(call, &beside), found, "{}\n{}\n{}", case.id, case.sheet.escape_ascii(), beside.sheet.escape_ascii());
        compared += usize::from(found.result != 53);
    }
    assert!(compared > 15_000, "{compared}");
}
