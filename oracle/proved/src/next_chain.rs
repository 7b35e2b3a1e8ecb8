//! The proved generator of document 02 §13 as a Rust function, and its answers in the replay format.

use crate::agree::UNTOUCHED;
use crate::inputs::ANSWER;
use crate::{read, read_archive, Given};
use cases::{Case, Habit, Start, MOST_PIECES};

/// Number, line, column, detail, count, and fifteen pieces.
const CHAIN_WORDS: usize = 5 + MOST_PIECES;

extern "C" {
    /// Each slice is passed as a pointer and a length.
    fn tergyosul_next_chain(pieces: *const u8, pieces_length: usize, answer: *mut u32, answer_length: usize) -> u32;
}

/// The call itself. With an answer of fewer than twenty words nothing is written; no word behind the twentieth is written.
pub fn next_chain(pieces: &[u8], answer: &mut [u32]) -> u32 {
    // SAFETY: each pointer and length is a slice that is borrowed for the call, and the mutable one overlaps nothing.
    unsafe { tergyosul_next_chain(pieces.as_ptr(), pieces.len(), answer.as_mut_ptr(), answer.len()) }
}

/// The answer to a start, in the replay format. Two words more than needed are lent, which must stay; pieces past the count must be 0.
pub fn next(start: &Start) -> String {
    let mut answer = [UNTOUCHED; CHAIN_WORDS + 2];
    let result = next_chain(&start.pieces, &mut answer);
    let [number, line, column, detail, count, pieces @ .., one, two] = answer;
    let (chain, past) = pieces.split_at(pieces.len().min(count as usize));
    let kept = result == number && [one, two] == [UNTOUCHED; 2] && past.iter().all(|&piece| piece == 0);
    let said = match (number, count) {
        (0, 0) => "none".to_string(),
        (0, _) => chain.iter().fold("chain".to_string(), |line, piece| format!("{line} {piece}")),
        _ => format!("refused {number} {line} {column} {detail}"),
    };
    format!("case {}\nbuffer {}\n{said}\n", start.id, if kept { "kept" } else { "changed" })
}

/// The verdict of the proved reader on a case, as the replay format writes it, without the lists.
pub fn verdict(case: &Case) -> String {
    let mut answer = [0; ANSWER];
    let call = if case.habit() == Habit::Archive { read_archive } else { read };
    call(&case.text, Given::of(case), &mut vec![0; case.words], &mut answer);
    let [number, line, column, detail, triggers, conditions] = answer[..6] else { panic!("the answer is longer") };
    match number {
        0 => format!("accepted {triggers} {conditions}\n"),
        _ => format!("refused {number} {line} {column} {detail}\n"),
    }
}

#[cfg(test)]
mod tests {
    use super::*;

    fn start(pieces: &[u8]) -> Start {
        Start { id: 1, size: MOST_PIECES, pieces: pieces.to_vec() }
    }

    #[test]
    fn the_list_is_the_second_readers() {
        let starts: Vec<Start> = [vec![]].iter().chain(second::chains()).map(|pieces| start(pieces)).collect();
        assert!(starts.iter().all(|start| next(start) == second::next(start)));
        assert_eq!(next(starts.last().expect("there are some")), "case 1\nbuffer kept\nnone\n");
    }

    #[test]
    fn other_starts_are_refused() {
        for pieces in [&[0][..], &[1, 3], &[1, 3, 23], &[255], &[1, 3, 7, 12], &[0; 16], &[0; 1_000]] {
            assert_eq!(next(&start(pieces)), "case 1\nbuffer kept\nrefused 67 0 0 0\n");
        }
    }

    #[test]
    fn without_room_for_the_answer_nothing_is_written() {
        for room in 0..CHAIN_WORDS {
            let mut answer = vec![UNTOUCHED; room];
            assert_eq!(next_chain(&[1, 3, 7], &mut answer), u32::MAX);
            assert!(answer.iter().all(|&word| word == UNTOUCHED));
        }
    }
}
