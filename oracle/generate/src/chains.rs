//! The chains of document 02 §13: starts for its generator, listed ones and others, and the chains that a reader accepts.

use cases::{pieces, written, Case, Start, LEAST_WORDS, MOST_PIECES, MOST_WORDS, VOCABULARY};

/// Numbers that are no piece: the one behind the last, and the last there is.
const NO_PIECES: [u8; 2] = [VOCABULARY.len() as u8, u8::MAX];

/// A rule with these pieces behind `if`.
pub fn rule(pieces: &[u8]) -> Case {
    Case::new(0, LEAST_WORDS, format!("when controller starts if {}", written(pieces)), b"primary,0\n")
}

/// Whether a reader, by its answers in the replay format, accepts the pieces behind `if`; nothing where it refuses them before the end, so that
/// no piece behind them helps.
fn taken(answer: &dyn Fn(&Case) -> String, pieces: &[u8]) -> Option<bool> {
    let rule = rule(pieces);
    let at_the_end = format!("refused 20 1 {} 0", rule.text.len() + 1);
    let answer = answer(&rule);
    let verdict = answer.lines().find(|line| line.starts_with("accepted ") || line.starts_with("refused "))?;
    if verdict == at_the_end { Some(false) } else { verdict.starts_with("accepted ").then_some(true) }
}

/// Every sequence of up to fifteen pieces that a reader accepts behind `if`, in the list's order: behind each beginning that it does not refuse
/// before the end, every piece is tried.
pub fn accepted(answer: &dyn Fn(&Case) -> String) -> Vec<Vec<u8>> {
    let (mut accepted, mut open) = (Vec::new(), vec![Vec::new()]);
    for _ in 0..MOST_PIECES {
        let longer = open.iter().flat_map(|front: &Vec<u8>| (0..VOCABULARY.len() as u8).map(|piece| [front.as_slice(), &[piece]].concat()));
        let tried: Vec<(Vec<u8>, bool)> = longer.filter_map(|chain| taken(answer, &chain).map(|accepted| (chain, accepted))).collect();
        accepted.extend(tried.iter().filter(|(_, accepted)| *accepted).map(|(chain, _)| chain.clone()));
        open = tried.into_iter().map(|(chain, _)| chain).collect();
    }
    accepted
}

/// The sequences beside one: a piece left out, put in or replaced, by every piece and by numbers that are none; its beginnings; and it twice.
pub fn beside(chain: &[u8]) -> Vec<Vec<u8>> {
    let any: Vec<u8> = (0..VOCABULARY.len() as u8).chain(NO_PIECES).collect();
    let around = |from: usize, to: usize, middle: &[u8]| [&chain[..from], middle, &chain[to..]].concat();
    let mut all: Vec<Vec<u8>> = (0..chain.len()).flat_map(|at| [around(at, at + 1, &[]), chain[..at].to_vec()]).collect();
    all.extend((0..chain.len()).flat_map(|at| any.iter().map(move |piece| around(at, at + 1, &[*piece]))));
    all.extend((0..=chain.len()).flat_map(|at| any.iter().map(move |piece| around(at, at, &[*piece]))));
    all.push([chain, &pieces("and"), chain].concat());
    all
}

/// The starts that are stored, from the whole list: nothing, the first and the last of each length and every twelfth chain, and others that are
/// not listed.
pub fn starts(list: &[Vec<u8>]) -> Vec<Start> {
    let start = |pieces: Vec<u8>, size: usize| Start { id: 0, size, pieces };
    let is_end = |at: usize| at == 0 || at + 1 == list.len() || list[at - 1].len() != list[at].len() || list[at].len() != list[at + 1].len();
    let chosen = (0..list.len()).filter(|&at| is_end(at) || at % 12 == 0).map(|at| list[at].clone());
    let mut starts: Vec<Start> = [vec![]].into_iter().chain(chosen).map(|pieces| start(pieces, MOST_PIECES)).collect();
    starts.extend([MOST_PIECES + 1, 100, MOST_WORDS].into_iter().flat_map(|size| [start(vec![], size), start(pieces("sun is down"), size)]));
    starts.extend(UNLISTED.map(|text| start(pieces(text), MOST_PIECES)));
    let numbers = [vec![23], vec![255], vec![1, 3, 23], vec![1, 3, 7, 255], vec![0; 15], vec![0; 16], vec![255; 300]];
    starts.extend(numbers.map(|numbers| start(numbers, MOST_PIECES)));
    starts
}

/// Sequences of pieces that are in no list.
const UNLISTED: [&str; 28] = [
    "lamp", "sun", "and", "-", "sun is", "sun is on", "is up", "sun is up and", "and sun is up", "sun is up sun is up", "sun is up and and sun is up",
    "time in sunrise", "time in sunrise ..", "time in sunrise . sunset", "time in sunrise .. sunset + 0", "lamp ( 64 ) is on", "lamp ( 0 is on",
    "lamp ( - 0 ) is on", "lamp ( 0 ) . level == lamp ( 64 ) . level", "lamp ( 0 ) . level == lamp ( 0 ) . on", "lamp ( 0 ) . level == + - 0",
    "lamp ( 0 ) . level == 0 + 63", "lamp ( 0 ) . level == 0 and", "lamp ( 0 ) . level == lamp ( 0 ) . level +", "lamp ( 0 ) . on == 0",
    // Sixteen pieces, and five conditions.
    "lamp ( 0 ) is on and sun is up and time in sunrise .. sunset",
    "lamp ( 0 ) . level == lamp ( 0 ) . level + 0 and sun is up",
    "sun is up and sun is up and sun is up and sun is up and sun is up",
];

#[cfg(test)]
mod tests {
    use super::*;

    #[test]
    fn the_sequences_beside_one() {
        let found = beside(&pieces("sun is up"));
        assert_eq!(found.len(), 3 * 2 + (3 + 4) * 25 + 1);
        let has = |text: &str| found.contains(&pieces(text));
        assert!(has("sun is down") && has("sun is") && has("sun up") && has("sun is up and") && has("sun is up and sun is up"));
        assert!(found.contains(&vec![1, 3, 255]) && found.contains(&vec![]));
    }
}
