//! What a case shows of document 02 §5: the sizes of the token buffer, and places far from the first.

use cases::{Case, FORMER_LEAST_WORDS, LEAST_WORDS, MOST_TOKENS, MOST_WORDS};

/// A buffer is `taken` if a case with it passed question 2, and `full` if 1,024 records fill it.
pub const SORTS: &[&str] = &[
    "least - 1 refused", "least taken", "least + 1 taken", "former least - 1 taken", "former least taken", "most taken",
    "least full", "larger full", "token line 256", "token column 256", "token both 256", "last line of a token",
    "last column of a token", "last line of the end", "last column of the end",
];

/// From here on a line or column takes more than eight bits.
const FAR: u32 = 256;
/// The last line or column of a text, and so of its end; a token stands one before it.
const LAST: u32 = 16_385;

/// The sorts that a case shows with this answer.
pub fn sorts(case: &Case, answer: &str) -> Vec<&'static str> {
    let mut sorts = Vec::new();
    let numbers = |line: &str| line.split(' ').filter_map(|field| field.parse().ok()).collect::<Vec<u32>>();
    let lines = |start: &'static str| answer.lines().filter_map(move |line| line.strip_prefix(start));
    let refusal = lines("refused ").next().map(numbers);
    sorts.extend(buffer(case.words, refusal.as_ref().map(|fields| fields[0])));
    let places: Vec<(u32, u32)> = lines("token ").map(numbers).filter(|fields| fields.len() == 6).map(|f| (f[4], f[5])).collect();
    if places.len() == MOST_TOKENS {
        sorts.push(if case.words == LEAST_WORDS { "least full" } else { "larger full" });
    }
    for (line, column) in places {
        sorts.extend((line >= FAR).then_some("token line 256"));
        sorts.extend((column >= FAR).then_some("token column 256"));
        sorts.extend((line >= FAR && column >= FAR).then_some("token both 256"));
        sorts.extend((line == LAST - 1).then_some("last line of a token"));
        sorts.extend((column == LAST - 1).then_some("last column of a token"));
    }
    if let Some([_, line, column, _]) = refusal.as_deref() {
        sorts.extend((*line == LAST).then_some("last line of the end"));
        sorts.extend((*column == LAST).then_some("last column of the end"));
    }
    sorts
}

fn buffer(words: usize, refused: Option<u32>) -> Option<&'static str> {
    const FORMER_LESS_ONE: usize = FORMER_LEAST_WORDS - 1;
    const LESS_ONE: usize = LEAST_WORDS - 1;
    const MORE_ONE: usize = LEAST_WORDS + 1;
    match (words, refused) {
        (_, Some(1)) => None,
        (LESS_ONE, Some(2)) => Some("least - 1 refused"),
        (_, Some(2)) => None,
        (LEAST_WORDS, _) => Some("least taken"),
        (MORE_ONE, _) => Some("least + 1 taken"),
        (FORMER_LESS_ONE, _) => Some("former least - 1 taken"),
        (FORMER_LEAST_WORDS, _) => Some("former least taken"),
        (MOST_WORDS, _) => Some("most taken"),
        _ => None,
    }
}
