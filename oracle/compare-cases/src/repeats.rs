//! What a case shows of document 02 §11: which argument was repeated, what stood there, and what the archive call says.

use crate::tokens::{
    arguments, is, key, refusal, token_at, tokens, unnamed_before, Token, CLOSE, COMMA, INTEGER, STRING, WORD,
};
use cases::{Case, Habit};

/// `63 for N` is a 63 where the archive call says N; `N first` is another refusal of the default call, with a repeat behind
/// it in the same parentheses; `26 kept` any 26 of the default call; `replaced` is an archive call whose text the default
/// call refuses with 63.
pub const SORTS: &[&str] = &[
    "63 dev", "63 inst", "63 group", "63 type", "63 adapter", "63 unnamed dev", "63 unnamed inst", "63 same value", "63 at )",
    "63 at the end", "63 at ,", "63 at a word", "63 at a number", "63 at a string", "63 at another token", "63 in a trigger",
    "63 in a condition", "63 in a reading", "63 for accepted", "63 for 20", "63 for 21", "63 for 22", "63 for 23", "63 for 24",
    "63 for 25", "63 for 26", "63 for 27", "63 for 28", "63 for 29", "63 for 30", "63 for 31", "63 for 32", "63 for 33",
    "63 for 34", "63 for a later fault", "20 first", "21 first", "22 first", "23 first", "24 first", "25 first", "26 first",
    "26 kept", "20 for a second adapter clause", "replaced, accepted", "replaced, refused",
];

/// The lines that a case can begin with.
pub const LINES: &[&str] = &["case", "rule", "archive", "shop"];

pub fn line(case: &Case) -> &'static str {
    case.settings.as_ref().map_or("case", |settings| settings.habit.word())
}

/// The sorts that a case shows with this answer.
pub fn sorts(case: &Case, answer: &str) -> Vec<String> {
    let Ok(text) = std::str::from_utf8(&case.text) else { return Vec::new() };
    if case.habit() == Habit::Archive {
        return replaced(case, text, answer).into_iter().map(String::from).collect();
    }
    let Some((number, place)) = refusal(answer) else { return Vec::new() };
    let tokens: Vec<Token> = tokens(text, answer).collect();
    let at = token_at(&tokens, place);
    if second_clause(number, &tokens, at) {
        return vec!["20 for a second adapter clause".to_string()];
    }
    let Some(open) = arguments(&tokens, at) else { return Vec::new() };
    match number {
        "63" => [repeated(&tokens, open, at), vec![instead(case)]].concat(),
        "26" if repeat_behind(&tokens, open, at) => vec!["26 kept".to_string(), "26 first".to_string()],
        "26" => vec!["26 kept".to_string()],
        "20" | "21" | "22" | "23" | "24" | "25" if repeat_behind(&tokens, open, at) => vec![format!("{number} first")],
        _ => Vec::new(),
    }
}

fn replaced(case: &Case, text: &str, answer: &str) -> Option<&'static str> {
    let default = text.contains("input").then(|| second::answer(&case.with_habit(Habit::Rule)))?;
    let refused = matches!(refusal(&default), Some(("63", _)));
    refused.then_some(if refusal(answer).is_none() { "replaced, accepted" } else { "replaced, refused" })
}

/// What the archive call says to the text.
fn instead(case: &Case) -> String {
    let archive = second::answer(&case.with_habit(Habit::Archive));
    match refusal(&archive).map(|(number, _)| number) {
        None => "63 for accepted".to_string(),
        Some(number) => {
            let sort = format!("63 for {number}");
            if SORTS.contains(&sort.as_str()) { sort } else { "63 for a later fault".to_string() }
        }
    }
}

fn repeat_behind(tokens: &[Token], open: usize, at: usize) -> bool {
    let close = (at..tokens.len()).find(|&behind| tokens[behind].kind == CLOSE).unwrap_or(tokens.len());
    let stands_before = |name: &str, later: usize| (open..later).any(|earlier| key(tokens, earlier) == Some(name));
    let repeats = |later: usize| key(tokens, later).is_some_and(|name| stands_before(name, later));
    (at + 1..close).any(repeats)
}

fn second_clause(number: &str, tokens: &[Token], at: usize) -> bool {
    let clause = |at: usize| key(tokens, at) == Some("adapter");
    number == "20" && at > 3 && is(tokens, at, COMMA) && clause(at - 3) && clause(at + 1)
}

/// Which argument the token `at` repeats, what stands there, and where the parentheses stand.
fn repeated(tokens: &[Token], open: usize, at: usize) -> Vec<String> {
    let mut sorts = vec![match open.checked_sub(2).map_or("", |before| tokens[before].text) {
        "when" => "63 in a trigger",
        "if" | "and" => "63 in a condition",
        _ => "63 in a reading",
    }
    .to_string()];
    if let Some(name) = key(tokens, at) {
        sorts.push(format!("63 {name}"));
        let value = |key: usize| tokens.get(key + 2).map(|token| (token.kind, token.text));
        if (open..at).any(|earlier| key(tokens, earlier) == Some(name) && value(earlier) == value(at)) {
            sorts.push("63 same value".to_string());
        }
        return sorts;
    }
    sorts.push(if unnamed_before(tokens, open, at) == 0 { "63 unnamed dev" } else { "63 unnamed inst" }.to_string());
    let there = match tokens.get(at).map(|token| token.kind) {
        None => "63 at the end",
        Some(CLOSE) => "63 at )",
        Some(COMMA) => "63 at ,",
        Some(WORD) => "63 at a word",
        Some(INTEGER) => "63 at a number",
        Some(STRING) => "63 at a string",
        Some(_) => "63 at another token",
    };
    sorts.push(there.to_string());
    sorts
}
