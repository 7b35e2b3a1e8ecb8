//! Document 02 §3 by two calls: what a join must say, put together from the words of what the calls on its texts say.

use crate::tokens::{tokens, Token, STRING};
use cases::{Case, Join};

/// A trigger or a condition of an accepted text.
#[derive(Debug, Clone)]
pub struct Entry {
    /// Its line behind `T ` or `C `. Names stand in it as bytes, so that two are equal just where the entries are.
    pub line: String,
    /// What it is written as, token by token.
    pub words: Vec<String>,
    /// The strings among its tokens: where they begin, and what they hold.
    strings: Vec<(usize, Vec<u8>)>,
    /// Where its first token begins.
    pub start: usize,
}

/// A name, topic or text in a line: `x` and the bytes in hex.
pub fn is_string(field: &str) -> bool {
    field.starts_with('x')
}

fn hex(bytes: &[u8]) -> String {
    bytes.iter().fold("x".to_string(), |field, byte| format!("{field}{byte:02x}"))
}

pub fn bytes(field: &str) -> Vec<u8> {
    let digit = |b: u8| (b as char).to_digit(16).expect("a hex digit") as u8;
    field.as_bytes()[1..].chunks(2).map(|two| digit(two[0]) * 16 + digit(two[1])).collect()
}

impl Entry {
    pub fn fields(&self) -> Vec<&str> {
        self.line.split(' ').collect()
    }

    /// The line with something else in the place of each name, topic and text: of its beginning in the text and its bytes.
    pub fn with_strings(&self, say: impl Fn(usize, &[u8]) -> String) -> String {
        let mut strings = self.strings.iter();
        let said = self.line.split(' ').map(|field| {
            if !is_string(field) {
                return field.to_string();
            }
            // Names that are looked up stand in the text and not in the line.
            let (start, bytes) = strings.find(|(_, bytes)| hex(bytes) == field).expect("a name stands in the text");
            say(*start, bytes)
        });
        said.collect::<Vec<_>>().join(" ")
    }

    /// The line with the place of each string.
    pub fn by_places(&self) -> String {
        self.with_strings(|start, bytes| format!("{start}:{}", bytes.len()))
    }

    /// The topic, if it is a trigger with one.
    pub fn topic(&self) -> Option<Vec<u8>> {
        self.line.strip_prefix("mqtt ").map(bytes)
    }
}

/// Both lists of an accepted text.
#[derive(Debug, Clone)]
pub struct Lists {
    pub triggers: Vec<Entry>,
    pub conditions: Vec<Entry>,
}

impl Lists {
    pub fn topics(&self) -> Vec<Vec<u8>> {
        self.triggers.iter().filter_map(Entry::topic).collect()
    }
}

/// What a call says.
#[derive(Debug, Clone)]
pub struct Called {
    /// The token lines and the `buffer` line.
    pub records: String,
    /// The lists, or `NUMBER LINE COLUMN DETAIL`.
    pub said: Result<Lists, String>,
}

/// The `buffer` line of a buffer that the call did not touch.
pub const UNTOUCHED: &str = "buffer kept\n";

/// The tokens of each entry: those behind a `when`, `if` or `and` up to the next one.
fn clauses<'a>(tokens: Vec<Token<'a>>) -> Vec<Vec<Token<'a>>> {
    let mut clauses: Vec<Vec<Token>> = Vec::new();
    for token in tokens {
        match clauses.last_mut() {
            _ if ["when", "if", "and"].iter().any(|word| token.is_word(word)) => clauses.push(Vec::new()),
            Some(last) => last.push(token),
            None => {}
        }
    }
    clauses
}

fn entry(line: &str, clause: Vec<Token>) -> Entry {
    let strings = clause.iter().filter(|token| token.kind == STRING).map(|token| (token.start, token.text.as_bytes().to_vec()));
    let words = clause.iter().map(|token| if token.kind == STRING { format!("\"{}\"", token.text) } else { token.text.to_string() });
    Entry { line: line.to_string(), strings: strings.collect(), words: words.collect(), start: clause.first().map_or(0, |token| token.start) }
}

impl Called {
    /// What the answer to this call says.
    pub fn of(call: &Case, answer: &str) -> Called {
        let is_record = |line: &&str| line.starts_with("token ") || line.starts_with("buffer ");
        let records: String = answer.lines().filter(is_record).map(|line| format!("{line}\n")).collect();
        if let Some(refusal) = answer.lines().find_map(|line| line.strip_prefix("refused ")) {
            return Called { records, said: Err(refusal.to_string()) };
        }
        let text = String::from_utf8_lossy(&call.text);
        let lines = |letter: &'static str| answer.lines().filter_map(move |line| line.strip_prefix(letter));
        let mut clauses = clauses(tokens(&text, answer).collect()).into_iter();
        let mut entries = |letter: &'static str| lines(letter).map(|line| entry(line, clauses.next().unwrap_or_default())).collect();
        Called { records, said: Ok(Lists { triggers: entries("T "), conditions: entries("C ") }) }
    }
}

/// The lent topics, and behind them others, one a line.
pub fn lent_and(lent: &[u8], topics: &[Vec<u8>]) -> Vec<u8> {
    topics.iter().fold(lent.to_vec(), |lent, topic| [&lent[..], b"\n", topic].concat())
}

/// What the calls on both texts say, the second behind the first's topics; nothing of the second if the first is refused.
pub fn both(join: &Join, call: &dyn Fn(&Case) -> String) -> (Called, Option<Called>) {
    let first = join.call(0);
    let first = Called::of(&first, &call(&first));
    let Ok(lists) = &first.said else { return (first, None) };
    let second = join.call(1).with_topics(lent_and(&join.topics, &lists.topics()));
    let second = Called::of(&second, &call(&second));
    (first, Some(second))
}

/// Triggers with the number of their text, each once, as they come.
pub fn different(lists: [&Lists; 2]) -> Vec<(u8, Entry)> {
    let mut different: Vec<(u8, Entry)> = Vec::new();
    let all = (1..).zip(lists).flat_map(|(from, lists)| lists.triggers.iter().map(move |trigger| (from, trigger)));
    for (from, trigger) in all {
        if different.iter().all(|(_, known)| known.line != trigger.line) {
            different.push((from, trigger.clone()));
        }
    }
    different
}

pub fn lines(entries: &[Entry]) -> Vec<&str> {
    entries.iter().map(|entry| entry.line.as_str()).collect()
}

/// An accepted join's lines.
pub fn accepted(triggers: &[(u8, Entry)], conditions: &[(u8, Entry)]) -> String {
    let shown = |letter: &'static str, list: &[(u8, Entry)]| list.iter().map(|(from, entry)| format!("{letter} {from} {}\n", entry.line)).collect::<String>();
    format!("accepted {} {}\n{}{}", triggers.len(), conditions.len(), shown("T", triggers), shown("C", conditions))
}

/// The answer that a join must have by what `call` answers to its texts.
pub fn by_calls(join: &Join, call: &dyn Fn(&Case) -> String) -> String {
    let (first, second) = both(join, call);
    let records = [first.records.as_str(), second.as_ref().map_or(UNTOUCHED, |second| &second.records)].concat();
    let verdict = match (&first.said, second.as_ref().map(|second| &second.said)) {
        (Err(refusal), _) => format!("refused 1 {refusal}\n"),
        (_, Some(Err(refusal))) => format!("refused 2 {refusal}\n"),
        (Ok(one), Some(Ok(two))) => verdict(one, two),
        (Ok(_), None) => unreachable!("the second text is read where the first is accepted"),
    };
    format!("case {}\n{records}{verdict}", join.id)
}

fn verdict(one: &Lists, two: &Lists) -> String {
    let triggers = different([one, two]);
    if lines(&one.conditions) != lines(&two.conditions) {
        "refused 0 51 0 0 0\n".to_string()
    } else if triggers.len() > 4 {
        "refused 0 52 0 0 0\n".to_string()
    } else {
        let conditions: Vec<(u8, Entry)> = one.conditions.iter().map(|condition| (1, condition.clone())).collect();
        accepted(&triggers, &conditions)
    }
}
