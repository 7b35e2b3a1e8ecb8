//! What a case shows of document 02 §12: why a topic is refused, how far topics go that are taken, what follows them, and which
//! of the lent lines decide.

use crate::profile::full_refusal;
use crate::tokens::{refusal, shown, tokens, Token, STRING, WORD};
use cases::{Case, MOST_BYTES};
use std::collections::BTreeSet;

/// `N for M` is an N where the same call says M if nothing stood against it: `64 for 65` a forbidden topic that is too long too,
/// `40 for 66` and `64 for 66` a new topic where eight others stand named. `by` names the lent lines without which a 66 is none. `eight
/// in all` is an accepted text with new topics that come to eight with the lent ones.
pub const SORTS: &[&str] = &[
    "64 empty", "64 U+002B", "64 U+0023", "64 U+0000", "64 U+001F", "64 U+007F", "64 U+009F", "64 another control character", "64 U+FDD0",
    "64 U+FDEF", "64 between those", "64 plane 0", "64 plane 1", "64 plane 2", "64 plane 3", "64 plane 4", "64 plane 5", "64 plane 6",
    "64 plane 7", "64 plane 8", "64 plane 9", "64 plane 10", "64 plane 11", "64 plane 12", "64 plane 13", "64 plane 14", "64 plane 15",
    "64 plane 16", "64 FFFE", "64 FFFF", "64 for 65", "64 for 66", "64 before is", "64 of a lent one", "65 of 49 bytes", "65 of more",
    "65 of at most 48 characters", "65 before is", "65 for 66", "one byte taken", "48 bytes taken", "48 bytes of wide characters taken",
    "U+0020 taken", "U+007E taken", "U+00A0 taken", "U+FDCF taken", "U+FDF0 taken", "U+FFFD taken", "FFFD of another plane taken",
    "0000 of another plane taken", "20 at the end", "20 at a word", "20 at is", "20 at another token", "40 at the last is",
    "40 before a payload", "40 before another token", "40 for 66", "66 at trigger 1", "66 at trigger 2", "66 at trigger 3",
    "66 at trigger 4", "66 for accepted", "66 for a later fault", "66 with 5 lent", "66 with 6 lent", "66 with 7 lent", "66 with 8 lent",
    "66 with 9 lent", "66 with 10 lent", "66 behind a repeat", "66 behind a lent one", "66 by a line of CR", "66 by a CR behind a topic",
    "66 by a forbidden one", "66 by one over 48 bytes", "66 by one that is not UTF-8", "66 of the default call", "66 of the archive call",
    "eight in all", "eight in all, none lent twice", "eight in all, one named twice", "eight in all, one lent named",
    "eight in all, one lent twice", "eight in all, an empty line", "eight in all, a last LF", "four in all, none lent",
    "8 lent, accepted", "9 lent, accepted", "10 lent, accepted", "10 lent, none named", "not UTF-8 lent, accepted", "the most lent bytes",
];

const LONGEST: usize = 48;
const MOST_DIFFERENT: usize = 8;

/// The tokens of a text, which of them are topics of triggers, and the different lent topics.
struct Topics<'a> {
    tokens: Vec<Token<'a>>,
    at: Vec<usize>,
    lent: BTreeSet<&'a [u8]>,
}

fn lines(topics: &[u8]) -> impl Iterator<Item = &[u8]> {
    topics.split(|&b| b == b'\n')
}

fn different(topics: &[u8]) -> BTreeSet<&[u8]> {
    lines(topics).filter(|line| !line.is_empty()).collect()
}

/// The sorts that a case shows with this answer.
pub fn sorts(case: &Case, answer: &str) -> Vec<String> {
    let Ok(text) = std::str::from_utf8(&case.text) else { return Vec::new() };
    let lent = different(case.topics());
    let accepted = answer.contains("\naccepted ");
    if !text.contains("mqtt") {
        return (accepted && lent.len() >= 10).then(|| "10 lent, none named".to_string()).into_iter().collect();
    }
    let tokens: Vec<Token> = tokens(text, answer).collect();
    let behind_mqtt = |at: &usize| tokens[at - 2].is_word("when") && tokens[at - 1].is_word("mqtt");
    let at = (2..tokens.len()).filter(behind_mqtt).filter(|&at| tokens[at].kind == STRING).collect();
    let topics = Topics { tokens, at, lent };
    let said = refusal(answer).map(|(number, place)| (number, place.strip_suffix(" 0").unwrap_or(place)));
    match said {
        None => topics.accepted(case),
        Some(("20", place)) => topics.no_topic(place).into_iter().map(String::from).collect(),
        Some(("40", place)) => topics.payload(place),
        Some(("64", place)) => topics.forbidden(place),
        Some(("65", place)) => topics.too_long(place),
        Some(("66", place)) => topics.one_too_many(case, place),
        _ => Vec::new(),
    }
}

fn is_noncharacter(c: char) -> bool {
    matches!(c, '\u{FDD0}'..='\u{FDEF}') || u32::from(c) & 0xFFFE == 0xFFFE
}

fn is_forbidden(c: &char) -> bool {
    matches!(c, '+' | '#') || c.is_control() || is_noncharacter(*c)
}

/// The sort of the one character for which a topic is refused.
fn by_character(c: char) -> Vec<String> {
    let code = u32::from(c);
    match c {
        '+' | '#' | '\0' | '\u{1F}' | '\u{7F}' | '\u{9F}' | '\u{FDD0}' | '\u{FDEF}' => vec![format!("64 U+{code:04X}")],
        _ if c.is_control() => vec!["64 another control character".to_string()],
        '\u{FDD1}'..='\u{FDEE}' => vec!["64 between those".to_string()],
        _ => vec![format!("64 plane {}", code >> 16), format!("64 {:04X}", code & 0xFFFF)],
    }
}

/// Characters just beside forbidden ones.
fn taken_characters(topic: &str, sorts: &mut Vec<String>) {
    for c in topic.chars() {
        match (c, u32::from(c) & 0xFFFF) {
            (' ' | '~' | '\u{A0}' | '\u{FDCF}' | '\u{FDF0}' | '\u{FFFD}', code) => sorts.push(format!("U+{code:04X} taken")),
            ('\u{10000}'.., code @ (0 | 0xFFFD)) => sorts.push(format!("{code:04X} of another plane taken")),
            _ => {}
        }
    }
}

/// What the same call says with other lent topics.
fn with_lent(case: &Case, lines: Vec<&[u8]>) -> Option<String> {
    let answer = second::answer(&case.with_topics(lines.join(&b'\n')));
    full_refusal(&answer).map(|(number, _)| number.to_string())
}

/// Whether a 66 is none without the lent lines that are so.
fn by(case: &Case, so: impl Fn(&[u8]) -> bool) -> bool {
    let others: Vec<&[u8]> = lines(case.topics()).filter(|line| !so(line)).collect();
    with_lent(case, others).as_deref() != Some("66")
}

impl<'a> Topics<'a> {
    fn bytes(&self, at: usize) -> &'a [u8] {
        self.tokens[at].text.as_bytes()
    }

    /// The topics of the triggers before a token, as far as they are new, without repeats.
    fn new_before(&self, end: usize) -> BTreeSet<&'a [u8]> {
        let before = self.at.iter().take_while(|&&at| at < end);
        before.map(|&at| self.bytes(at)).filter(|topic| !self.lent.contains(topic)).collect()
    }

    fn would_be_66(&self, at: usize) -> bool {
        let new = self.new_before(at);
        let known = self.lent.contains(self.bytes(at)) || new.contains(self.bytes(at));
        !known && self.lent.len() + new.len() >= MOST_DIFFERENT
    }

    fn token_at(&self, place: &str) -> Option<usize> {
        self.tokens.iter().position(|token| token.place == place)
    }

    /// The topic at a place, by the index of its token.
    fn topic_at(&self, place: &str) -> Option<usize> {
        self.token_at(place).filter(|at| self.at.contains(at))
    }

    fn is_behind(&self, at: usize) -> bool {
        self.tokens.get(at + 1).is_some_and(|token| token.is_word("is"))
    }

    fn no_topic(&self, place: &str) -> Option<&'static str> {
        let at = self.token_at(place).unwrap_or(self.tokens.len());
        let before = |back: usize| at.checked_sub(back).map_or("", |at| self.tokens[at].text);
        if (before(2), before(1)) != ("when", "mqtt") {
            return None;
        }
        Some(match self.tokens.get(at) {
            None => "20 at the end",
            Some(Token { kind: WORD, text: "is", .. }) => "20 at is",
            Some(Token { kind: WORD, .. }) => "20 at a word",
            Some(_) => "20 at another token",
        })
    }

    fn payload(&self, place: &str) -> Vec<String> {
        let Some(is) = self.token_at(place).filter(|&at| at > 0 && self.at.contains(&(at - 1))) else { return Vec::new() };
        let behind = match self.tokens.get(is + 1) {
            None => "40 at the last is",
            Some(token) if token.kind == STRING => "40 before a payload",
            Some(_) => "40 before another token",
        };
        shown(&[(true, behind), (self.would_be_66(is - 1), "40 for 66")])
    }

    fn forbidden(&self, place: &str) -> Vec<String> {
        let Some(at) = self.topic_at(place) else { return Vec::new() };
        let topic = self.tokens[at].text;
        let found: BTreeSet<char> = topic.chars().filter(is_forbidden).collect();
        let mut sorts = match found.iter().collect::<Vec<_>>()[..] {
            [] => vec!["64 empty".to_string()],
            [c] => by_character(*c),
            _ => Vec::new(),
        };
        let more = [
            (topic.len() > LONGEST, "64 for 65"),
            (self.would_be_66(at) && !topic.is_empty(), "64 for 66"),
            (self.is_behind(at), "64 before is"),
            (self.lent.contains(topic.as_bytes()), "64 of a lent one"),
        ];
        sorts.extend(shown(&more));
        sorts
    }

    fn too_long(&self, place: &str) -> Vec<String> {
        let Some(at) = self.topic_at(place) else { return Vec::new() };
        let topic = self.tokens[at].text;
        shown(&[
            (topic.len() == LONGEST + 1, "65 of 49 bytes"),
            (topic.len() > LONGEST + 1, "65 of more"),
            (topic.chars().count() <= LONGEST, "65 of at most 48 characters"),
            (self.is_behind(at), "65 before is"),
            (self.would_be_66(at), "65 for 66"),
        ])
    }

    fn one_too_many(&self, case: &Case, place: &str) -> Vec<String> {
        let Some(at) = self.token_at(place).map(|mqtt| mqtt + 1) else { return Vec::new() };
        let whens = self.tokens[..at].iter().filter(|token| token.is_word("when")).count();
        let earlier: Vec<&[u8]> = self.at.iter().filter(|&&before| before < at).map(|&before| self.bytes(before)).collect();
        let otherwise = with_lent(case, Vec::new());
        let stripped = lines(case.topics()).map(|line| line.strip_suffix(b"\r").unwrap_or(line)).collect();
        let mut sorts = vec![
            format!("66 at trigger {whens}"),
            format!("66 with {} lent", self.lent.len()),
            format!("66 of the {} call", if case.habit() == cases::Habit::Archive { "archive" } else { "default" }),
            if otherwise.is_none() { "66 for accepted" } else { "66 for a later fault" }.to_string(),
        ];
        let forbidden = |line: &[u8]| std::str::from_utf8(line).is_ok_and(|line| !line.contains('\r') && line.chars().any(|c| is_forbidden(&c)));
        sorts.extend(shown(&[
            (self.new_before(at).len() + earlier.iter().filter(|topic| self.lent.contains(*topic)).count() < earlier.len(), "66 behind a repeat"),
            (earlier.iter().any(|topic| self.lent.contains(topic)), "66 behind a lent one"),
            (by(case, |line| line == b"\r"), "66 by a line of CR"),
            (with_lent(case, stripped).as_deref() != Some("66"), "66 by a CR behind a topic"),
            (by(case, forbidden), "66 by a forbidden one"),
            (by(case, |line| line.len() > LONGEST), "66 by one over 48 bytes"),
            (by(case, |line| std::str::from_utf8(line).is_err()), "66 by one that is not UTF-8"),
            (case.topics().len() == MOST_BYTES, "the most lent bytes"),
        ]));
        sorts
    }

    fn accepted(&self, case: &Case) -> Vec<String> {
        let mut sorts = Vec::new();
        for &at in &self.at {
            let topic = self.tokens[at].text;
            let wide = topic.chars().count() < topic.len();
            taken_characters(topic, &mut sorts);
            sorts.extend(shown(&[
                (topic.len() == 1, "one byte taken"),
                (topic.len() == LONGEST, "48 bytes taken"),
                (topic.len() == LONGEST && wide, "48 bytes of wide characters taken"),
            ]));
        }
        if self.at.is_empty() {
            return sorts;
        }
        let (new, lent) = (self.new_before(self.tokens.len()), &self.lent);
        let lines: Vec<&[u8]> = lines(case.topics()).collect();
        let (full, empty) = lines.iter().partition::<Vec<&[u8]>, _>(|line| !line.is_empty());
        let eight = !new.is_empty() && new.len() + lent.len() == MOST_DIFFERENT;
        let named_lent = self.at.iter().any(|&at| lent.contains(self.bytes(at)));
        let all_lent = new.is_empty();
        sorts.extend(shown(&[
            (eight, "eight in all"),
            (eight && full.len() == lent.len(), "eight in all, none lent twice"),
            (eight && !named_lent && self.at.len() > new.len(), "eight in all, one named twice"),
            (eight && named_lent, "eight in all, one lent named"),
            (eight && full.len() > lent.len(), "eight in all, one lent twice"),
            (eight && lines.split_last().is_some_and(|(_, before)| before.contains(&&b""[..])), "eight in all, an empty line"),
            (eight && empty.len() == 1 && lines.last() == Some(&&b""[..]), "eight in all, a last LF"),
            (new.len() == 4 && lent.is_empty(), "four in all, none lent"),
            (all_lent && lent.len() == 8, "8 lent, accepted"),
            (all_lent && lent.len() == 9, "9 lent, accepted"),
            (all_lent && lent.len() == 10, "10 lent, accepted"),
            (std::str::from_utf8(case.topics()).is_err(), "not UTF-8 lent, accepted"),
            (case.topics().len() == MOST_BYTES, "the most lent bytes"),
        ]));
        sorts
    }
}
