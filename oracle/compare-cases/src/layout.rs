//! What a case and its reflowed text show of document 02 §14: what stands between the tokens in one and not in the other, which numbers are
//! spelled in another way, and what both calls say.

use crate::profile::reference;
use crate::reflowed::{places, Reflowed};
use crate::repeats;
use crate::tokens::{refusal, shown, tokens, Token, CLOSE, DURATION, INTEGER, OPEN, POINT, POINTS, STRING, TIME, WORD};
use cases::{Case, Habit, MOST_TOKENS, RECORD};
use std::collections::BTreeSet;

/// A white space character is one of the reflowed text, outside comments. `none for some` is a pair of tokens that stand side by side in the
/// reflowed text and did not before; `behind` names such pairs. `longer` and `shorter` are respelled numbers, `for another unit` durations.
/// `replaced` is an archive call whose text the default call refuses with 63.
pub const SORTS: &[&str] = &[
    "U+0009", "U+000A", "U+000B", "U+000C", "U+000D", "U+0020", "U+0085", "U+00A0", "U+1680", "U+2000", "U+2001", "U+2002", "U+2003",
    "U+2004", "U+2005", "U+2006", "U+2007", "U+2008", "U+2009", "U+200A", "U+2028", "U+2029", "U+202F", "U+205F", "U+3000", "CR LF",
    "a blank line", "a tab behind LF", "none for some", "some for none", "some before the first token", "none before the first token",
    "some behind the last token", "none behind the last token", "a line break put in", "a line break taken out",
    "a line break in parentheses", "a line break before (", "a line break behind (", "a line break before )", "a comment put in",
    "a comment taken out", "a comment for another", "a comment in parentheses", "a comment directly behind a token", "a comment before the end",
    "a comment up to the end", "an empty comment", "a comment with a quote", "a comment with #", "a comment with CR",
    "a comment with 2 bytes a character", "a comment with 3 bytes a character", "a comment with 4 bytes a character",
    "a word behind a time", "a word behind an integer", "a word behind a string", "a number behind a duration", "a number behind a string",
    "a string behind a word", "a string behind a number", "a string behind a string", "a point behind an integer", "a point behind ..",
    "= behind ==", "a number apart from a point behind an integer", "a number behind a point apart from an integer",
    "integer longer", "integer shorter", "time longer", "time shorter", "duration longer", "duration shorter", "decimal longer",
    "decimal shorter", "ms for another unit", "s for another unit", "m for another unit", "h for another unit", "20 places put in",
    "20 places taken out", "respelled alone", "no token", "one token", "1024 tokens", "16384 bytes", "16384 bytes before", "token past line 255",
    "token past column 255", "refused 2", "refused 3", "refused 53", "refused 20", "refused 21", "refused 22", "refused 23", "refused 24",
    "refused 25", "refused 26", "refused 27", "refused 28", "refused 29", "refused 30", "refused 31", "refused 32", "refused 33",
    "refused 34", "refused 35", "refused 36", "refused 37", "refused 38", "refused 39", "refused 40", "refused 41", "refused 50",
    "refused 57", "refused 58", "refused 59", "refused 63", "refused 64", "refused 65", "refused 66", "refused at the first token",
    "refused at a later token", "refused at the end", "refused at the end, without tokens", "refused with a detail", "refused on another line",
    "refused in another column alone", "refused at the same place", "refused at a respelled number", "at the end on another line",
    "at the end behind a comment", "accepted with a name", "accepted with a name of wide characters", "accepted with a shown name",
    "accepted with a text", "accepted with a topic", "accepted with days", "accepted with a respelled number", "accepted with conditions",
    "accepted by the default call", "accepted by the archive call", "accepted by the shop call", "refused by the default call",
    "refused by the archive call", "refused by the shop call", "accepted, on a case line", "refused, on a case line", "replaced, accepted",
    "replaced, refused",
];

const DECIMAL: u32 = 6;
const EQUAL: u32 = 15;
const ASSIGN: u32 = 14;
const LONGEST: usize = 16_384;
const FAR: u32 = 256;
const LONG: usize = 20;

/// The sorts that a case with this answer and its reflowed text show; none if the text is the same.
pub fn sorts(case: &Case, answer: &str, reflowed: &Reflowed) -> Vec<String> {
    let texts = [&case.text, &reflowed.case.text].map(|text| std::str::from_utf8(text));
    let [Ok(before), Ok(after)] = texts else { return Vec::new() };
    if before == after {
        return Vec::new();
    }
    let pair = Pair { before, after, reflowed, gaps: gaps(before, after, reflowed) };
    let mut sorts = pair.white_space();
    sorts.extend(pair.comments());
    sorts.extend(pair.side_by_side());
    sorts.extend(pair.spellings());
    sorts.extend(pair.sizes());
    sorts.extend(pair.said(case, answer));
    sorts
}

/// What stands between two tokens: the white space, with one LF for a comment and its end, and the comments.
struct Gap {
    all: String,
    white: String,
    comments: Vec<String>,
}

impl Gap {
    fn of(bytes: &[u8]) -> Gap {
        let all = String::from_utf8_lossy(bytes).into_owned();
        let (mut white, mut comments) = (String::new(), Vec::new());
        let mut rest = all.as_str();
        while let Some((space, comment)) = rest.split_once('#') {
            white.push_str(space);
            let end = comment.find('\n').unwrap_or(comment.len());
            comments.push(comment[..end].to_string());
            rest = &comment[end..];
        }
        white.push_str(rest);
        Gap { all, white, comments }
    }

    fn breaks(&self) -> bool {
        self.white.contains('\n')
    }
}

fn is_number(kind: u32) -> bool {
    (INTEGER..=DECIMAL).contains(&kind)
}

/// The unit of a duration as it is spelled.
fn unit(spelling: &str) -> &str {
    spelling.trim_start_matches(|c: char| c.is_ascii_digit() || c == '.')
}

/// The places behind the point of a number.
fn places_of(spelling: &str) -> usize {
    spelling.split_once('.').map_or(0, |(_, behind)| behind.bytes().take_while(u8::is_ascii_digit).count())
}

/// What stands before each token and behind the last, in the one text and in the other.
fn gaps(before: &str, after: &str, reflowed: &Reflowed) -> Vec<(Gap, Gap)> {
    let of = |text: &str, lexing| generate::gaps(text.as_bytes(), lexing).into_iter().map(Gap::of).collect::<Vec<_>>();
    of(before, &reflowed.before).into_iter().zip(of(after, &reflowed.after)).collect()
}

/// Two texts with the same tokens.
struct Pair<'a> {
    before: &'a str,
    after: &'a str,
    reflowed: &'a Reflowed,
    gaps: Vec<(Gap, Gap)>,
}

impl Pair<'_> {
    fn records(&self) -> &[[u32; RECORD]] {
        &self.reflowed.after.records
    }

    fn kind(&self, at: usize) -> u32 {
        self.records()[at][0]
    }

    /// How a token is spelled in the one text and in the other.
    fn spelled(&self, at: usize) -> (&str, &str) {
        let Reflowed { before, after, .. } = self.reflowed;
        (&self.before[generate::span(&before.records[at])], &self.after[generate::span(&after.records[at])])
    }

    /// Whether a token, or the end, stands in parentheses.
    fn in_parentheses(&self) -> Vec<bool> {
        let mut open = 0_usize;
        let mut inside = vec![false];
        for record in self.records() {
            match record[0] {
                OPEN => open += 1,
                CLOSE => open = open.saturating_sub(1),
                _ => {}
            }
            inside.push(open > 0);
        }
        inside
    }

    fn white_space(&self) -> Vec<String> {
        let (gaps, inside) = (&self.gaps, self.in_parentheses());
        let last = gaps.len() - 1;
        let characters: BTreeSet<char> = gaps.iter().flat_map(|(_, new)| new.white.chars()).collect();
        let mut sorts: Vec<String> = characters.into_iter().map(|c| format!("U+{:04X}", u32::from(c))).collect();
        for (at, (old, new)) in gaps.iter().enumerate() {
            let (some, none) = (old.all.is_empty() && !new.all.is_empty(), !old.all.is_empty() && new.all.is_empty());
            let put_in = !old.breaks() && new.breaks();
            let (first, behind) = (at == 0 && last > 0, at == last && last > 0);
            let between = at > 0 && at < last;
            sorts.extend(shown(&[
                (new.white.contains("\r\n"), "CR LF"),
                (new.white.contains("\n\n") || new.white.contains("\n\r\n"), "a blank line"),
                (new.white.contains("\n\t"), "a tab behind LF"),
                (none && between, "none for some"),
                (some && between, "some for none"),
                (some && first, "some before the first token"),
                (none && first, "none before the first token"),
                (some && behind, "some behind the last token"),
                (none && behind, "none behind the last token"),
                (put_in, "a line break put in"),
                (old.breaks() && !new.breaks(), "a line break taken out"),
                (put_in && inside[at], "a line break in parentheses"),
                (put_in && at < last && self.kind(at) == OPEN, "a line break before ("),
                (put_in && at > 0 && self.kind(at - 1) == OPEN, "a line break behind ("),
                (put_in && at < last && self.kind(at) == CLOSE, "a line break before )"),
            ]));
        }
        sorts
    }

    fn comments(&self) -> Vec<String> {
        let (gaps, inside) = (&self.gaps, self.in_parentheses());
        let last = gaps.len() - 1;
        let mut sorts = Vec::new();
        for (at, (old, new)) in gaps.iter().enumerate() {
            let (had, has) = (!old.comments.is_empty(), !new.comments.is_empty());
            let any = |is: &dyn Fn(&str) -> bool| new.comments.iter().any(|comment| is(comment)) && old.comments != new.comments;
            let wide = |bytes: usize| any(&|comment| comment.chars().any(|c| c.len_utf8() == bytes));
            sorts.extend(shown(&[
                (!had && has, "a comment put in"),
                (had && !has, "a comment taken out"),
                (had && has && old.comments != new.comments, "a comment for another"),
                (!had && has && inside[at], "a comment in parentheses"),
                (at > 0 && new.all.starts_with('#') && !had, "a comment directly behind a token"),
                (at == last && has && !had, "a comment before the end"),
                (at == last && has && !had && !new.all.ends_with('\n') && new.all.ends_with(new.comments.last().map_or("", String::as_str)),
                    "a comment up to the end"),
                (any(&str::is_empty), "an empty comment"),
                (any(&|comment| comment.contains('"')), "a comment with a quote"),
                (any(&|comment| comment.contains('#')), "a comment with #"),
                (any(&|comment| comment.contains('\r')), "a comment with CR"),
                (wide(2), "a comment with 2 bytes a character"),
                (wide(3), "a comment with 3 bytes a character"),
                (wide(4), "a comment with 4 bytes a character"),
            ]));
        }
        sorts
    }

    /// Tokens with nothing between them that had something there, and an integer, a point and a number.
    fn side_by_side(&self) -> Vec<String> {
        let gaps = &self.gaps;
        let mut sorts = Vec::new();
        for at in 1..self.records().len() {
            let (first, second) = (self.kind(at - 1), self.kind(at));
            let near = |at: usize| gaps[at].1.all.is_empty();
            let point = at > 1 && self.kind(at - 2) == INTEGER && first == POINT && is_number(second);
            sorts.extend(shown(&[
                (point && near(at - 1) && !near(at), "a number apart from a point behind an integer"),
                (point && !near(at - 1) && near(at), "a number behind a point apart from an integer"),
            ]));
            if !near(at) || gaps[at].0.all.is_empty() {
                continue;
            }
            sorts.extend(shown(&[
                (first == TIME && second == WORD, "a word behind a time"),
                (first == INTEGER && second == WORD, "a word behind an integer"),
                (first == STRING && second == WORD, "a word behind a string"),
                (first == DURATION && is_number(second), "a number behind a duration"),
                (first == STRING && is_number(second), "a number behind a string"),
                (first == WORD && second == STRING, "a string behind a word"),
                (is_number(first) && second == STRING, "a string behind a number"),
                (first == STRING && second == STRING, "a string behind a string"),
                (first == INTEGER && second == POINT, "a point behind an integer"),
                (first == POINTS && second == POINT, "a point behind .."),
                (first == EQUAL && second == ASSIGN, "= behind =="),
            ]));
        }
        sorts
    }

    /// Whether a token is spelled in another way.
    fn is_respelled(&self, at: usize) -> bool {
        let (old, new) = self.spelled(at);
        old != new
    }

    fn any_respelled(&self) -> bool {
        (0..self.records().len()).any(|at| self.is_respelled(at))
    }

    fn spellings(&self) -> Vec<String> {
        let mut sorts = Vec::new();
        for at in (0..self.records().len()).filter(|&at| self.is_respelled(at)) {
            let (old, new) = self.spelled(at);
            let kind = match self.kind(at) {
                INTEGER => "integer",
                TIME => "time",
                DURATION => "duration",
                _ => "decimal",
            };
            sorts.extend((new.len() > old.len()).then(|| format!("{kind} longer")));
            sorts.extend((new.len() < old.len()).then(|| format!("{kind} shorter")));
            let long = [old, new].map(|spelling| kind == "duration" && places_of(spelling) >= LONG);
            sorts.extend((kind == "duration" && unit(old) != unit(new)).then(|| format!("{} for another unit", unit(new))));
            sorts.extend(shown(&[(!long[0] && long[1], "20 places put in"), (long[0] && !long[1], "20 places taken out")]));
        }
        let same_gaps = self.gaps.iter().all(|(old, new)| old.all == new.all);
        sorts.extend(shown(&[(same_gaps && self.any_respelled(), "respelled alone")]));
        sorts
    }

    fn sizes(&self) -> Vec<String> {
        let count = self.records().len();
        let far = |of: fn((u32, u32)) -> u32| self.records().iter().any(|record| of(cases::line_and_column(record[4])) >= FAR);
        shown(&[
            (count == 0, "no token"),
            (count == 1, "one token"),
            (count == MOST_TOKENS, "1024 tokens"),
            (self.after.len() == LONGEST, "16384 bytes"),
            (self.before.len() == LONGEST, "16384 bytes before"),
            (far(|place| place.0), "token past line 255"),
            (far(|place| place.1), "token past column 255"),
        ])
    }

    /// What both calls say, by the case's own answer.
    fn said(&self, case: &Case, answer: &str) -> Vec<String> {
        let call = match case.habit() {
            Habit::Rule => "by the default call",
            Habit::Archive => "by the archive call",
            Habit::Shop => "by the shop call",
        };
        let says = if refusal(answer).is_some() { "refused" } else { "accepted" };
        let mut sorts = vec![format!("{says} {call}")];
        sorts.extend(case.settings.is_none().then(|| format!("{says}, on a case line")));
        sorts.extend(if case.habit() == Habit::Archive { repeats::sorts(case, answer) } else { Vec::new() });
        match refusal(answer) {
            Some((number, place)) => {
                sorts.push(format!("refused {number}"));
                sorts.extend(if matches!(number, "2" | "3" | "53") { Vec::new() } else { self.refused(place) });
            }
            None => sorts.extend(self.accepted(answer)),
        }
        sorts
    }

    /// Where a refusal with this `LINE COLUMN DETAIL` stands in both texts.
    fn refused(&self, place: &str) -> Vec<String> {
        let Some((place, detail)) = place.rsplit_once(' ') else { return Vec::new() };
        let (old, new) = (places(&self.reflowed.before), places(&self.reflowed.after));
        let Some(at) = old.iter().position(|known| known == place) else { return Vec::new() };
        let line = |place: &str| place.split(' ').next().map(String::from);
        let (end, other_line) = (at + 1 == old.len(), line(&old[at]) != line(&new[at]));
        let comment = end && self.gaps.last().is_some_and(|(_, gap)| !gap.comments.is_empty());
        shown(&[
            (at == 0 && !end, "refused at the first token"),
            (at > 0 && !end, "refused at a later token"),
            (end && at > 0, "refused at the end"),
            (end && at == 0, "refused at the end, without tokens"),
            (detail != "0", "refused with a detail"),
            (other_line, "refused on another line"),
            (!other_line && old[at] != new[at], "refused in another column alone"),
            (old[at] == new[at], "refused at the same place"),
            (!end && self.is_respelled(at), "refused at a respelled number"),
            (end && other_line, "at the end on another line"),
            (comment, "at the end behind a comment"),
        ])
    }

    fn accepted(&self, answer: &str) -> Vec<String> {
        let tokens: Vec<Token> = tokens(self.before, answer).collect();
        let names: Vec<&str> = (0..tokens.len()).filter(|&at| tokens[at].kind == STRING && reference(&tokens, at).is_some())
            .map(|at| tokens[at].text).collect();
        let any = |is: &dyn Fn(&str) -> bool| answer.lines().any(is);
        let entry = |line: &str| line.starts_with("T ") || line.starts_with("C ");
        shown(&[
            (!names.is_empty(), "accepted with a name"),
            (names.iter().any(|name| !name.is_ascii()), "accepted with a name of wide characters"),
            (any(&|line| entry(line) && line.contains(" x") && !line.starts_with("T mqtt ")), "accepted with a shown name"),
            (any(&|line| entry(line) && line.contains(" text x")), "accepted with a text"),
            (any(&|line| line.starts_with("T mqtt ")), "accepted with a topic"),
            (any(&|line| line.starts_with("C day_in ") || line.starts_with("T at_") && line.contains(" on ")), "accepted with days"),
            (self.any_respelled(), "accepted with a respelled number"),
            (any(&|line| line.starts_with("C ")), "accepted with conditions"),
        ])
    }
}
