//! Document 02 §14: a case with its text in another layout, and what its answer must be. "Two texts, all else given alike, whose tokens
//! agree in number, kind, value and the bytes of words and strings, and which both pass questions 1 and 4 and the lexer".

use crate::tokens::{STRING, WORD};
use cases::{line_and_column, Case, Lexing, LEAST_WORDS, RECORD};

/// A case with a reflowed text, and the lexing of the text before and after.
pub struct Reflowed {
    pub case: Case,
    pub before: Lexing,
    pub after: Lexing,
}

/// The lexing of a text that passes questions 1 and 4 and the lexer. The case's own buffer plays no part.
fn passed(text: &[u8]) -> Option<Lexing> {
    Some(second::lexing(text, LEAST_WORDS).0).filter(|lexing| lexing.number == 0)
}

/// The case with its text reflowed: nothing if its own does not pass, or has no room for another layout. The new text is lexed again, and
/// where its tokens are others the generator is wrong, not a reader: then the error says so.
pub fn reflow(case: &Case, attempt: u64) -> Result<Option<Reflowed>, String> {
    let Some(before) = passed(&case.text) else { return Ok(None) };
    let other = generate::reflowed(case, &before, attempt);
    if other.text == case.text { Ok(None) } else { checked(case, before, other.text).map(Some) }
}

fn checked(case: &Case, before: Lexing, text: Vec<u8>) -> Result<Reflowed, String> {
    match passed(&text) {
        Some(after) if same_tokens(&case.text, &before, &text, &after) => Ok(Reflowed { case: Case { text, ..case.clone() }, before, after }),
        _ => Err(format!(
            "the generator's reflowed text of case {} has other tokens\n{}\n{}", case.id, case.text.escape_ascii(), text.escape_ascii()
        )),
    }
}

/// "Agree in number, kind, value and the bytes of words and strings."
fn same_tokens(text: &[u8], before: &Lexing, other: &[u8], after: &Lexing) -> bool {
    let bytes = |text: &[u8], [kind, _, start, length, _]: &[u32; RECORD]| {
        matches!(*kind, WORD | STRING).then(|| text[*start as usize..(start + length) as usize].to_vec())
    };
    let same = |(a, b): (&[u32; RECORD], &[u32; RECORD])| a[..2] == b[..2] && bytes(text, a) == bytes(other, b);
    before.records.len() == after.records.len() && before.records.iter().zip(&after.records).all(same)
}

fn token_line([kind, number, start, length, place]: &[u32; RECORD]) -> String {
    let (line, column) = line_and_column(*place);
    format!("token {kind} {number} {start} {length} {line} {column}")
}

impl Reflowed {
    /// The case with this text, if both pass and have the same tokens.
    pub fn of(case: &Case, text: Vec<u8>) -> Option<Reflowed> {
        checked(case, passed(&case.text)?, text).ok()
    }

    /// What the answer to the reflowed text says of the case's own: the token lines and the place of a refusal are changed for those of the
    /// same token, or of the end. What does not stand where it must is marked, so that it is equal to no answer.
    pub fn carried_back(&self, answer: &str) -> String {
        let mut records = self.after.records.iter().zip(&self.before.records);
        let lines = answer.lines().map(|line| match line.split_once(' ') {
            Some(("token", _)) => match records.next() {
                Some((after, before)) if line == token_line(after) => token_line(before),
                _ => format!("{line} is not due"),
            },
            Some(("refused", fields)) => self.refused(fields).unwrap_or_else(|| line.to_string()),
            _ => line.to_string(),
        });
        lines.map(|line| line + "\n").collect()
    }

    /// A refusal with its place changed; nothing for one that keeps it.
    fn refused(&self, fields: &str) -> Option<String> {
        let [number, line, column, detail] = fields.split(' ').collect::<Vec<_>>()[..] else { return None };
        if matches!(number, "2" | "3" | "53") {
            return None;
        }
        let due = self.index(&format!("{line} {column}")).map(|at| places(&self.before).swap_remove(at));
        Some(match due {
            Some(place) => format!("refused {number} {place} {detail}"),
            None => format!("refused {number} {line} {column} {detail} stands at no token"),
        })
    }

    /// Which token of the reflowed text stands at this place; the number of tokens for the end.
    fn index(&self, place: &str) -> Option<usize> {
        places(&self.after).iter().position(|known| known == place)
    }
}

/// The places of all tokens, and of the end.
pub fn places(lexing: &Lexing) -> Vec<String> {
    let tokens = lexing.records.iter().map(|record| line_and_column(record[4]));
    tokens.chain([(lexing.line, lexing.column)]).map(|(line, column)| format!("{line} {column}")).collect()
}

#[cfg(test)]
mod tests {
    use super::*;

    fn case(text: &str) -> Case {
        Case::new(1, LEAST_WORDS, text, b"primary,0\n")
    }

    #[test]
    fn other_tokens_are_the_generators_fault() {
        let checked = |text: &str, other: &str| {
            let case = case(text);
            checked(&case, passed(&case.text).expect("a text that passes"), other.as_bytes().to_vec())
        };
        for (text, other) in [
            ("when lamp(\"a\")", " when\u{3000}lamp # \"\n(\r\n\"a\"\t)#"), ("5s 7:05 007 1.5", "5000ms 07:05 7 01.50"), ("60s", "1m"),
            ("", "# \u{e9}"), ("7:05 on", "7:05on"), ("\"a b\"", "\"a b\" "), ("5m 30s", "5m30s"),
        ] {
            assert!(checked(text, other).is_ok(), "{other}");
            assert!(checked(other, text).is_ok(), "{text}");
        }
        for (text, other) in [
            ("5 s", "5s"), ("a b", "ab"), ("a b", "a c"), ("a", "A"), ("a", "a a"), ("a", ""), (". .", ".."), ("5 . 5", "5.5"), ("= =", "=="), ("5", "6"),
            ("\"a\"", "\"a \""), ("\"a\"", "a"), ("5s", "5001ms"), ("1.5", "1.5s"), ("a", "a @"), ("5", "5.00000"), ("a", "# a"),
        ] {
            let wrong = checked(text, other).err().expect(other);
            assert!(wrong.starts_with("the generator's reflowed text of case 1 has other tokens\n"), "{wrong}");
            assert!(Reflowed::of(&case(text), other.as_bytes().to_vec()).is_none());
        }
        for text in ["@", "24:00", "\"", "\u{e9}", &"(".repeat(1_025), &" ".repeat(16_385)] {
            assert!(passed(text.as_bytes()).is_none() && matches!(reflow(&case(text), 0), Ok(None)), "{text}");
        }
        assert!(passed(b"\xff").is_none() && passed(&[b' '; 16_384]).is_some());
    }

    #[test]
    fn the_stored_layouts_of_a_rule_have_the_same_tokens() {
        for [first, others @ ..] in generate::LAYOUTS {
            for other in others {
                assert!(Reflowed::of(&case(first), other.as_bytes().to_vec()).is_some(), "{first}\n{other}");
            }
        }
    }

    #[test]
    fn an_answer_is_carried_back_by_tokens() {
        let reflowed = Reflowed::of(&case("when foo"), b"\n when # \xc3\xa9\n\n  foo \n".to_vec()).expect("the same tokens");
        let tokens = "token 1 0 2 4 2 2\ntoken 1 0 15 3 4 3\nbuffer kept\n";
        let own = "token 1 0 0 4 1 1\ntoken 1 0 5 3 1 6\nbuffer kept\n";
        for (said, wanted) in [
            ("refused 21 4 3 0\n", "refused 21 1 6 0\n"), ("refused 38 2 2 0\n", "refused 38 1 1 0\n"), ("refused 20 5 1 7\n", "refused 20 1 9 7\n"),
            ("refused 20 1 6 0\n", "refused 20 1 6 0 stands at no token\n"), ("refused 20 0 0 0\n", "refused 20 0 0 0 stands at no token\n"),
            ("refused 3 4 0 0\n", "refused 3 4 0 0\n"), ("refused 53 0 0 0\n", "refused 53 0 0 0\n"), ("accepted 1 0\nT x\n", "accepted 1 0\nT x\n"),
            ("token 7\n", "token 7 is not due\n"),
        ] {
            assert_eq!(reflowed.carried_back(&format!("case 1\n{tokens}{said}")), format!("case 1\n{own}{wanted}"));
        }
        let moved = reflowed.carried_back(&format!("case 1\n{own}accepted 1 0\n"));
        assert_eq!(moved, "case 1\ntoken 1 0 0 4 1 1 is not due\ntoken 1 0 5 3 1 6 is not due\nbuffer kept\naccepted 1 0\n");
        assert_eq!((reflowed.carried_back("case 1\nrefused 2 0 0 0\n"), reflowed.carried_back("panicked\n")), ("case 1\nrefused 2 0 0 0\n".into(), "panicked\n".into()));
    }
}
