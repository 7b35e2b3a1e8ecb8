//! Document 02 §12: lent topics form the supplied Rust's rule set.

use crate::told::{case, told, S};

fn verdict_with(text: &str, lent: &[u8]) -> String {
    told(&case(text.as_bytes(), S.as_bytes()).with_topics(lent)).1.join(" / ")
}

/// What stands behind `buffer kept`.
fn says(text: &str, lent: &str) -> String {
    verdict_with(text, lent.as_bytes()).strip_prefix("buffer kept / ").expect("a verdict").to_owned()
}

const SEVEN: &str = "1\n2\n3\n4\n5\n6\n7";
const EIGHT: &str = "1\n2\n3\n4\n5\n6\n7\n8";
const TEN: &str = "1\n2\n3\n4\n5\n6\n7\n8\n9\n10\n";

#[test]
fn a_topic_is_judged() {
    assert_eq!(says("when mqtt \"é/1\"", ""), "accepted 1 0 / T mqtt xc3a92f31");
    assert_eq!(says("when mqtt", ""), "refused 20 1 10 0");
    for topic in ["", "+", "#", "a\r", "\u{7F}", "\u{9F}", "\u{FDD0}", "\u{FFFE}", "\u{10FFFF}"] {
        assert_eq!(says(&format!("when mqtt \"{topic}\""), EIGHT), "refused 64 1 11 0", "{topic:?}");
    }
    assert_eq!(says(&format!("when mqtt \"{}+\"", "a".repeat(60)), ""), "refused 64 1 11 0");
    assert_eq!(says(&format!("when mqtt \"{}x\" is", "é".repeat(24)), EIGHT), "refused 65 1 11 0");
}

#[test]
fn lent_topics_are_earlier_ones() {
    assert_eq!(says("when mqtt \"a\"", SEVEN), "accepted 1 0 / T mqtt x61");
    assert_eq!(says("when mqtt \"a\" when mqtt \"a\" when mqtt \"b\"", SEVEN), "refused 66 1 34 0");
    assert_eq!(says("when mqtt \"a\" foo", EIGHT), "refused 66 1 6 0");
    assert_eq!(says("when mqtt \"8\" when mqtt \"a\"", EIGHT), "refused 66 1 20 0");
    assert_eq!(says("when mqtt \"10\"", TEN), "accepted 1 0 / T mqtt x3130");
    assert_eq!(says("when mqtt \"10\" when mqtt \"11\"", TEN), "refused 66 1 21 0");
    assert_eq!(says("when mqtt \"a\" when mqtt \"b\" when mqtt \"c\" when mqtt \"d\"", "1\n2\n3\n4\n5"), "refused 66 1 48 0");
}

#[test]
fn lines_are_taken_as_they_come() {
    for lent in ["\n\n1\n2\n3\n\n4\n5\n6\n7\n\n", "1\n2\n3\n4\n5\n6\n7\n1\n7\n"] {
        assert_eq!(says("when mqtt \"a\"", lent), "accepted 1 0 / T mqtt x61", "{lent:?}");
    }
    for odd in ["\r", "a\r", "+", "x y", &"x".repeat(60)] {
        assert_eq!(says("when mqtt \"a\"", &format!("{SEVEN}\n{odd}")), "refused 66 1 6 0", "{odd:?}");
    }
}

#[test]
fn a_payload_is_left_out_whatever_is_lent() {
    for lent in ["", SEVEN, EIGHT, TEN] {
        for tail in ["", " \"b\"", " foo", " \"b\" when mqtt \"c\""] {
            assert_eq!(says(&format!("when mqtt \"a\" is{tail}"), lent), "refused 40 1 15 0", "{lent} {tail}");
        }
    }
    assert_eq!(says("when mqtt \"a\" when mqtt \"b\" is \"c\"", EIGHT), "refused 66 1 6 0");
    assert_eq!(says("when mqtt \"a\" when mqtt \"b\" is \"c\"", SEVEN), "refused 40 1 29 0");
    assert_eq!(says("when mqtt \"a+\" is \"c\"", ""), "refused 64 1 11 0");
}

#[test]
fn lent_lines_that_are_not_utf_8_are_outside_the_domain() {
    assert_eq!(verdict_with("when mqtt \"a\"", b"\xff"), "outside the domain");
    assert_eq!(verdict_with("when http trigger", b"1\n\xc3\n\xa9"), "outside the domain");
    assert_eq!(verdict_with("when @", b"\xff"), "buffer kept / refused 10 1 6 0");
}
