//! Document 02 §12, MQTT triggers: what a topic may be, what may follow it, and how many different ones may stand named.

mod common;
use cases::{Case, Habit};
use common::*;

/// Lent topics `1` to `COUNT`.
fn numbered(count: u32) -> String {
    (1..=count).map(|n| n.to_string()).collect::<Vec<_>>().join("\n")
}

fn call(text: &str, lent: &[u8]) -> Case {
    case(text.as_bytes(), ALL.as_bytes()).with_topics(lent)
}

/// What is said of a text with these lent topics: the same by every habit, party and primary.
fn says(text: &str, lent: impl AsRef<[u8]>) -> String {
    let call = call(text, lent.as_ref());
    let says = verdict_of(&call);
    for habit in Habit::ALL {
        assert_eq!(verdict_of(&call.with_habit(habit)), says, "{text}");
        assert_eq!(verdict_of(&call.with_habit(habit).with_party(0, 200)), says, "{text}");
    }
    says
}

fn accepts(text: &str, lent: impl AsRef<[u8]>) -> bool {
    says(text, lent).starts_with("accepted ")
}

/// The places of the first four triggers `mqtt` of texts that `naming` makes of topics of one byte.
const MQTTS: [&str; 4] = ["1 6", "1 20", "1 34", "1 48"];

fn naming(topics: &[&str]) -> String {
    topics.iter().map(|topic| format!("when mqtt \"{topic}\"")).collect::<Vec<_>>().join(" ")
}

/// What is said of a text with this one topic, behind `refused ` or `accepted `.
fn topic(topic: &str) -> String {
    let says = says(&naming(&[topic]), "");
    says.split_once(' ').expect("a verdict").1.to_string()
}

const FORBIDDEN: &str = "64 1 11 0";
const TOO_LONG: &str = "65 1 11 0";

#[test]
fn a_topic_is_read() {
    assert_eq!(says("when mqtt \"shop/till 4\"", ""), "accepted 1 0\nT mqtt x73686f702f74696c6c2034");
    assert_eq!(says("when mqtt \"é\" if sun is up", ""), "accepted 1 1\nT mqtt xc3a9\nC sun_is up");
    let two = "accepted 3 0\nT mqtt x61\nT http_trigger\nT mqtt x61";
    assert_eq!(says("when mqtt \"a\" when http trigger when mqtt \"a\"", ""), two);
    assert_eq!(verdict("when mqtt \"a\""), "accepted 1 0\nT mqtt x61");
}

#[test]
fn p44_an_empty_topic_a_long_one_and_none() {
    assert_eq!(topic(""), FORBIDDEN);
    assert_eq!(topic(&"a".repeat(49)), TOO_LONG);
    assert_eq!(topic(&("+".to_string() + &"a".repeat(59))), FORBIDDEN);
    assert_eq!(topic(&("a".repeat(59) + "+")), FORBIDDEN);
    refused(&[
        ("when mqtt", "20 1 10 0"), ("when mqtt a", "20 1 11 0"), ("when mqtt(\"a\")", "20 1 10 0"), ("when mqtt 5", "20 1 11 0"),
        ("when mqtt when", "20 1 11 0"), ("when mqtt is", "20 1 11 0"), ("when mqtt . \"a\"", "20 1 11 0"),
        ("when mqtt \"a\" \"b\"", "41 1 15 0"), ("when Mqtt \"a\"", "21 1 6 0"),
    ]);
    condition_refused(&[("mqtt \"a\"", "21 1 22 0")]);
}

#[test]
fn p45_the_forbidden_characters() {
    let planes = (0..17).flat_map(|plane| [plane * 0x1_0000 + 0xFFFE, plane * 0x1_0000 + 0xFFFF]);
    let noncharacters: Vec<u32> = (0xFDD0..=0xFDEF).chain(planes).collect();
    assert_eq!(noncharacters.len(), 66);
    let controls: Vec<u32> = (0..=0x1F).chain(0x7F..=0x9F).collect();
    assert_eq!(controls.len(), 65);
    // LF ends the string before there is a topic.
    let forbidden = noncharacters.into_iter().chain(controls).filter(|&code| code != 0xA).chain([0x2B, 0x23]);
    for c in forbidden.map(|code| char::from_u32(code).expect("no surrogate")) {
        for text in [c.to_string(), format!("a{c}"), format!("{c}/b")] {
            assert_eq!(topic(&text), FORBIDDEN, "{:x}", u32::from(c));
        }
    }
    for c in "\u{20}!$*,/\u{7E}\u{A0}\u{AD}\u{2028}\u{FDCF}\u{FDF0}\u{FEFF}\u{FFFD}\u{10000}\u{1FFFD}\u{20000}\u{10FFFD}".chars() {
        assert_eq!(topic(&c.to_string()).lines().next(), Some("1 0"), "{:x}", u32::from(c));
    }
}

#[test]
fn p45_48_are_bytes() {
    let bytes = "é".repeat(24);
    assert_eq!(topic(&"a".repeat(48)).lines().next(), Some("1 0"));
    assert_eq!(topic(&bytes).lines().next(), Some("1 0"));
    assert_eq!(topic(&format!("{bytes}x")), TOO_LONG);
    assert_eq!(topic(&"\u{1F4A1}".repeat(12)).lines().next(), Some("1 0"));
}

#[test]
fn p46_a_following_is_stays_left_out() {
    let eight = numbered(8);
    for (text, refusal) in [
        ("when mqtt \"a\" is", "40 1 15 0"), ("when mqtt \"a\" is \"b\"", "40 1 15 0"), ("when mqtt \"a\" is foo", "40 1 15 0"),
        ("when mqtt \"a\"\nis \"\" if lamp(", "40 2 1 0"), ("when mqtt \"1\" is", "40 1 15 0"), ("when mqtt \"a+\" is", "64 1 11 0"),
        ("when mqtt \"\" is", "64 1 11 0"), ("when mqtt is", "20 1 11 0"), ("when mqtt is \"a\"", "20 1 11 0"),
        ("when mqtt \"1\" when mqtt \"a\" is \"b\"", "40 1 29 0"), ("when mqtt \"1\" when is", "21 1 20 0"),
    ] {
        assert_eq!([says(text, ""), says(text, &eight)], [format!("refused {refusal}"), format!("refused {refusal}")], "{text}");
    }
    assert_eq!(says("when mqtt \"a\" when mqtt \"b\" is", &eight), "refused 66 1 6 0");
    let long = naming(&[&"a".repeat(49)]) + " is";
    assert_eq!(says(&long, &eight), "refused 65 1 11 0");
}

#[test]
fn p47_the_ninth_is_refused_at_its_word_and_before_what_follows() {
    let eight = numbered(8);
    for text in ["when mqtt \"a\"", "when mqtt \"a\" foo", "when mqtt \"a\" if lamp(", "when mqtt \"a\" when mqtt \"\"", "when mqtt \"a\" mqtt"] {
        assert_eq!(says(text, &eight), "refused 66 1 6 0", "{text}");
    }
    assert_eq!(says("when mqtt \"1\" when\n mqtt \"a\"", &eight), "refused 66 2 2 0");
    assert_eq!(says("when every 5ms when mqtt \"a\"", &eight), "refused 35 1 12 0");
    assert_eq!(says("when mqtt \"a\" @", &eight), "refused 10 1 15 0");
    let five = "when http trigger ".repeat(4) + "when mqtt \"a\"";
    assert_eq!(says(&five, &eight), "refused 37 1 73 0");
}

#[test]
fn p48_different_ones_are_counted() {
    let seven = numbered(7);
    assert!(accepts(&naming(&["a"]), &seven) && accepts(&naming(&["a", "a", "a", "a"]), &seven));
    assert_eq!(says(&naming(&["a", "a", "b"]), &seven), "refused 66 1 34 0");
    for lent in [format!("{seven}\n"), format!("\n\n{seven}\n\n"), format!("{seven}\n{seven}"), seven.replace('\n', "\n\n"), format!("{seven}\n7\n7\n1")] {
        assert!(accepts(&naming(&["a", "7"]), &lent), "{lent:?}");
        assert_eq!(says(&naming(&["a", "b"]), &lent), "refused 66 1 20 0", "{lent:?}");
    }
    for (lent, new) in [(7, 1), (6, 2), (5, 3), (4, 4)] {
        assert!(accepts(&naming(&["a", "b", "c", "d"][..new]), numbered(lent)), "{lent}");
    }
    for (lent, at) in [(8, 0), (7, 1), (6, 2), (5, 3)] {
        assert_eq!(says(&naming(&["a", "b", "c", "d"]), numbered(lent)), format!("refused 66 {} 0", MQTTS[at]), "{lent}");
    }
    assert!(accepts(&naming(&["a", "b", "c", "d"]), "") && accepts(&naming(&["1", "a", "a", "2"]), &seven));
}

#[test]
fn p49_lent_topics_alone_break_no_limit() {
    for count in [8, 9, 10, 300] {
        let lent = numbered(count);
        assert!(accepts(&naming(&["8", "1", "2", "8"]), &lent) && accepts("when http trigger", &lent));
        for (at, topics) in [["a", "1", "2", "3"], ["1", "a", "2", "3"], ["1", "2", "a", "3"], ["1", "2", "3", "a"]].iter().enumerate() {
            assert_eq!(says(&naming(topics), &lent), format!("refused 66 {} 0", MQTTS[at]));
        }
    }
    assert_eq!(says("when mqtt \"10\"", numbered(10)), "accepted 1 0\nT mqtt x3130");
}

#[test]
fn p50_lent_lines_are_not_judged() {
    let seven = numbered(7);
    let long = "x".repeat(60);
    for odd in ["+", "a#", "\u{85}", &long, "\r", " ", "a\r", "\"", "\0"] {
        let lent = format!("{seven}\n{odd}");
        assert_eq!(says(&naming(&["a"]), &lent), "refused 66 1 6 0", "{odd:?}");
        assert!(accepts(&naming(&["7"]), &lent));
    }
    let raw: &[u8] = b"\xFF\n\xC3\n\x80a\n\xED\xA0\x80\n1\n2\n3\n4";
    assert_eq!(says(&naming(&["a"]), raw), "refused 66 1 6 0");
    assert!(accepts(&naming(&["4"]), raw) && accepts(&naming(&["a"]), &raw[2..]));
    // A lent `a` CR is not `a`, and lines of CR alone are one topic.
    assert_eq!(says(&naming(&["7"]), numbered(8).replace('\n', "\r\n") + "\r\n"), "refused 66 1 6 0");
    assert_eq!(says(&naming(&["a"]), format!("\r\n\r\n{seven}")), "refused 66 1 6 0");
    assert!(accepts(&naming(&["a"]), "\r\n\r\n1\n2\n3\n4\n5\n6"));
}

#[test]
fn p51_topics_compare_byte_for_byte() {
    for (lent, new) in [("a", "A"), ("a", "a "), ("a", "a/"), ("a", "b"), ("é", "e\u{301}"), ("ab", "a"), ("a", "ab")] {
        let eight = format!("{}\n{lent}", numbered(7));
        assert!(accepts(&naming(&[lent]), &eight), "{lent}");
        assert_eq!(says(&naming(&[new]), &eight), "refused 66 1 6 0", "{lent} {new}");
    }
}

#[test]
fn the_first_questions_come_before_topics() {
    let eight = numbered(8);
    let first = |case: Case| verdict_of(&Case { settings: call("", eight.as_bytes()).settings, ..case });
    assert_eq!(first(case(b"when mqtt \"a\" \xFF", ALL.as_bytes())), "refused 4 1 15 0");
    assert_eq!(first(case(b"when mqtt \"a\"", b"")), "refused 3 1 0 0");
    assert_eq!(verdict_of(&call("when mqtt \"a\"", eight.as_bytes()).with_party(7, 2)), "refused 53 0 0 0");
}

#[test]
fn p52_the_domain() {
    let in_domain = |text: &str, lent: &[u8]| second::in_domain(&call(text, lent));
    let eight = numbered(8);
    for text in ["when mqtt", "when mqtt \"a\"", "when mqtt \"\"", "when mqtt \"a\" foo", "when mqtt is", "when mqtt \"a+\" is \"b\""] {
        assert!(in_domain(text, b"") && in_domain(text, eight.as_bytes()) && in_domain(text, "é\r\n+\n".as_bytes()), "{text}");
    }
    for text in ["when mqtt \"a\" is \"b\"", "when mqtt \"a\" is", "when mqtt \"a\" when at 7:05 on mon"] {
        assert!(!in_domain(text, b""), "{text}");
    }
    assert!(in_domain("when mqtt \"a\" when at 7:05 on mon", eight.as_bytes()));
    assert!(!in_domain("when mqtt \"a\"", b"a\n\xFF") && !in_domain("when mqtt \"a\"", b"\xC3\n\xA9"));
}
