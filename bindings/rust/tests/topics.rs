//! MQTT triggers: what a topic may be, and how many different ones stand beside those of earlier rules.

use tergyosul::{Party, Refusal, Rule, Trigger, TOKEN_WORDS};

const SHEET: &[u8] = b"primary,0\n";
const ZERO: Party = Party { number: 0, primary: 0 };
const SEVEN: &str = "1\n2\n3\n4\n5\n6\n7";
const EIGHT: &str = "1\n2\n3\n4\n5\n6\n7\n8";
const TEN: &str = "1\n2\n3\n4\n5\n6\n7\n8\n9\ntill/close\n";

/// The answer, which all calls give, with the same tokens.
fn read_bytes(text: &[u8], topics: &[u8]) -> Result<Rule, Refusal> {
    let [mut words, mut archive_words, mut shop_words] = [[9; TOKEN_WORDS]; 3];
    let answer = tergyosul::read(text, SHEET, ZERO.with_topics(topics), &mut words);
    let archive = tergyosul::read_archive(text, SHEET, ZERO.with_topics(topics), &mut archive_words);
    let shop = tergyosul::read_shop(text, SHEET, ZERO.with_topics(topics), &mut shop_words);
    assert_eq!((answer, words), (archive, archive_words));
    assert_eq!((answer, words), (shop, shop_words));
    answer
}

/// Number, line and column of a refusal. The detail is 0.
fn refused_bytes(text: &[u8], topics: &[u8]) -> (u32, u32, u32) {
    let r = read_bytes(text, topics).unwrap_err();
    assert_eq!(r.detail, 0);
    (r.number, r.line, r.column)
}

fn refused(text: &str, topics: &str) -> (u32, u32, u32) {
    refused_bytes(text.as_bytes(), topics.as_bytes())
}

/// The topics of an accepted text whose triggers are all `mqtt`.
fn topics_of<'a>(text: &'a str, topics: &str) -> Vec<&'a str> {
    let rule = read_bytes(text.as_bytes(), topics.as_bytes()).unwrap();
    assert!(rule.triggers().iter().all(|trigger| matches!(trigger, Trigger::MqttMessage(_))), "{text}");
    let named: Vec<&[u8]> = rule.topics(text.as_bytes()).collect();
    assert_eq!(named.len(), rule.triggers().len(), "{text}");
    named.into_iter().map(|topic| std::str::from_utf8(topic).expect("a rule's text is UTF-8")).collect()
}

/// Each of these topics behind `when mqtt`.
fn rule_on(topics: &[&str]) -> String {
    topics.iter().map(|topic| format!("when mqtt \"{topic}\" ")).collect()
}

#[test]
fn a_topic_is_a_part_of_the_text() {
    let text = "when mqtt \"till/close\"\nwhen mqtt \"Käse\"";
    assert_eq!(topics_of(text, ""), ["till/close", "Käse"]);
    let mixed = b"when http trigger when mqtt \"a\" if sun is up";
    assert_eq!(read_bytes(mixed, b"").unwrap().topics(mixed).collect::<Vec<_>>(), [b"a"]);
}

/// 64: `+`, `#`, a control character, a noncharacter, or nothing at all.
#[test]
fn an_empty_or_forbidden_topic_is_refused() {
    assert_eq!(refused("when mqtt \"\"", ""), (64, 1, 11));
    let forbidden = ["+", "#", "\0", "\t", "\r", "\u{1f}", "\u{7f}", "\u{80}", "\u{85}", "\u{9f}"];
    let noncharacters = ["\u{fdd0}", "\u{fdef}", "\u{fffe}", "\u{ffff}", "\u{1fffe}", "\u{10ffff}"];
    for character in forbidden.into_iter().chain(noncharacters) {
        for topic in [character.to_string(), format!("a/{character}"), format!("{character}/{}", "a".repeat(60))] {
            assert_eq!(refused(&rule_on(&[&topic]), ""), (64, 1, 11), "{topic:?}");
        }
    }
    for character in [" ", "*", "\u{a0}", "\u{ad}", "\u{2028}", "\u{feff}", "\u{fdcf}", "\u{fdf0}", "\u{fffd}", "\u{10fffd}"] {
        assert_eq!(topics_of(&rule_on(&[character]), ""), [character]);
    }
    let shown = read_bytes(b"when mqtt \"#\"", b"").unwrap_err().to_string();
    assert_eq!(shown, "1:11: a topic is empty, or a character of it is forbidden (refusal 64)");
}

/// 65: the 48 are bytes.
#[test]
fn a_topic_over_48_bytes_is_refused() {
    for longest in ["a".repeat(48), "é".repeat(24)] {
        assert_eq!(topics_of(&rule_on(&[&longest]), ""), [longest.as_str()]);
        assert_eq!(refused(&rule_on(&[&format!("{longest}x")]), ""), (65, 1, 11));
    }
    let shown = read_bytes(rule_on(&[&"a".repeat(49)]).as_bytes(), b"").unwrap_err().to_string();
    assert_eq!(shown, "1:11: a topic has more than 48 bytes (refusal 65)");
}

/// What a message says is not asked: 40 at the `is`, whatever follows, after 64 and 65 and before 66.
#[test]
fn what_a_message_says_is_left_out() {
    for behind in ["", " \"yes\"", " press", " if sun is up"] {
        assert_eq!(refused(&format!("when mqtt \"a\" is{behind}"), ""), (40, 1, 15));
        assert_eq!(refused(&format!("when mqtt \"a\" is{behind}"), EIGHT), (40, 1, 15));
        assert_eq!(refused(&format!("when mqtt \"+\" is{behind}"), EIGHT), (64, 1, 11));
    }
    assert_eq!(refused("when mqtt is", ""), (20, 1, 11));
    assert_eq!(refused("when mqtt(\"a\")", ""), (20, 1, 10));
}

/// 66, at the word `mqtt`: judged when its trigger was read, before what follows.
#[test]
fn a_new_topic_beside_eight_is_refused() {
    assert_eq!(topics_of(&rule_on(&["a"]), SEVEN), ["a"]);
    assert_eq!(refused(&rule_on(&["a"]), EIGHT), (66, 1, 6));
    assert_eq!(refused("when mqtt \"a\" foo", EIGHT), (66, 1, 6));
    assert_eq!(refused("when mqtt \"a\" if lamp(", EIGHT), (66, 1, 6));
    assert_eq!(refused("when http trigger\n  when mqtt \"a\"", EIGHT), (66, 2, 8));
    let shown = read_bytes(b"when mqtt \"a\"", EIGHT.as_bytes()).unwrap_err().to_string();
    assert_eq!(shown, "1:6: eight other topics are named already (refusal 66)");
}

/// Different ones are counted, and those of the text as they are met.
#[test]
fn a_topic_counts_once() {
    assert_eq!(topics_of(&rule_on(&["a", "a", "7", "a"]), SEVEN), ["a", "a", "7", "a"]);
    assert_eq!(refused(&rule_on(&["a", "a", "b"]), SEVEN), (66, 1, 34));
    assert_eq!(refused(&rule_on(&["a", "b", "c", "d"]), "1\n2\n3\n4\n5"), (66, 1, 48));
    assert_eq!(topics_of(&rule_on(&["a"]), &format!("{SEVEN}\n{SEVEN}\n\n\n{SEVEN}\n")), ["a"]);
}

#[test]
fn a_lent_topic_is_not_new() {
    assert_eq!(topics_of(&rule_on(&["8", "1"]), EIGHT), ["8", "1"]);
    // A part of a line is no topic, and a line of CR is one.
    assert_eq!(refused(&rule_on(&["till"]), &EIGHT.replace('8', "till/close")), (66, 1, 6));
    assert_eq!(refused(&rule_on(&["8"]), &EIGHT.replace('\n', "\r\n").replace('8', "8\r")), (66, 1, 6));
    assert_eq!(refused(&rule_on(&["a"]), &format!("{SEVEN}\n\r")), (66, 1, 6));
    // Lines are not judged: they need be no topics, and no UTF-8.
    assert_eq!(refused_bytes(b"when mqtt \"a\"", b"1\n2\n3\n4\n5\n+\n\xFE\n\xFF"), (66, 1, 6));
}

/// Lent topics alone break no limit.
#[test]
fn ten_lent_topics() {
    assert_eq!(topics_of(&rule_on(&["till/close", "9", "till/close"]), TEN), ["till/close", "9", "till/close"]);
    assert_eq!(refused(&rule_on(&["till/close", "9", "a"]), TEN), (66, 1, 43));
    assert_eq!(refused(&rule_on(&["a", "till/close"]), TEN), (66, 1, 6));
    let http = b"when http trigger";
    assert_eq!(read_bytes(http, TEN.as_bytes()), read_bytes(http, b""));
    let many: String = (0..5_000).map(|i| format!("topic/{i}\n")).collect();
    assert_eq!(topics_of(&rule_on(&["topic/4999"]), &many), ["topic/4999"]);
    assert_eq!(refused(&rule_on(&["topic/5000"]), &many), (66, 1, 6));
}

/// Topics are asked for nothing before a trigger is read.
#[test]
fn what_comes_before_a_topic() {
    for topics in ["", EIGHT, TEN] {
        assert_eq!(refused("when mqtt \"a\" @", topics), (10, 1, 15));
        assert_eq!(refused("when foo when mqtt \"a\"", topics), (21, 1, 6));
        assert_eq!(refused_bytes(b"when mqtt \"a\" \xFF", topics.as_bytes()), (4, 1, 15));
    }
    let other = Party { number: 3, primary: 0 }.with_topics(EIGHT.as_bytes());
    let refusal = tergyosul::read(b"when mqtt \"a\"", SHEET, other, &mut [0; TOKEN_WORDS]).unwrap_err();
    assert_eq!((refusal.number, refusal.line, refusal.column), (53, 0, 0));
}
