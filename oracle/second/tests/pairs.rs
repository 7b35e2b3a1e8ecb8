//! The twelve pairs of document 01. "The twelve pairs have party 0, primary 0", document 02 §6.

mod common;
use cases::Case;
use common::*;

fn call(text: &str) -> Case {
    case(text.as_bytes(), S.as_bytes()).with_party(0, 0)
}

/// The kinds and numbers of a text's tokens.
fn kinds(text: &str) -> String {
    let tokens = tokens(&call(text));
    let two = |line: &String| line.split(' ').take(2).collect::<Vec<_>>().join(" ");
    tokens.iter().map(two).collect::<Vec<_>>().join(", ")
}

fn says(text: &str, expected: &str) {
    assert_eq!(verdict_of(&call(text)), expected, "{text}");
    assert_eq!(verdict_with(text, S), expected, "{text}");
}

#[test]
fn pairs_of_tokens() {
    for (text, expected) in [
        ("1000000000", "3 1000000000"),
        ("7:05", "4 425"),
        ("0.001s", "5 1"),
        ("4294967.295s", "5 4294967295"),
        ("429496.7295", "6 4294967295"),
        ("5m30s", "5 300000, 5 30000"),
        ("5.", "3 5, 12 0"),
        ("1193h", "5 4294800000"),
    ] {
        assert_eq!(kinds(text), expected, "{text}");
    }
    for (text, number) in [
        ("1000000001", 12),
        ("007:05", 13),
        ("0.0005s", 18),
        ("4294967.296s", 17),
        ("429496.7296", 12),
        ("1194h", 17),
    ] {
        says(text, &format!("refused {number} 1 1 0"));
        assert_eq!(kinds(text), "", "{text}");
    }
}

#[test]
fn pair_8() {
    says("when lamp(\"Till\") turns on", "accepted 1 0\nT lamp_turns 1 7 on");
    says("when lamp(\"Aisle\") turns on", "refused 34 1 11 2");
}

#[test]
fn pair_9() {
    says("when lamp(\"Aisle\", adapter=1) turns on", "accepted 1 0\nT lamp_turns 1 4 on");
    says("when lamp(\"Till\", adapter=0) turns on", "refused 32 1 11 1");
}

#[test]
fn pair_10() {
    says("when at sunset - 2147483.648s", "accepted 1 0\nT at_solar sunset -2147483648");
    says("when at sunset + 2147483.648s", "refused 36 1 18 0");
}

#[test]
fn pair_11() {
    says("when input(dev=3, dev=5, inst=0) is press", "accepted 1 0\nT input_event instance 0 5 0 press");
    says("when input(group=2) becomes occupied", "refused 30 1 11 0");
}

#[test]
fn pair_12() {
    says("when controller starts if lamp(1).foo", "refused 20 1 38 0");
    says("when controller starts if lamp(1).foo == 1", "refused 21 1 35 0");
}
