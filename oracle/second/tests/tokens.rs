//! Tokens, their places, and the buffer.

mod common;
use cases::Case;
use common::*;

fn records(text: &str) -> Vec<String> {
    tokens(&case(text.as_bytes(), ALL.as_bytes()))
}

#[test]
fn each_kind() {
    let text = "a_1 \"é\" 07 7:05 1.5h 1.5 ( ) { } , . .. = == != >= <= > < + -";
    let expected = [
        "1 0 0 3 1 1",
        "2 0 5 2 1 5",
        "3 7 9 2 1 9",
        "4 425 12 4 1 12",
        "5 5400000 17 4 1 17",
        "6 15000 22 3 1 22",
        "7 0 26 1 1 26",
        "8 0 28 1 1 28",
        "9 0 30 1 1 30",
        "10 0 32 1 1 32",
        "11 0 34 1 1 34",
        "12 0 36 1 1 36",
        "13 0 38 2 1 38",
        "14 0 41 1 1 41",
        "15 0 43 2 1 43",
        "16 0 46 2 1 46",
        "17 0 49 2 1 49",
        "18 0 52 2 1 52",
        "19 0 55 1 1 55",
        "20 0 57 1 1 57",
        "21 0 59 1 1 59",
        "22 0 61 1 1 61",
    ];
    assert_eq!(records(text), expected);
}

#[test]
fn tokens_without_space_between_them() {
    let kinds = |text: &str| {
        let kind = |line: &String| line.split(' ').next().unwrap_or("").to_string();
        records(text).iter().map(kind).collect::<Vec<_>>().join(" ")
    };
    assert_eq!(kinds("..."), "13 12");
    assert_eq!(kinds("==="), "15 14");
    assert_eq!(kinds(">==<==!=="), "17 14 18 14 16 14");
    assert_eq!(kinds("1..2"), "3 13 3");
    assert_eq!(kinds("1...2"), "3 13 12 3");
    assert_eq!(kinds("1.2.3"), "6 12 3");
    assert_eq!(kinds("5.s"), "3 12 1");
    assert_eq!(kinds("7:05..8:05"), "4 13 4");
    assert_eq!(kinds("7:05s"), "4 1");
    assert_eq!(kinds("7:05.5"), "4 12 3");
    assert_eq!(kinds("5s3"), "5 3");
    assert_eq!(kinds("_5s"), "1");
    assert_eq!(kinds("\"\"\"a\"b"), "2 2 1");
    assert_eq!(kinds("a#\"b\n\"#\""), "1 2");
}

#[test]
fn places_count_characters_and_lines_end_with_lf_only() {
    let text = "#é\r\n\u{2028}a\r\"é€𝄞\" b\n\u{3000}\u{85}c";
    assert_eq!(records(text), ["1 0 8 1 2 2", "2 0 11 9 2 4", "1 0 22 1 2 10", "1 0 29 1 3 3"]);
}

#[test]
fn the_25_characters_of_white_space() {
    let white: Vec<char> = (0..=0x10FFFF).filter_map(char::from_u32).filter(|c| c.is_whitespace()).collect();
    assert_eq!(white.len(), 25);
    for c in white {
        assert!(verdict(&format!("{c}when http trigger")).starts_with("accepted"), "{c:?}");
    }
    for c in ['\u{200B}', '\u{FEFF}', '\u{180E}', '\u{8}', '\u{1C}', '\0'] {
        assert_eq!(verdict(&format!("{c}when http trigger")), "refused 10 1 1 0", "{c:?}");
    }
}

#[test]
fn numbers_with_zeros() {
    assert_eq!(records("00000000000000000000000001")[0], "3 1 0 26 1 1");
    assert_eq!(records("0.0001")[0], "6 1 0 6 1 1");
    assert_eq!(records("00.50h")[0], "5 1800000 0 6 1 1");
    assert_eq!(records("0.0000000000000000000h")[0], "5 0 0 22 1 1");
    assert_eq!(records("0.50000000m")[0], "5 30000 0 11 1 1");
}

#[test]
fn the_buffer_past_the_records() {
    let full = "(".repeat(1_024);
    for words in [5_120, 5_121, 6_143, 6_144, 6_145, 8_192] {
        let case = Case { words, ..case(full.as_bytes(), ALL.as_bytes()) };
        assert_eq!(tokens(&case).len(), 1_024);
        assert_eq!(verdict_of(&case), "refused 38 1 1 0");
    }
    for words in [0, 1, 5, 6, 5_119] {
        let case = Case { words, ..case(b"when http trigger", ALL.as_bytes()) };
        assert_eq!(second::answer(&case), "case 1\nbuffer kept\nrefused 2 0 0 0\n");
    }
}

/// Document 02 §5: "no place, the end's included, loses anything".
#[test]
fn the_farthest_places() {
    let told = |text: String| (tokens(&case(text.as_bytes(), ALL.as_bytes())), verdict(&text));
    let none = |refusal: &str| (Vec::new(), refusal.to_string());
    assert_eq!(told(" ".repeat(16_384)), none("refused 38 1 16385 0"));
    assert_eq!(told("\n".repeat(16_384)), none("refused 38 16385 1 0"));
    let one = |token: &str, refusal: &str| (vec![token.to_string()], refusal.to_string());
    assert_eq!(told(" ".repeat(16_383) + "("), one("7 0 16383 1 1 16384", "refused 38 1 16384 0"));
    assert_eq!(told("\n".repeat(16_383) + "("), one("7 0 16383 1 16384 1", "refused 38 16384 1 0"));
    assert_eq!(told(" ".repeat(16_380) + "when"), one("1 0 16380 4 1 16381", "refused 20 1 16385 0"));
    let both = "\n".repeat(8_190) + &" ".repeat(8_190) + "when";
    assert_eq!(told(both), one("1 0 16380 4 8191 8191", "refused 20 8191 8195 0"));
}

#[test]
fn the_words_of_a_record() {
    let (lexing, _) = second::lexing("a\n  \"é\"".as_bytes(), 5_120);
    assert_eq!(lexing.records, [[1, 0, 0, 1, 65_537], [2, 0, 5, 2, 131_075]]);
}

/// Numbers that look random, the same in each run.
struct Dice(u64);

impl Dice {
    fn below(&mut self, bound: usize) -> usize {
        self.0 = self.0.wrapping_mul(6_364_136_223_846_793_005).wrapping_add(1_442_695_040_888_963_407);
        (self.0 >> 33) as usize % bound
    }
}

#[test]
fn every_case_is_answered() {
    let parts: Vec<&[u8]> = "when|if|and|input|lamp|group|(|)|,|.|..|=|==|dev|inst|adapter|1|2|64|\"Lamp\"|\"Both\"|\"|\
        is|press|becomes|light|level|time|in|7:05|sunset|+|-|5m|0.5s|1000000001|5x|@|é|#|\n|99999999999999999999999999|\
        0.00000000000000000000000000000000000000001h|1000000000.0000000000000000001h|:|var|hcl|for|broadcast|at|on"
        .split('|')
        .map(str::as_bytes)
        .chain([&b"\xFF"[..], b"\xE2\x82", b"\0"])
        .collect();
    let mut dice = Dice(1);
    for _ in 0..30_000 {
        let mut text = b"when ".to_vec();
        for _ in 0..dice.below(20) {
            text.extend_from_slice(parts[dice.below(parts.len())]);
            text.extend_from_slice(if dice.below(3) == 0 { b"" } else { b" " });
        }
        let case = case(&text, ALL.as_bytes());
        let last = lines(&case).pop().unwrap_or_default();
        assert!(["refused ", "T ", "C "].iter().any(|start| last.starts_with(start)), "{last}");
        second::in_domain(&case);
    }
}

#[test]
fn lexing_alone() {
    let lexing = |text: &[u8], words| {
        let (lexing, in_domain) = second::lexing(text, words);
        ((lexing.records.len(), lexing.number, lexing.line, lexing.column), in_domain)
    };
    assert_eq!(lexing(b"a\n(", 5_120), ((2, 0, 2, 2), true));
    assert_eq!(lexing(b"a 24:00", 5_120), ((1, 13, 1, 3), true));
    assert_eq!(lexing(&[b' '; 16_385], 0), ((0, 1, 0, 0), false));
    assert_eq!(lexing(b"a", 5_119), ((0, 2, 0, 0), false));
    assert_eq!(lexing(&[b'('; 1_025], 5_120), ((1_024, 19, 1, 1_025), false));
    assert_eq!(lexing(b"0.00000000000000000000s", 5_120), ((1, 0, 1, 24), false));
    assert_eq!(lexing(b"0.00000000000000000001s", 5_120), ((0, 18, 1, 1), false));
    assert_eq!(lexing(b"a \xFF @", 5_120), ((0, 4, 1, 3), false));
    assert_eq!(lexing(b"\"\xC3\"", 5_120), ((0, 4, 1, 2), false));
}
