//! Document 02 §14: that the generator's reflowed texts are what they are called, and that readers to which layout matters are found.

use crate::layout;
use crate::readers::{Other, Reader, Readers};
use crate::reflowed::{reflow, Reflowed};
use crate::run::{run, smallest, Difference, Outcome, Plan};
use crate::tokens::{DURATION, INTEGER, OPEN, POINT, TIME};
use cases::{line_and_column, Case, Habit, Lexing, LEAST_WORDS};
use generate::vocabulary::{DECIMALS, DURATIONS, INTEGERS, SIGNS, TIMES};
use std::collections::BTreeSet;

const SEED: u64 = 11;
const LONGEST: usize = 16_384;
const DECIMAL: u32 = 6;

fn generated(index: u64) -> Case {
    generate::case(SEED, index)
}

fn lexing(text: &[u8]) -> Lexing {
    second::lexing(text, LEAST_WORDS).0
}

/// The kind and the number of the one token that a text has.
fn token(text: &[u8]) -> Option<(u32, u32)> {
    let lexing = lexing(text);
    (lexing.number == 0 && lexing.records.len() == 1).then(|| (lexing.records[0][0], lexing.records[0][1]))
}

#[test]
fn the_second_reader_is_the_same_in_every_layout() {
    let (mut reflowed, mut accepted) = (0, 0);
    for case in (0..12_000).map(generated) {
        for attempt in 0..3 {
            let Some(other) = reflow(&case, attempt).unwrap() else { continue };
            assert!(other.case.text.len() <= LONGEST && other.case.text != case.text);
            assert_eq!(Case { text: case.text.clone(), ..other.case.clone() }, case);
            let answer = second::answer(&case);
            assert_eq!(other.carried_back(&second::answer(&other.case)), answer, "{}", case.id);
            reflowed += 1;
            accepted += usize::from(answer.contains("\naccepted "));
        }
    }
    assert!(reflowed > 25_000 && accepted > 5_000, "{reflowed} {accepted}");
}

#[test]
fn a_layout_follows_from_the_case_and_the_attempt() {
    let text = |id: u64, attempt: u64| {
        let case = Case::new(id, LEAST_WORDS, "when every 5s if sun is up", []);
        reflow(&case, attempt).unwrap().expect("a text that passes").case.text
    };
    assert_eq!(text(3, 4), text(3, 4));
    let different: BTreeSet<Vec<u8>> = (0..50).flat_map(|id| [text(id, 0), text(id, 1)]).collect();
    assert!(different.len() > 90, "{}", different.len());
}

/// Texts without room, and with hardly any.
#[test]
fn long_texts_stay_within_their_length() {
    let words = "aaaaaaaaaaaaaaa ".repeat(1_024);
    let string = format!("\"{}\"", "a".repeat(LONGEST - 2));
    let points = "5 .5 . 5. 5 ".repeat(146);
    let numbers = "1.50 07:05 5000ms 007 ".repeat(256);
    let spaces = " ".repeat(LONGEST);
    for (text, least) in [(words, 50), (string, 0), (points, 90), (numbers, 90), (spaces, 90)] {
        let case = Case::new(1, LEAST_WORDS, text, []);
        let others: Vec<Reflowed> = (0..100).filter_map(|attempt| reflow(&case, attempt).unwrap()).collect();
        assert!(others.len() >= least && others.iter().all(|other| other.case.text.len() <= LONGEST), "{}", others.len());
    }
}

/// Two tokens are put side by side just where they stay what they are.
#[test]
fn tokens_that_join_are_known() {
    let others = ["a", "_", "s", "x1", "e5", "5", "0", "7:05", "1.5", "5s", "1.5h", "\"a\"", "\"\""];
    let pieces: Vec<&str> = others.iter().chain(SIGNS).copied().collect();
    let kinds = |text: String| {
        let lexing = lexing(text.as_bytes());
        (lexing.number == 0).then(|| lexing.records.iter().map(|record| (record[0], record[1])).collect::<Vec<_>>())
    };
    let kind = |piece: &str| token(piece.as_bytes()).expect("a token");
    for first in &pieces {
        for second in &pieces {
            let joins = generate::joins(kind(first).0, false, second.as_bytes()[0]);
            assert_eq!(joins, kinds(format!("{first}{second}")) != Some(vec![kind(first), kind(second)]), "{first}{second}");
            let behind = kind(first).0 == INTEGER;
            let apart = if generate::joins(kind(first).0, false, b'.') { " " } else { "" };
            let joins = generate::joins(POINT, behind && apart.is_empty(), second.as_bytes()[0]);
            let three = kinds(format!("{first}{apart}.{second}"));
            assert_eq!(joins, three != Some(vec![kind(first), kind("."), kind(second)]), "{first}{apart}.{second}");
        }
    }
}

#[test]
fn numbers_keep_their_kind_and_value() {
    let mut rng = generate::Rng::new(SEED, 0);
    let lists = [INTEGERS, TIMES, DURATIONS, DECIMALS];
    let taken: Vec<(u32, u32)> = lists.concat().iter().filter_map(|text| token(text.as_bytes())).collect();
    let any = |kind: u32, most: u32, step: u32| (0..2_000).map(move |at: u32| (kind, at.wrapping_mul(step) % most));
    let ends = [(DURATION, u32::MAX), (DURATION, 1_000_000_001), (DECIMAL, u32::MAX), (INTEGER, 1_000_000_000), (TIME, 1_439)];
    let more = any(DURATION, u32::MAX, 2_146_483).chain(any(DURATION, 90_000_000, 36_000)).chain(any(DECIMAL, u32::MAX, 2_147_483));
    for (kind, number) in taken.into_iter().chain(ends).chain(more).chain(any(TIME, 1_440, 1)) {
        for _ in 0..8 {
            let spelling = generate::respelled(&mut rng, kind, number).expect("a number");
            assert_eq!(token(&spelling), Some((kind, number)), "{}", spelling.escape_ascii());
        }
    }
    let mut spellings = |kind, number| -> BTreeSet<String> {
        let one = |_| String::from_utf8(generate::respelled(&mut rng, kind, number).expect("a number")).expect("digits");
        (0..3_000).map(one).collect()
    };
    let has = |all: &BTreeSet<String>, some: &[&str]| some.iter().all(|spelling| all.contains(*spelling));
    assert!(has(&spellings(DURATION, 5_000), &["5s", "5000ms", "05s", "5.0s", "5000.0ms"]));
    assert!(has(&spellings(DURATION, 90_000), &["90s", "1.5m", "0.025h", "1.50m", "90000ms"]));
    assert!(spellings(DURATION, 1).iter().all(|spelling| spelling.ends_with('s')));
    assert_eq!(spellings(TIME, 425), ["07:05", "7:05"].map(String::from).into());
    assert_eq!(spellings(TIME, 725), ["12:05"].map(String::from).into());
    assert!(has(&spellings(INTEGER, 7), &["7", "07", "007"]));
    assert!(has(&spellings(DECIMAL, 15_000), &["1.5", "1.50", "1.500", "1.5000", "01.5"]));
    assert_eq!(generate::respelled(&mut rng, 1, 0), None);
}

/// The sorts of layout that two texts with the same tokens show, as far as they are to be kept.
fn shown(text: &str, other: &str, keep: fn(&str) -> bool) -> String {
    let case = Case::new(1, LEAST_WORDS, text, "primary,0\nadapter,0\nlamp,0,1,a\nlamp,0,2,\u{e9}\n").with_habit(Habit::Rule);
    let reflowed = Reflowed::of(&case, other.as_bytes().to_vec()).expect("the same tokens");
    let sorts: BTreeSet<String> = layout::sorts(&case, &second::answer(&case), &reflowed).into_iter().collect();
    assert!(sorts.iter().all(|sort| layout::SORTS.contains(&sort.as_str())), "{sorts:?}");
    layout::SORTS.iter().filter(|sort| keep(sort) && sorts.contains(**sort)).copied().collect::<Vec<_>>().join(", ")
}

#[test]
fn layouts_are_counted() {
    let of_texts = |sort: &str| !sort.starts_with("refused") && !sort.starts_with("accepted") && !sort.starts_with("at the end");
    for (text, other, wanted) in [
        ("foo", "foo", ""),
        ("foo", " foo", "U+0020, some before the first token, one token"),
        (" foo", "foo\u{3000}", "U+3000, none before the first token, some behind the last token, one token"),
        ("foo\n", "foo", "none behind the last token, a line break taken out, one token"),
        ("", "\r\n\r\n\t", "U+0009, U+000A, U+000D, CR LF, a blank line, a tab behind LF, a line break put in, no token"),
        ("lamp(1)", "lamp\n(1)", "U+000A, some for none, a line break put in, a line break before ("),
        ("lamp(1)", "lamp(\n1)", "U+000A, some for none, a line break put in, a line break in parentheses, a line break behind ("),
        ("(1)\n2", "(1\n)\n2", "U+000A, some for none, a line break put in, a line break in parentheses, a line break before )"),
        ("( 1", "(1", "none for some"),
        ("when at", "when#\nat", "U+000A, a line break put in, a comment put in, a comment directly behind a token, an empty comment"),
        ("when # \"\nat", "when\tat", "U+0009, a line break taken out, a comment taken out"),
        ("when # a\nat", "when # b\"#\nat", "U+000A, U+0020, a comment for another, a comment with a quote, a comment with #"),
        ("(1", "(#\r\n1", "U+000A, some for none, a line break put in, a line break in parentheses, a line break behind (, a comment put in, a comment in parentheses, a comment directly behind a token, a comment with CR"),
        ("if", "if # \u{e9}", "U+0020, some behind the last token, a comment put in, a comment before the end, a comment up to the end, a comment with 2 bytes a character, one token"),
        ("if", "if #\u{fffd}\u{10000}\n", "U+000A, U+0020, some behind the last token, a line break put in, a comment put in, a comment before the end, a comment with 3 bytes a character, a comment with 4 bytes a character, one token"),
        ("7:05 on", "7:05on", "none for some, a word behind a time"),
        ("5 _ \"a\" b", "5_\"a\"b", "none for some, a word behind an integer, a word behind a string, a string behind a word"),
        ("5s 5 \"a\" \"b\" 5", "5s5\"a\"\"b\"5", "none for some, a number behind a duration, a number behind a string, a string behind a number, a string behind a string"),
        ("5 . .. . == =", "5. .. .===", "U+0020, none for some, a point behind an integer, = behind =="),
        (".. . a", "...a", "none for some, a point behind .."),
        ("5 . 5", "5. 5", "U+0020, none for some, a point behind an integer, a number apart from a point behind an integer"),
        ("5 . 5", "5 .5", "U+0020, none for some, a number behind a point apart from an integer"),
        ("7", "007", "integer longer, respelled alone, one token"),
        ("07:05 1.50 ", "7:05 1.5000", "U+0020, none behind the last token, time shorter, decimal longer"),
        ("5s", "5000ms", "duration longer, ms for another unit, respelled alone, one token"),
        ("5.00000000000000000000s", "5s", "duration shorter, 20 places taken out, respelled alone, one token"),
        ("1m 1h", "60.00000000000000000000s 60m", "U+0020, duration longer, s for another unit, m for another unit, 20 places put in, respelled alone"),
    ] {
        assert_eq!(shown(text, other, of_texts), wanted, "{text:?} {other:?}");
    }
    let wide = format!("{}foo{}", " ".repeat(255), "\n".repeat(LONGEST - 258));
    let sizes = |sort: &str| sort.contains("16384") || sort.contains("255");
    assert_eq!(shown("foo", &wide, sizes), "16384 bytes, token past column 255");
    assert_eq!(shown(&wide, &format!("{}foo", "\n".repeat(255)), sizes), "16384 bytes before, token past line 255");
}

#[test]
fn what_both_texts_get_is_counted() {
    let of_answers = |sort: &str| sort.starts_with("refused") || sort.starts_with("accepted") || sort.starts_with("at the end");
    for (text, other, wanted) in [
        ("foo", " foo", "refused 38, refused at the first token, refused in another column alone, refused by the default call"),
        ("when foo", "when\nfoo", "refused 21, refused at a later token, refused on another line, refused by the default call"),
        ("when lamp(99 ) turns on", "when lamp(0099) turns on", "refused 22, refused at a later token, refused at the same place, refused at a respelled number, refused by the default call"),
        ("when", "when\n#", "refused 20, refused at the end, refused on another line, at the end on another line, at the end behind a comment, refused by the default call"),
        ("", " ", "refused 38, refused at the end, without tokens, refused in another column alone, refused by the default call"),
        ("when lamp(\"a\") turns on", " when lamp(\"a\") turns on", "accepted with a name, accepted by the default call"),
        ("when lamp(\"\u{e9}\") turns on if day in mon", " when lamp(\"\u{e9}\") turns on if day in mon", "accepted with a name, accepted with a name of wide characters, accepted with days, accepted with conditions, accepted by the default call"),
        ("when mqtt \"a\" when every 5s", "when mqtt\"a\"when every 5000ms", "accepted with a topic, accepted with a respelled number, accepted by the default call"),
        ("when timer(\"t\") fires if var(\"v\") == \"x\"", "when timer(\"t\")fires if var(\"v\")==\"x\"", "accepted with a shown name, accepted with a text, accepted with conditions, accepted by the default call"),
    ] {
        assert_eq!(shown(text, other, of_answers), wanted, "{text:?} {other:?}");
    }
    let call = |case: Case| {
        let other = Reflowed::of(&case, [b"\t", &case.text[..]].concat()).expect("the same tokens");
        let sorts = layout::sorts(&case, &second::answer(&case), &other);
        sorts.into_iter().filter(|sort| of_answers(sort) || sort.starts_with("replaced")).collect::<Vec<_>>().join(", ")
    };
    let case = |words: usize, sheet: &str| Case::new(1, words, "when http trigger", sheet);
    assert_eq!(call(case(LEAST_WORDS, "primary,0")), "accepted by the archive call, accepted, on a case line");
    assert_eq!(call(case(0, "primary,0")), "refused by the archive call, refused, on a case line, refused 2");
    assert_eq!(call(case(LEAST_WORDS, "primary,256")), "refused by the archive call, refused, on a case line, refused 3");
    assert_eq!(call(case(LEAST_WORDS, "primary,0").with_party(7, 0).with_habit(Habit::Shop)), "refused by the shop call, refused 53");
    let repeat = Case::new(1, LEAST_WORDS, "when input(1, 2, dev=3) is press", "primary,0");
    assert_eq!(call(repeat.clone()), "accepted by the archive call, accepted, on a case line, replaced, accepted");
    assert!(call(repeat.with_habit(Habit::Rule)).starts_with("refused by the default call, refused 63, "));
}

/// The second reader's answer with another refusal: `change` gets its number, line, column and detail and what the lexer gives.
fn with_refusal(case: &Case, change: impl Fn(&Lexing, [u32; 4]) -> [u32; 4]) -> String {
    let answer = second::answer(case);
    let Some((before, refusal)) = answer.split_once("refused ") else { return answer };
    let fields: Vec<u32> = refusal.split_whitespace().map(|field| field.parse().expect("a number")).collect();
    let [number, line, column, detail] = change(&lexing(&case.text), fields.try_into().expect("four numbers"));
    format!("{before}refused {number} {line} {column} {detail}\n")
}

/// The first difference of a reader's call to its own call on a reflowed text, made small.
fn found(faulty: Reader) -> Difference {
    let readers = Readers { second: faulty, in_domain: &|_| false, supplied: &second::answer, replay: None };
    let plan = Plan { make: &generated, count: 30_000, batch: 1_000, threads: 1, progress: false };
    let Outcome::Different(found) = run(&plan, &readers).unwrap() else { panic!("no difference") };
    assert_eq!(found.other, Other::Reflowed);
    let small = smallest(&found, &readers);
    let text = small.reflowed.clone().expect("a reflowed text");
    let reflowed = Reflowed::of(&small.case, text).expect("the same tokens");
    assert_eq!(readers.carried_back(&reflowed), small.answer);
    assert_ne!(small.answer, readers.second(&small.case));
    let size = small.case.text.len() + small.case.sheet.len() + reflowed.case.text.len();
    assert!(size < 120, "{}\n{}", small.case.text.escape_ascii(), reflowed.case.text.escape_ascii());
    small
}

/// The record of the first `(` behind `lamp` with LF between them.
fn broken_lamp(case: &Case) -> Option<[u32; 5]> {
    let lexing = lexing(&case.text);
    let gaps = generate::gaps(&case.text, &lexing);
    let lamp = |at: usize| &case.text[generate::span(&lexing.records[at])] == b"lamp";
    let at = (1..lexing.records.len()).find(|&at| lexing.records[at][0] == OPEN && lamp(at - 1) && gaps[at].contains(&b'\n'))?;
    Some(lexing.records[at])
}

#[test]
fn a_line_break_in_a_form_is_found() {
    let one_line = |case: &Case| {
        let answer = second::answer(case);
        let (Some((records, _)), Some(open)) = (answer.split_once("buffer kept\n"), broken_lamp(case)) else { return answer };
        let (line, column) = line_and_column(open[4]);
        let lexed = lexing(&case.text).number == 0 && records.contains("token");
        if lexed { format!("{records}buffer kept\nrefused 20 {line} {column} 0\n") } else { answer }
    };
    let small = found(&one_line);
    let texts = [&small.case.text, small.reflowed.as_ref().expect("a text")].map(|text| String::from_utf8_lossy(text).into_owned());
    assert!(texts.contains(&"lamp(".to_string()) && texts.contains(&"lamp\n(".to_string()), "{texts:?}");
}

#[test]
fn what_comes_of_the_place_is_found() {
    let column_as_detail = |case: &Case| with_refusal(case, |_, [number, line, column, _]| [number, line, column, column]);
    let small = found(&column_as_detail);
    assert!(small.case.text.len() < 4, "{}", small.case.text.escape_ascii());
    let line_as_number = |case: &Case| with_refusal(case, |_, [number, line, column, detail]| {
        [if number == 20 && line > 1 { 21 } else { number }, line, column, detail]
    });
    found(&line_as_number);
}

/// The column of a token counted in bytes, and the offset in the whole text in the place of a column.
#[test]
fn places_in_bytes_are_found() {
    let at = |lexing: &Lexing, line: u32, column: u32| {
        let record = lexing.records.iter().find(|record| line_and_column(record[4]) == (line, column));
        record.map(|record| generate::span(record).start)
    };
    let in_bytes = |case: &Case| with_refusal(case, |lexing, [number, line, column, detail]| {
        let before = at(lexing, line, column).map(|start| &case.text[..start]);
        let bytes = before.map(|before| before.iter().rev().take_while(|&&b| b != b'\n').count() as u32 + 1);
        [number, line, bytes.unwrap_or(column), detail]
    });
    let small = found(&in_bytes);
    assert!(!small.case.text.is_ascii() || !small.reflowed.expect("a text").is_ascii());
    let offset = |case: &Case| with_refusal(case, |lexing, [number, line, column, detail]| {
        [number, line, at(lexing, line, column).map_or(column, |start| start as u32 + 1), detail]
    });
    found(&offset);
}

/// Readers that have the end before a last comment, or at the last token if a comment follows, or on line 1.
#[test]
fn other_ends_are_found() {
    let at_end = |case: &Case, change: &dyn Fn(&Lexing, &[u8]) -> Option<(u32, u32)>| with_refusal(case, |lexing, [number, line, column, detail]| {
        let end = lexing.number == 0 && (line, column) == (lexing.line, lexing.column);
        let last = generate::gaps(&case.text, lexing).pop().unwrap_or_default();
        let (line, column) = if end { change(lexing, last).unwrap_or((line, column)) } else { (line, column) };
        [number, line, column, detail]
    });
    let before_comment = |case: &Case| at_end(case, &|lexing, last| {
        let comment = last.iter().rposition(|&b| b == b'#').filter(|&at| !last[at..].contains(&b'\n'))?;
        let length = String::from_utf8_lossy(&last[comment..]).chars().count() as u32;
        Some((lexing.line, lexing.column - length))
    });
    let at_last_token = |case: &Case| at_end(case, &|lexing, last| {
        lexing.records.last().filter(|_| last.contains(&b'#')).map(|record| line_and_column(record[4]))
    });
    let on_line_1 = |case: &Case| at_end(case, &|lexing, _| Some((1, lexing.column)));
    let faulty: [Reader; 3] = [&before_comment, &at_last_token, &on_line_1];
    for faulty in faulty {
        let small = found(faulty);
        assert!(small.case.text.len() < 30, "{}", small.case.text.escape_ascii());
    }
}

/// Readers in which a spelling or a white space character matters.
#[test]
fn what_comes_of_a_spelling_is_found() {
    let contains = |text: &[u8], part: &[u8]| text.windows(part.len()).any(|window| window == part);
    let zeros = |case: &Case| {
        let zero = lexing(&case.text).records.iter().any(|record| record[0] == INTEGER && record[3] > 1 && case.text[record[2] as usize] == b'0');
        if zero { second::answer(case).replace("refused 41", "refused 22") } else { second::answer(case) }
    };
    let unit = move |case: &Case| {
        let answer = second::answer(case);
        if contains(&case.text, b"ms") { answer.replace("\nT every ", "\nT every 0") } else { answer }
    };
    let next_line = move |case: &Case| {
        let answer = second::answer(case);
        if contains(&case.text, "\u{85}".as_bytes()) { answer.replace("accepted", "panicked") } else { answer }
    };
    let record = |case: &Case| second::answer(case).replace("token 5 5000 0 2 1 1", "token 5 5000 0 2 1 2");
    let faulty: [Reader; 3] = [&zeros, &unit, &next_line];
    for faulty in faulty {
        found(faulty);
    }
    let case = Case::new(1, LEAST_WORDS, "5s", "primary,0");
    let readers = Readers { second: &record, in_domain: &|_| false, supplied: &second::answer, replay: None };
    assert!(readers.differs(Other::Reflowed, &case));
    let whole = Readers { second: &second::answer, in_domain: &|_| false, supplied: &second::answer, replay: None };
    assert!(!whole.differs(Other::Reflowed, &case) && whole.other(Other::Reflowed, &case).is_none());
}
