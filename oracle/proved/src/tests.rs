//! That the call keeps to its slices, and that the comparison sees a lexer with a fault.

use crate::agree::{agree, Lexer, UNTOUCHED};
use crate::coverage::Coverage;
use crate::{lex, lex_into, short, texts, Answer};
use cases::{Case, LEAST_WORDS};
use compare_cases::shrink::shrink;

fn case(text: &[u8]) -> Case {
    Case::new(0, LEAST_WORDS, text, [])
}

#[test]
fn a_text_is_lexed() {
    let mut words = vec![UNTOUCHED; LEAST_WORDS];
    let answer = lex("when \"é\" 7:05\n".as_bytes(), &mut words);
    assert_eq!(answer, Answer { number: 0, line: 2, column: 1, count: 3 });
    assert_eq!(words[..15], [1, 0, 0, 4, 65_537, 2, 0, 6, 2, 65_542, 4, 425, 10, 4, 65_546]);
    assert!(words[15..].iter().all(|&word| word == UNTOUCHED));
    assert_eq!(lex(b"a 24:00", &mut words), Answer { number: 13, line: 1, column: 3, count: 0 });
}

#[test]
fn the_first_questions_leave_the_words_alone() {
    let mut words = vec![UNTOUCHED; LEAST_WORDS];
    assert_eq!(lex(&[b' '; 16_385], &mut words), Answer { number: 1, line: 0, column: 0, count: 0 });
    assert_eq!(lex(b"a", &mut words[1..]), Answer { number: 2, line: 0, column: 0, count: 0 });
    assert_eq!(lex(b"a", &mut []), Answer { number: 2, line: 0, column: 0, count: 0 });
    assert_eq!(lex(b"a \xFF", &mut words), Answer { number: 4, line: 1, column: 3, count: 0 });
    assert!(words.iter().all(|&word| word == UNTOUCHED));
    assert_eq!(lex(b"", &mut words), Answer { number: 0, line: 1, column: 1, count: 0 });
}

#[test]
fn without_room_for_the_answer_nothing_is_written() {
    let mut words = vec![UNTOUCHED; LEAST_WORDS];
    for room in 0..4 {
        let mut answer = vec![UNTOUCHED; room];
        assert_eq!(lex_into(b"a @", &mut words, &mut answer), u32::MAX);
        assert!(answer.iter().chain(&words).all(|&word| word == UNTOUCHED));
    }
    let mut answer = [UNTOUCHED; 5];
    assert_eq!(lex_into(b" @", &mut words, &mut answer), 10);
    assert_eq!(answer, [10, 1, 2, 0, UNTOUCHED]);
}

/// The first of the short texts and generated cases on which a lexer differs.
fn found(lexer: Lexer) -> Option<Case> {
    let short = (0..=3).flat_map(|length| (0..short::count(length)).map(move |index| short::case(length, index)));
    let generated = (0..5_000).map(|index| Case { sheet: Vec::new(), ..generate::case(1, index) });
    short.chain(generated).find(|case| agree(lexer, case).is_err())
}

#[test]
fn the_lexer_itself_is_not_found() {
    assert_eq!(found(&lex_into), None);
}

#[test]
fn faults_are_found_and_made_small() {
    let past_the_records = |text: &[u8], words: &mut [u32], answer: &mut [u32]| {
        let number = lex_into(text, words, answer);
        if let (true, Some(last)) = (text.contains(&b'!'), words.last_mut()) {
            *last = 0;
        }
        number
    };
    let columns_in_bytes = |text: &[u8], words: &mut [u32], answer: &mut [u32]| {
        let wide: Vec<u8> = text.iter().map(|&b| if b < 128 { b } else { b'x' }).collect();
        lex_into(if text.starts_with(b"\"") { &wide } else { text }, words, answer)
    };
    let thirteen_as_twelve = |text: &[u8], words: &mut [u32], answer: &mut [u32]| match lex_into(text, words, answer) {
        13 => 12,
        number => number,
    };
    let past_the_answer = |text: &[u8], words: &mut [u32], answer: &mut [u32]| {
        let number = lex_into(text, words, answer);
        answer[5] = number;
        number
    };
    let faulty: [Lexer; 4] = [&past_the_records, &columns_in_bytes, &thirteen_as_twelve, &past_the_answer];
    for lexer in faulty {
        let case = found(lexer).expect("the fault shows");
        let small = shrink(&case, 10_000, &mut |case| agree(lexer, case).is_err());
        assert!(agree(lexer, &small).is_err() && small.text.len() <= 4);
    }
}

#[test]
fn ill_formed_texts_are_refused() {
    for text in [&b"a \xFF b"[..], b"\"\xC3", b"5\xE2\x80", b"# \xF4\x90\x80\x80", b"\x80"] {
        assert_eq!(agree(&lex_into, &case(text)).unwrap().lexing.number, 4);
    }
}

#[test]
fn what_never_came_up_is_named() {
    let mut coverage = Coverage::default();
    coverage.add(&agree(&lex_into, &case(b"a (")).unwrap());
    coverage.add(&agree(&lex_into, &case(b"@")).unwrap());
    let zeros = coverage.zeros();
    assert!(!zeros.contains(&"kind 1".to_string()) && !zeros.contains(&"refusal 10".to_string()));
    assert!(zeros.contains(&"kind 22".to_string()) && zeros.contains(&"refusal 19".to_string()));
    assert_eq!(zeros.len(), 22 - 2 + 12 - 1);
}

#[test]
fn the_timed_texts_have_the_size_that_is_said() {
    let mut words = vec![UNTOUCHED; LEAST_WORDS];
    for text in texts::all() {
        assert_eq!(lex(text.text.as_bytes(), &mut words).number, 0, "{}", text.name);
        assert!(agree(&lex_into, &case(text.text.as_bytes())).unwrap().in_domain);
    }
    let large = texts::named("large").unwrap();
    assert_eq!((large.text.len(), lex(large.text.as_bytes(), &mut words).count), (16_384, 1_024));
}
