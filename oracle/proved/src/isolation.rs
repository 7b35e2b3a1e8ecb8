//! Document 02 §6, of the proved calls: what they say of a party's call, and that nothing of another's rows shows in it.

use crate::agree::UNTOUCHED;
use crate::whole::{assert_isolated, generated, left, said, said_by_the_second, Call};
use crate::{read, read_archive, sheet_primary};
use cases::{own_primary, Case, Habit};

const CALLS: [(Habit, Call); 2] = [(Habit::Rule, read), (Habit::Archive, read_archive)];

#[test]
fn both_calls_say_what_the_second_reader_says() {
    for case in generated() {
        for (habit, call) in CALLS {
            let case = case.with_habit(habit);
            assert_eq!(said(&left(call, &case)), said_by_the_second(&case), "{} {}", case.id, habit.word());
        }
    }
}

#[test]
fn a_party_sees_nothing_of_another() {
    CALLS.map(|(_, call)| assert_isolated(call));
}

#[test]
fn a_refused_primary_leaves_the_words_alone() {
    let case = Case::new(1, cases::LEAST_WORDS, b"when @", b"primary,0\nparty,1,7\n").with_party(0, 1);
    for (_, call) in CALLS {
        let found = left(call, &case);
        assert_eq!((found.result, &found.answer[..4]), (53, &[53, 0, 0, 0][..]));
        assert!(found.answer[4..].iter().all(|&word| word == 0) && found.words.iter().all(|&word| word == UNTOUCHED));
    }
}

#[test]
fn a_sheets_own_primary_is_found() {
    let sheets = generated().map(|case| case.sheet);
    let odd = [
        "", "primary", "primary,", "primary,256", "primary,07", "primary,7,", "primary,7\r\n", "primary,7\r", "primary,7\r\r\n", "primary,\r7", "\r\nprimary,7",
        "primary,255", "adapter,7\nprimary,7",
    ];
    for sheet in sheets.chain(odd.map(|sheet| sheet.as_bytes().to_vec())) {
        assert_eq!(sheet_primary(&sheet), u32::from(own_primary(&sheet)), "{}", sheet.escape_ascii());
    }
}
