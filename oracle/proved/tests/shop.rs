//! Document 02 §9, of the proved calls: the shop call is the default call, less what the profile leaves out.

use cases::{Case, Habit, LEAST_WORDS, RECORD};
use proved::agree::UNTOUCHED;
use proved::whole::{assert_isolated, generated, left, said, said_by_the_second};
use proved::{read, read_shop};

#[test]
fn the_shop_call_says_what_the_second_reader_says() {
    for case in generated().map(|case| case.with_habit(Habit::Shop)) {
        assert_eq!(said(&left(read_shop, &case)), said_by_the_second(&case), "{}", case.id);
    }
}

/// Every word of the answer and of the tokens is the default call's, but for 57 to 59: there the default call accepts, the words of
/// the tokens are the same, and the answer has the refusal alone.
#[test]
fn the_shop_call_is_the_default_call_less_the_profile() {
    let mut left_out = [0; 3];
    for case in generated() {
        let (shop, default) = (left(read_shop, &case), left(read, &case));
        let Some(count) = shop.result.checked_sub(57).and_then(|at| left_out.get_mut(at as usize)) else {
            assert_eq!(shop, default, "{}", case.id);
            continue;
        };
        *count += 1;
        assert_eq!((default.result, &shop.words), (0, &default.words), "{}", case.id);
        assert!(shop.answer[3..].iter().all(|&word| word == 0), "{}", case.id);
    }
    assert!(left_out.iter().all(|&count| count >= 10), "{left_out:?}");
}

#[test]
fn a_party_sees_nothing_of_another() {
    assert_isolated(read_shop);
}

#[test]
fn what_the_profile_leaves_out_stands_at_its_token() {
    let sheet = b"primary,0\nlamp,0,7,Till\ninput,0,9,Door\n";
    for (text, refused, records) in [
        ("when lamp(\"Till\") turns on when lamp(\n3) turns on", [57, 2, 1, 0], 14),
        ("when input(inst=3, 5) is press", [57, 1, 20, 0], 11),
        ("when input device(dev=3) power cycled", [57, 1, 23, 0], 10),
        ("when hcl override starts for broadcast if lamp(3) is on", [58, 1, 30, 0], 13),
        ("when http trigger if lamp(\"Till\").level > event.value", [59, 1, 43, 0], 14),
        ("when lamp(3) turns on foo", [41, 1, 23, 0], 8),
        ("when input(3, dev=\"Door\", inst=1) is press", [63, 1, 15, 0], 15),
        ("when input(\"Door\", 3) is event(data=5) when scene(3) recalled", [0; 4], 20),
    ] {
        let found = left(read_shop, &Case::new(1, LEAST_WORDS, text, sheet));
        assert_eq!((found.result, &found.answer[..4]), (refused[0], &refused[..]), "{text}");
        assert_eq!(found.words.iter().position(|&word| word == UNTOUCHED), Some(records * RECORD), "{text}");
    }
}
