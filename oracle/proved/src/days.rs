//! Document 02 §1, of the proved calls: the words of triggers and conditions with days, and what is refused in a set of days.

use crate::agree::UNTOUCHED;
use crate::whole::{left, Left};
use crate::{read, read_archive, read_shop};
use cases::{Case, LEAST_WORDS, RECORD};

/// The words of an entry, and the kinds of entries with days (include/tergyosul.h).
const ROW: usize = 12;
const AT_TIME: u32 = 7;
const AT_SOLAR: u32 = 8;
const IF_DAY_IN: u32 = 16;

const NAMES: [&str; 7] = ["mon", "tue", "wed", "thu", "fri", "sat", "sun"];
const ALL_SEVEN: u32 = 127;

/// What a call leaves behind on a text: the same by every habit.
fn reading(text: &str) -> Left {
    let case = Case::new(1, LEAST_WORDS, text, b"primary,0\n");
    let found = left(read, &case);
    assert_eq!([&left(read_archive, &case), &left(read_shop, &case)], [&found, &found], "{text}");
    found
}

#[test]
fn days_are_one_word() {
    let found = reading("when at 7:05 on mon when at sunset - 5m on fri..mon when at 7:05 when at sunrise if day in sun and day in mon..sun");
    let mut wanted = vec![[0; ROW]; 9];
    wanted[0][4..6].copy_from_slice(&[4, 2]);
    wanted[1][..3].copy_from_slice(&[AT_TIME, 425, 1]);
    wanted[2][..4].copy_from_slice(&[AT_SOLAR, 2, (-300_000_i32) as u32, 16 + 32 + 64 + 1]);
    wanted[3][..3].copy_from_slice(&[AT_TIME, 425, ALL_SEVEN]);
    wanted[4][..4].copy_from_slice(&[AT_SOLAR, 1, 0, ALL_SEVEN]);
    wanted[5][..2].copy_from_slice(&[IF_DAY_IN, 64]);
    wanted[6][..2].copy_from_slice(&[IF_DAY_IN, ALL_SEVEN]);
    assert_eq!(found.answer, wanted.concat());
}

#[test]
fn every_range_and_every_day() {
    for (from, first) in NAMES.iter().enumerate() {
        assert_eq!(reading(&format!("when at 0:00 on {first}")).answer[ROW..ROW + 3], [AT_TIME, 0, 1 << from]);
        for (to, last) in NAMES.iter().enumerate() {
            let days: u32 = (0..=(to + 7 - from) % 7).map(|step| 1 << ((from + step) % 7)).sum();
            let found = reading(&format!("when at sunset on {first}..{last} if day in {first}..{last}"));
            assert_eq!(found.answer[ROW..ROW + 4], [AT_SOLAR, 2, 0, days], "{first}..{last}");
            assert_eq!(found.answer[5 * ROW..5 * ROW + 2], [IF_DAY_IN, days], "{first}..{last}");
        }
    }
}

/// All seven days, however they are written, are what there is without `on`.
#[test]
fn all_seven_days_are_as_without_on() {
    let without = reading("when at 7:05 when at sunset");
    for set in ["mon..sun", "tue..mon", "sun..sat", "mon, tue, wed, thu, fri, sat, sun", "sun, sat, fri, thu, wed, tue, mon", "mon..thu, wed..sun"] {
        let with = reading(&format!("when at 7:05 on {set} when at sunset on {set}"));
        assert_eq!(with.answer, without.answer, "{set}");
    }
}

#[test]
fn refusals_leave_all_records() {
    for (text, refused, records) in [
        ("when at 7:05 on foo 5", [50, 1, 17, 0], 6),
        ("when at sunset on mon..foo", [50, 1, 24, 0], 7),
        ("when http trigger if day in mon,\nand sun is up", [50, 2, 1, 0], 12),
        ("when at 7:05 on 5", [20, 1, 17, 0], 5),
        ("when http trigger if day foo", [20, 1, 26, 0], 6),
        ("when at sunset + 2147483.648s on foo", [36, 1, 18, 0], 7),
        ("when at 7:05 on mon on tue", [41, 1, 21, 0], 7),
        ("when at 7:05 on foo @", [10, 1, 21, 0], 5),
    ] {
        let found = reading(text);
        assert_eq!((found.result, &found.answer[..4]), (refused[0], &refused[..]), "{text}");
        assert!(found.answer[4..].iter().all(|&word| word == 0), "{text}");
        assert_eq!(found.words.iter().position(|&word| word == UNTOUCHED), Some(records * RECORD), "{text}");
    }
}

#[test]
fn a_set_may_fill_the_buffer() {
    let found = reading(&format!("when http trigger when at 7:05 on {}", ["tue"; 509].join(",")));
    assert_eq!(found.answer[2 * ROW..2 * ROW + 3], [AT_TIME, 425, 2]);
    assert_eq!(found.words.iter().position(|&word| word == UNTOUCHED), None);
}
