//! Points of document 01 that a first reading can miss.

mod common;
use common::*;

#[test]
fn p01_the_buffer_on_refusal() {
    let count = |text: &[u8], sheet: &str| tokens(&case(text, sheet.as_bytes())).len();
    assert_eq!(count(b"when http \xFF", ALL), 0);
    assert_eq!(count(b"when http", "bad"), 0);
    assert_eq!(count(&[b' '; 16_385], ALL), 0);
    let small = cases::Case { words: 5_119, ..case(b"when http", ALL.as_bytes()) };
    assert_eq!(second::answer(&small), "case 1\nbuffer kept\nrefused 2 0 0 0\n");
    assert_eq!(count(b"when http @", ALL), 2);
    assert_eq!(count(b"when http 5x then", ALL), 2);
    assert_eq!(count("(".repeat(1_025).as_bytes(), ALL), 1_024);
    assert_eq!(count(b"foo when http trigger", ALL), 4);
    assert_eq!(count(b"when http trigger )", ALL), 4);
}

#[test]
fn p03_a_unit_is_of_ascii_letters() {
    let case = case("5é".as_bytes(), ALL.as_bytes());
    assert_eq!(second::answer(&case), "case 1\ntoken 3 5 0 1 1 1\nbuffer kept\nrefused 10 1 2 0\n");
}

#[test]
fn p04_hours_and_minutes() {
    refused(&[("12:60", "13 1 1 0"), ("24:00", "13 1 1 0"), ("23:59", "38 1 1 0")]);
}

#[test]
fn p05_a_scene_is_judged_at_once_and_an_id_after_the_parenthesis() {
    refused(&[
        ("when scene(16, adapter=9) recalled", "22 1 12 0"),
        ("when scene(16 foo", "22 1 12 0"),
        ("when lamp(64, adapter=9) turns on", "25 1 23 0"),
        ("when lamp(64 foo", "20 1 14 0"),
        ("when lamp(64) foo", "22 1 11 0"),
    ]);
}

#[test]
fn p06_other_arguments_are_judged_as_they_are_read() {
    refused(&[
        ("when input(group=99, dev=1) is press", "22 1 18 0"),
        ("when input(group=1, dev=1, inst=32) is press", "22 1 33 0"),
        ("when input(group=1, dev=1, type=32) is press", "22 1 33 0"),
        ("when input(group=1, dev=1, adapter=9) is press", "25 1 36 0"),
        ("when input(inst=32, inst=0, dev=1) is press", "22 1 17 0"),
    ]);
}

#[test]
fn p07_unnamed_arguments() {
    refused(&[
        ("when input(1,2,", "26 1 16 0"),
        ("when input(1,2,)", "26 1 16 0"),
        ("when input(1,2,foo", "26 1 16 0"),
        ("when input(1,2,foo=5)", "21 1 16 0"),
        ("when input(dev==1,inst=0) is press", "20 1 12 0"),
        ("when input() is press", "20 1 12 0"),
        ("when input(1,) is press", "20 1 14 0"),
        ("when input(dev=1,inst=2,) is press", "20 1 25 0"),
    ]);
}

#[test]
fn p08_input_device_needs_a_device() {
    refused(&[
        ("when input device() power cycled", "20 1 19 0"),
        ("when input device(dev=) power cycled", "20 1 23 0"),
    ]);
}

#[test]
fn p09_a_replaced_name_is_held_to_its_length() {
    let long = "n".repeat(49);
    refused(&[
        ("when input(dev=\"\", dev=1, inst=0) is press", "23 1 16 0"),
        (&format!("when input(dev=\"{long}\", dev=1, inst=0) is press"), "24 1 16 0"),
    ]);
}

#[test]
fn p10_when_30_is_asked() {
    refused(&[
        ("when input(group=1) foo", "20 1 21 0"),
        ("when input(group=1) becomes", "30 1 11 0"),
        ("when input(group=1).", "30 1 11 0"),
        ("when input(group=1).foo", "30 1 11 0"),
    ]);
    condition_refused(&[("input(group=1)", "30 1 27 0"), ("input(group=1) foo", "30 1 27 0")]);
}

#[test]
fn p11_the_primary_is_not_listed_by_that() {
    assert_eq!(verdict_with("when lamp(1, adapter=5) turns on", "primary,5"), "refused 25 1 22 0");
    assert_eq!(verdict_with("when lamp(1) turns on", "primary,5"), "accepted 1 0\nT lamp_turns 5 1 on");
}

#[test]
fn p12_bytes_of_a_name() {
    let sheet = b"primary,0\nlamp,0,1,a\tb\nlamp,0,2,a\0b\nlamp,0,3,\xFF\n";
    let number = |text: &str| verdict_of(&case(text.as_bytes(), sheet));
    assert_eq!(number("when lamp(\"a\tb\") turns on"), "accepted 1 0\nT lamp_turns 0 1 on");
    assert_eq!(number("when lamp(\"a\0b\") turns on"), "accepted 1 0\nT lamp_turns 0 2 on");
    assert_eq!(verdict_with("when http trigger", "primary,0\nlamp,0,1,a\"b"), "refused 3 2 0 0");
}

#[test]
fn p13_identical_rows_count_twice() {
    let sheet = "primary,0\nlamp,0,1,a\nlamp,0,1,a";
    assert_eq!(verdict_with("when lamp(\"a\") turns on", sheet), "refused 33 1 11 2");
}

#[test]
fn p15_the_token_too_many_is_not_read() {
    let text = "(".repeat(1_024) + "@";
    refused(&[(&text, "19 1 1025 0")]);
    assert!(!second::in_domain(&case(text.as_bytes(), ALL.as_bytes())));
    refused(&[(&("(".repeat(1_023) + "@"), "10 1 1024 0"), (&("(".repeat(1_024) + " #@"), "38 1 1 0")]);
}

#[test]
fn p16_a_digit_run_is_judged_as_it_is_read() {
    refused(&[
        ("0.12345678901", "12 1 1 0"),
        ("0.1000000001s", "12 1 1 0"),
        ("1000000001x", "12 1 1 0"),
        ("1000000001:05", "12 1 1 0"),
        ("7:1000000001", "12 1 1 0"),
    ]);
}

#[test]
fn p17_nothing_but_comments_and_white_space() {
    refused(&[("#é\n ", "38 2 2 0"), ("", "38 1 1 0"), ("#é", "38 1 3 0"), ("\r\u{3000}\n\n", "38 3 1 0")]);
}

#[test]
fn p18_times_and_units() {
    refused(&[("5:", "13 1 1 0"), ("5:5", "13 1 1 0"), ("5:055", "13 1 1 0"), ("005:05", "13 1 1 0")]);
    let records = |text: &str| tokens(&case(text.as_bytes(), ALL.as_bytes()));
    assert_eq!(records("5s_x"), ["5 5000 0 2 1 1", "1 0 2 2 1 3"]);
    assert_eq!(records("5_x"), ["3 5 0 1 1 1", "1 0 1 2 1 2"]);
}
