//! Points of document 01 that a first reading can miss.

use crate::told::{case, records, told, verdict, verdict_with};

/// 1,024 tokens.
fn full() -> String {
    "(".repeat(1_024)
}

#[test]
fn point_1_records_on_refusal() {
    let mut small = case(b"when", b"primary,0");
    small.words = 5_119;
    assert_eq!(told(&small), (vec![], vec!["buffer kept".into(), "refused 2 0 0 0".into()]));
    assert_eq!(records("a @ b"), ["1 0 0 1 1 1"]);
    assert_eq!(verdict("a @ b"), "refused 10 1 3 0");
    assert_eq!(records(&(full() + "(")).len(), 1_024);
    assert_eq!(records("a \"b\" 5"), ["1 0 0 1 1 1", "2 0 3 1 1 3", "3 5 6 1 1 7"]);
    assert_eq!(verdict("a \"b\" 5"), "refused 38 1 1 0");
}

#[test]
fn point_3_a_unit_is_ascii() {
    assert_eq!(verdict("5é"), "refused 10 1 2 0");
    assert_eq!(records("5é"), ["3 5 0 1 1 1"]);
}

#[test]
fn point_4_minutes() {
    assert_eq!(verdict("12:60"), "refused 13 1 1 0");
    assert_eq!(verdict("24:00"), "refused 13 1 1 0");
    assert_eq!(records("23:59"), ["4 1439 0 5 1 1"]);
}

#[test]
fn point_5_a_scene_is_judged_at_once_and_an_id_late() {
    assert_eq!(verdict("when scene(16, adapter=9) recalled"), "refused 22 1 12 0");
    assert_eq!(verdict("when scene(16 foo"), "refused 22 1 12 0");
    assert_eq!(verdict("when lamp(64, adapter=9) turns on"), "refused 25 1 23 0");
    assert_eq!(verdict("when lamp(64 foo"), "refused 20 1 14 0");
    assert_eq!(verdict("when lamp(64) foo"), "refused 22 1 11 0");
}

#[test]
fn point_6_other_arguments_are_judged_as_they_are_read() {
    assert_eq!(verdict("when input(group=99, dev=1) is press"), "refused 22 1 18 0");
    assert_eq!(verdict("when input(group=9, dev=1) is press"), "refused 27 1 18 0");
}

#[test]
fn point_7_arguments_of_an_input() {
    assert_eq!(verdict("when input(1,2,"), "refused 26 1 16 0");
    assert_eq!(verdict("when input(1,2,foo=5)"), "refused 21 1 16 0");
    assert_eq!(verdict("when input(dev==1, inst=0) is press"), "refused 20 1 12 0");
    assert_eq!(verdict("when input()"), "refused 20 1 12 0");
    assert_eq!(verdict("when input(1,)"), "refused 20 1 14 0");
}

#[test]
fn point_8_an_input_device_needs_dev() {
    assert_eq!(verdict("when input device() power cycled"), "refused 20 1 19 0");
    let unnamed = verdict("when input device(3, adapter=1) power cycled");
    assert_eq!(unnamed, "accepted 1 0 / T input_device_power_cycled 1 3");
}

#[test]
fn point_9_an_empty_name_is_refused_though_replaced() {
    assert_eq!(verdict("when input(dev=\"\", dev=1, inst=0) is press"), "refused 23 1 16 0");
}

#[test]
fn point_10_when_one_instance_is_asked_for() {
    assert_eq!(verdict("when input(group=1) foo"), "refused 20 1 21 0");
    assert_eq!(verdict("when input(group=1) becomes"), "refused 30 1 11 0");
    assert_eq!(verdict("when controller starts if input(group=1)"), "refused 30 1 32 0");
}

#[test]
fn point_11_the_primary_is_not_thereby_listed() {
    assert_eq!(verdict_with(b"when lamp(1, adapter=5) turns on", b"primary,5"), "refused 25 1 22 0");
    assert_eq!(verdict_with(b"when lamp(1) turns on", b"primary,5"), "accepted 1 0 / T lamp_turns 5 1 on");
}

#[test]
fn point_12_bytes_of_a_sheets_names() {
    let text = b"when lamp(\"Till\") turns on";
    let odd = b"primary,0\nlamp,0,7,a\0\xff\nlamp,0,7,Till";
    assert_eq!(verdict_with(text, odd), "accepted 1 0 / T lamp_turns 0 7 on");
    assert_eq!(verdict_with(text, b"primary,0\nlamp,0,7,\"Till\""), "refused 3 2 0 0");
}

#[test]
fn point_13_identical_rows_count_twice() {
    let sheet = b"primary,0\nlamp,0,7,Till\nlamp,0,7,Till";
    assert_eq!(verdict_with(b"when lamp(\"Till\") turns on", sheet), "refused 33 1 11 2");
}

#[test]
fn point_14_durations_on_which_the_rust_overflows() {
    let zeros = "0".repeat(20);
    let no_answer = (vec![], vec!["outside the domain".to_owned()]);
    let outside = |text: &str| told(&case(text.as_bytes(), b"primary,0")) == no_answer;
    for unit in ["ms", "s", "m", "h"] {
        assert!(outside(&format!("when every 0.{zeros}{unit}")));
        assert!(!outside(&format!("when every 0.{}{unit}", &zeros[1..])));
    }
    assert!(outside(&format!("5s0.{zeros}s @")));
    assert_eq!(verdict(&format!("0.{zeros}x")), "refused 16 1 1 0");
    assert_eq!(verdict(&format!("0.{zeros}")), "refused 15 1 1 0");
    assert_eq!(verdict(&format!("0.{zeros}1000000001s")), "refused 12 1 1 0");
    assert_eq!(verdict(&format!("@ 0.{zeros}s")), "refused 10 1 1 0");
    assert_eq!(verdict(&format!("# 0.{zeros}s")), "refused 38 1 26 0");
    assert_eq!(verdict(&format!("\"é 0.{zeros}s\"")), "refused 38 1 1 0");
    assert_eq!(verdict(&format!("x0.{zeros}s")), "refused 38 1 1 0");
    assert_eq!(verdict(&format!("1.0.{zeros}s")), "refused 38 1 1 0");
    assert_eq!(verdict(&(full() + &format!("0.{zeros}s"))), "refused 19 1 1025 0");
    assert!(outside(&(full()[1..].to_owned() + &format!("0.{zeros}s"))));
}

#[test]
fn point_15_the_1025th_token_is_not_read() {
    assert_eq!(verdict(&(full() + "@")), "refused 19 1 1025 0");
    assert_eq!(records(&(full() + "@")).len(), 1_024);
    assert_eq!(verdict(&(full() + "(@")), "refused 19 1 1025 0");
    assert_eq!(verdict(&(full() + "#(")), "refused 38 1 1 0");
    assert_eq!(verdict(&(full()[1..].to_owned() + "@")), "refused 10 1 1024 0");
}

#[test]
fn point_16_a_digit_runs_limit_comes_first() {
    assert_eq!(verdict("0.12345678901"), "refused 12 1 1 0");
    assert_eq!(verdict("0.1000000001s"), "refused 12 1 1 0");
    assert_eq!(verdict("0.00001"), "refused 15 1 1 0");
}

#[test]
fn point_17_a_text_without_tokens() {
    assert_eq!(verdict("#é\n "), "refused 38 2 2 0");
    assert_eq!(verdict(""), "refused 38 1 1 0");
}

#[test]
fn point_18_bounds_of_times_and_units() {
    for text in ["5:", "5:5", "5:055", "005:05"] {
        assert_eq!(verdict(text), "refused 13 1 1 0", "{text}");
    }
    assert_eq!(records("5s_x"), ["5 5000 0 2 1 1", "1 0 2 2 1 3"]);
    assert_eq!(records("5_x"), ["3 5 0 1 1 1", "1 0 1 2 1 2"]);
}

#[test]
fn a_payload_is_refused_at_its_word() {
    for tail in ["", " in", " in mon", " foo"] {
        assert_eq!(verdict(&format!("when mqtt \"a\" is{tail}")), "refused 40 1 15 0");
    }
    assert_eq!(verdict("when http trigger when mqtt \"a\" is \"b\""), "refused 40 1 33 0");
}

#[test]
fn left_out_words_elsewhere_are_other_refusals() {
    let four = "when http trigger ".repeat(4);
    assert_eq!(verdict(&(four + "when mqtt \"a\" is")), "refused 37 1 73 0");
    assert_eq!(verdict("when http trigger if mqtt"), "refused 21 1 22 0");
    assert_eq!(verdict("when lamp(\"nobody\") turns on when mqtt \"a\" is"), "refused 31 1 11 0");
}
