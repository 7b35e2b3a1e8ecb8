//! The twelve pairs of document 01. "The twelve pairs have party 0, primary 0", document 02 §6.

use crate::told::{case, records, told, verdict, S};

#[test]
fn a_case_with_sheet_s_has_party_0_and_primary_0() {
    let case = case(b"when lamp(\"Till\") turns on", S.as_bytes());
    assert_eq!((case.party(), case.primary()), (0, 0));
    assert_eq!(told(&case.with_party(0, 0)), told(&case));
}

#[track_caller]
fn pair(taken: &str, its_records: &[&str], refused: &str, its_verdict: &str) {
    assert_eq!(records(taken), its_records);
    assert_eq!(verdict(refused), its_verdict);
    assert_eq!(records(refused), [""; 0]);
}

#[test]
fn pair_1_digit_runs() {
    pair("1000000000", &["3 1000000000 0 10 1 1"], "1000000001", "refused 12 1 1 0");
}

#[test]
fn pair_2_times() {
    pair("7:05", &["4 425 0 4 1 1"], "007:05", "refused 13 1 1 0");
}

#[test]
fn pair_3_whole_milliseconds() {
    pair("0.001s", &["5 1 0 6 1 1"], "0.0005s", "refused 18 1 1 0");
}

#[test]
fn pair_4_longest_duration() {
    pair("4294967.295s", &["5 4294967295 0 12 1 1"], "4294967.296s", "refused 17 1 1 0");
}

#[test]
fn pair_5_largest_decimal() {
    pair("429496.7295", &["6 4294967295 0 11 1 1"], "429496.7296", "refused 12 1 1 0");
}

#[test]
fn pair_6_what_a_number_takes() {
    assert_eq!(records("5m30s"), ["5 300000 0 2 1 1", "5 30000 2 3 1 3"]);
    assert_eq!(records("5."), ["3 5 0 1 1 1", "12 0 1 1 1 2"]);
}

#[test]
fn pair_7_hours() {
    pair("1193h", &["5 4294800000 0 5 1 1"], "1194h", "refused 17 1 1 0");
}

#[test]
fn pair_8_a_name_on_one_adapter_or_two() {
    assert_eq!(verdict("when lamp(\"Till\") turns on"), "accepted 1 0 / T lamp_turns 1 7 on");
    assert_eq!(verdict("when lamp(\"Aisle\") turns on"), "refused 34 1 11 2");
}

#[test]
fn pair_9_a_name_in_scope_or_not() {
    assert_eq!(verdict("when lamp(\"Aisle\", adapter=1) turns on"), "accepted 1 0 / T lamp_turns 1 4 on");
    assert_eq!(verdict("when lamp(\"Till\", adapter=0) turns on"), "refused 32 1 11 1");
}

#[test]
fn pair_10_the_lower_end_of_solar_offsets() {
    assert_eq!(verdict("when at sunset - 2147483.648s"), "accepted 1 0 / T at_solar sunset -2147483648");
    assert_eq!(verdict("when at sunset + 2147483.648s"), "refused 36 1 18 0");
}

#[test]
fn pair_11_the_last_dev_and_one_instance() {
    let last = verdict("when input(dev=3, dev=5, inst=0) is press");
    assert_eq!(last, "accepted 1 0 / T input_event instance 0 5 0 press");
    assert_eq!(verdict("when input(group=2) becomes occupied"), "refused 30 1 11 0");
}

#[test]
fn pair_12_a_lamp_property_is_judged_last() {
    assert_eq!(verdict("when controller starts if lamp(1).foo"), "refused 20 1 38 0");
    assert_eq!(verdict("when controller starts if lamp(1).foo == 1"), "refused 21 1 35 0");
}
