//! Document 02 §2: "A duration shall be judged by its exact amount alone, with any number of fractional digits".

mod common;
use common::*;

fn zeros(count: usize) -> String {
    "0".repeat(count)
}

/// The number that the one token of a text holds, or the refusal's number behind a minus.
fn judged(text: &str) -> i64 {
    let case = case(text.as_bytes(), ALL.as_bytes());
    let field = |line: &str, nth: usize| line.split(' ').nth(nth).and_then(|field| field.parse::<i64>().ok()).expect("a number");
    match tokens(&case).first() {
        Some(token) => field(token, 1),
        None => -field(&verdict_of(&case), 1),
    }
}

fn all_judged(table: &[(&str, i64)]) {
    for (text, wanted) in table {
        assert_eq!(judged(text), *wanted, "{text}");
    }
}

#[test]
fn any_number_of_zeros() {
    for count in [1, 18, 19, 20, 21, 38, 39, 40, 255, 256, 257, 5_000] {
        let zeros = zeros(count);
        assert_eq!(judged(&format!("0.{zeros}s")), 0);
        assert_eq!(judged(&format!("1.{zeros}ms")), 1);
        assert_eq!(judged(&format!("1.{zeros}s")), 1_000);
        assert_eq!(judged(&format!("71582.{zeros}m")), 4_294_920_000);
        assert_eq!(judged(&format!("1193.{zeros}h")), 4_294_800_000);
        assert_eq!(judged(&format!("1194.{zeros}h")), -17);
        assert_eq!(judged(&format!("1000000001.{zeros}ms")), -12);
        assert_eq!(judged(&format!("1.{zeros}0000001s")), -18);
        assert_eq!(judged(&format!("1.{zeros}1000000001s")), -12);
        assert_eq!(judged(&format!("1.{zeros}x")), -16);
    }
    all_judged(&[("0.000000000000000000001s", -18), ("1.00000000000000000000", -15), ("1.00000000000000000000x", -16)]);
}

#[test]
fn zeros_behind_another_digit_count_in_its_run() {
    all_judged(&[
        ("1.500000000s", 1_500),
        ("1.5000000000s", -12),
        ("1.1000000000s", 1_100),
        ("1.1000000001s", -12),
        ("0.00001000000000h", 36),
        ("0.000001000000000h", -18),
    ]);
}

#[test]
fn n18_before_17() {
    all_judged(&[
        ("1000000000.000000001h", -18),
        ("1000000000.00001h", -17),
        ("1000000000.0000h", -17),
        ("1000000000.0005s", -18),
        ("4294967.295000000s", 4_294_967_295),
        ("4294967.2951s", -18),
        ("4294967.296s", -17),
        ("71582.788250000m", 4_294_967_295),
        ("71582.78826m", -18),
        ("71582.7883m", -17),
        ("1193.046472500h", -17),
        ("1193.046470000h", 4_294_967_292),
        ("18446744.073709551s", -18),
        ("18446744.073709552s", -18),
        ("5124095.000000s", -17),
    ]);
}

#[test]
fn long_ones_where_a_form_takes_them() {
    let zeros = zeros(20);
    last_record(&[
        (&format!("when every 1.{zeros}s"), "T every 1000"),
        (&format!("when at sunset - 2147483.{zeros}s"), "T at_solar sunset -2147483000"),
        (&format!("when http trigger if last_fired(\"a\") older than 0.{zeros}h"), "C last_fired_older_than x61 0"),
    ]);
    refused(&[
        (&format!("when every 0.{zeros}s"), "35 1 12 0"),
        (&format!("when every 999.{zeros}ms"), "35 1 12 0"),
        (&format!("when at sunset + 2147484.{zeros}s"), "36 1 18 0"),
    ]);
}

#[test]
fn a_text_with_one_that_the_old_17_refuses_is_outside_the_domain() {
    let in_domain = |text: &str| second::in_domain(&case(text.as_bytes(), ALL.as_bytes()));
    let zeros = zeros(20);
    for unit in ["ms", "s", "m", "h"] {
        assert!(!in_domain(&format!("when every 1.{zeros}{unit}")));
        assert!(!in_domain(&format!("1.{zeros}1{unit}")));
        assert!(in_domain(&format!("0.{}{unit}", &zeros[1..])));
    }
    // Only where the lexer reads it, and as a duration.
    assert!(!in_domain(&format!("0.{zeros}s @")));
    for text in [format!("@ 0.{zeros}s"), format!("0.{zeros}x"), format!("0.{zeros}"), format!("0.{zeros}1000000001s")] {
        assert!(in_domain(&text), "{text}");
    }
    // 2^64 lies between the two of each pair, whatever is answered now.
    for (below, past) in [
        ("18446744.073709551s", "18446744.073709552s"),
        ("1.0000000000000000000ms", "2.0000000000000000000ms"),
        ("18446744.000000000000ms", "18446745.000000000000ms"),
        ("512.0000000000h", "513.0000000000h"),
        ("5124.095576030h", "5124.095576031h"),
        ("307445734.561825m", "307445734.561826m"),
        ("1000000000.000h", "1000000000.0000h"),
    ] {
        assert!(in_domain(below) && !in_domain(past), "{past}");
    }
}
