//! Document 02 §1: texts on which the supplied Rust comes to days are outside the domain, and no others for days.

use crate::told::{case, told, verdict, S};

fn lines(text: &str) -> Vec<String> {
    told(&case(text.as_bytes(), S.as_bytes())).1
}

#[test]
fn forms_with_days_are_outside_the_domain() {
    for tail in ["", " mon", " mon..fri, sun", " foo", " 5", " mon on tue", " on", " mon if lamp("] {
        for at in ["7:05", "sunset", "sunrise + 5m", "sunset - 0s", "sunset - 2147483.648s"] {
            assert_eq!(lines(&format!("when at {at} on{tail}")), ["outside the domain"], "{at}{tail}");
            assert_eq!(lines(&format!("when http trigger when at {at}\non{tail}")), ["outside the domain"], "{at}{tail}");
        }
        for before in ["if day", "if day in", "if sun is up and day in"] {
            assert_eq!(lines(&format!("when http trigger {before}{tail}")), ["outside the domain"], "{before}{tail}");
        }
    }
    assert_eq!(lines("when at 7:05 on mon when mqtt \"a\" is"), ["outside the domain"]);
}

#[test]
fn their_words_elsewhere_are_compared() {
    for (text, said) in [
        ("when day", "refused 21 1 6 0"), ("when on mon", "refused 21 1 6 0"), ("when http trigger if mon", "refused 21 1 22 0"), ("if day", "refused 38 1 1 0"),
        ("when at on mon", "refused 21 1 9 0"), ("when at 7:05 + 5s on mon", "refused 41 1 14 0"), ("when at sunset + on mon", "refused 20 1 18 0"),
        ("when at sunset + 5 on mon", "refused 20 1 18 0"), ("when at sunset + 2147483.648s on foo", "refused 36 1 18 0"),
        ("when at 7:05 On mon", "refused 41 1 14 0"), ("when at 7:05 \"on\"", "refused 41 1 14 0"), ("when at sunset 5s on mon", "refused 41 1 16 0"),
        ("when every 5s on mon", "refused 41 1 15 0"), ("when http trigger on mon", "refused 41 1 19 0"), ("when at 7:05 on foo @", "refused 10 1 21 0"),
        ("when at 7:05 mon", "refused 41 1 14 0"), ("when at 7:05 day in mon", "refused 41 1 14 0"), ("when http trigger if day @", "refused 10 1 26 0"),
        ("when http trigger if time in 7:05..8:00 on", "refused 41 1 41 0"), ("when http trigger if time in 7:05..sunset on", "refused 41 1 43 0"),
        ("when http trigger and day in mon", "refused 41 1 19 0"), ("when mqtt \"a\" is when at 7:05 on mon", "refused 40 1 15 0"),
        ("when lamp(\"nobody\") turns on when at 7:05 on mon", "refused 31 1 11 0"), ("when at 7:05 when at when on", "refused 21 1 22 0"),
    ] {
        assert_eq!(verdict(text), said, "{text}");
    }
    let four = "when http trigger ".repeat(4);
    assert_eq!(verdict(&(four.clone() + "when at 7:05 on")), "refused 37 1 73 0");
    assert_eq!(verdict(&(four + "when at sunset on")), "refused 37 1 73 0");
    let five = "when http trigger if sun is up and sun is up and sun is up and sun is up and day";
    assert_eq!(verdict(five), "refused 39 1 74 0");
}
