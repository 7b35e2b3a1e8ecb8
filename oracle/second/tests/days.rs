//! Document 02 §1, branch opening days: what a set of days is, where it stands, and how a word that is no day is refused.

mod common;
use cases::Habit;
use common::*;

const DAYS: [&str; 7] = ["mon", "tue", "wed", "thu", "fri", "sat", "sun"];

/// What is said of a text: the same by every habit.
fn says(text: &str) -> String {
    let case = case(text.as_bytes(), ALL.as_bytes());
    let says = verdict_of(&case);
    for habit in Habit::ALL {
        assert_eq!(verdict_of(&case.with_habit(habit)), says, "{text}");
    }
    says
}

/// Asserts the refusal `NUMBER LINE COLUMN DETAIL` of each text, by every habit.
fn refuses(table: &[(&str, &str)]) {
    for (text, refusal) in table {
        assert_eq!(says(text), format!("refused {refusal}"), "{text}");
    }
}

/// The digits of a set, which are the same wherever it stands.
fn digits(set: &str) -> String {
    let condition = says(&format!("when http trigger if day in {set}"));
    let digits = condition.strip_prefix("accepted 1 1\nT http_trigger\nC day_in ").expect("accepted").to_string();
    let on = if digits.len() == 7 { String::new() } else { format!(" on {digits}") };
    for (at, record) in [("7:05", "at_time 425"), ("sunrise", "at_solar sunrise 0"), ("sunset - 5m", "at_solar sunset -300000")] {
        assert_eq!(says(&format!("when at {at} on {set}")), format!("accepted 1 0\nT {record}{on}"), "{at} {set}");
    }
    digits
}

#[test]
fn p1_days_behind_a_time_and_a_sun() {
    assert_eq!(says("when at sunset on mon"), "accepted 1 0\nT at_solar sunset 0 on 1");
    assert_eq!(says("when at sunset + 5m on fri..mon"), "accepted 1 0\nT at_solar sunset 300000 on 1567");
    assert_eq!(says("when at 7:05 on mon"), "accepted 1 0\nT at_time 425 on 1");
    assert_eq!(says("when at 7:05\non # days\nsun , sat"), "accepted 1 0\nT at_time 425 on 67");
    assert_eq!(says("when at 7:05 on mon when at 7:05 if day in tue"), "accepted 2 1\nT at_time 425 on 1\nT at_time 425\nC day_in 2");
    let most = says("when at 7:05 on mon when at sunset on tue when at sunrise on wed when at 23:59 on thu if day in fri and day in sat and day in sun and day in mon");
    let wanted = "accepted 4 4\nT at_time 425 on 1\nT at_solar sunset 0 on 2\nT at_solar sunrise 0 on 3\nT at_time 1439 on 4\nC day_in 5\nC day_in 6\nC day_in 7\nC day_in 1";
    assert_eq!(most, wanted);
}

#[test]
fn every_day_and_every_range() {
    for (from, first) in DAYS.iter().enumerate() {
        assert_eq!(digits(first), (from + 1).to_string());
        for (to, last) in DAYS.iter().enumerate() {
            let in_range = |day: &usize| if from <= to { from <= *day && *day <= to } else { *day >= from || *day <= to };
            let wanted: String = (0..7).filter(in_range).map(|day| (day + 1).to_string()).collect();
            assert_eq!(digits(&format!("{first}..{last}")), wanted, "{first}..{last}");
        }
    }
    assert_eq!((digits("fri..mon"), digits("mon..mon"), digits("sun..mon"), digits("sat..tue")), ("1567".into(), "1".into(), "17".into(), "1267".into()));
    assert_eq!((digits("mon, wed..fri"), digits("fri..mon, wed"), digits("sun, mon"), digits("sat..sun,tue")), ("1345".into(), "13567".into(), "17".into(), "267".into()));
}

#[test]
fn p2_a_word_that_is_no_day_is_refused_at_once() {
    refuses(&[
        ("when at 7:05 on foo 5", "50 1 17 0"), ("when at 7:05 on mon..foo", "50 1 22 0"), ("when at 7:05 on foo", "50 1 17 0"),
        ("when at 7:05 on foo..mon", "50 1 17 0"), ("when at 7:05 on foo, 5", "50 1 17 0"), ("when at 7:05 on mon..foo 5", "50 1 22 0"),
        ("when at 7:05 on mon, foo", "50 1 22 0"), ("when at 7:05 on mon..tue, foo", "50 1 27 0"), ("when at 7:05 on mon,\n foo", "50 2 2 0"),
        ("when at sunset on foo", "50 1 19 0"), ("when at sunset - 5m on foo bar", "50 1 24 0"), ("when at 7:05 on foo if lamp(", "50 1 17 0"),
        ("when at 7:05 on on mon", "50 1 17 0"), ("when at 7:05 on in mon", "50 1 17 0"), ("when at 7:05 on foo foo", "50 1 17 0"),
        ("when at 7:05 on 5", "20 1 17 0"), ("when at 7:05 on \"mon\"", "20 1 17 0"), ("when at 7:05 on ,", "20 1 17 0"), ("when at 7:05 on", "20 1 16 0"),
        ("when at 7:05 on  # end", "20 1 23 0"), ("when at 7:05 on\n", "20 2 1 0"), ("when at 7:05 on ..", "20 1 17 0"), ("when at 7:05 on (mon)", "20 1 17 0"),
        ("when at 7:05 on 7:05", "20 1 17 0"), ("when at 7:05 on 5s", "20 1 17 0"), ("when at 7:05 on 1.5", "20 1 17 0"), ("when at 7:05 on mon..", "20 1 22 0"),
        ("when at 7:05 on mon,", "20 1 21 0"), ("when at 7:05 on mon,,tue", "20 1 21 0"), ("when at 7:05 on mon..5", "20 1 22 0"),
        ("when at 7:05 on mon, \"tue\"", "20 1 22 0"), ("when at 7:05 on mon..,tue", "20 1 22 0"), ("when at sunset on", "20 1 18 0"),
    ]);
    condition_refused(&[
        ("day in foo 5", "50 1 29 0"), ("day in mon..foo", "50 1 34 0"), ("day in mon, foo", "50 1 34 0"), ("day in 5", "20 1 29 0"),
        ("day in \"mon\"", "20 1 29 0"), ("day in", "20 1 28 0"), ("day in mon,", "20 1 33 0"), ("day in mon..", "20 1 34 0"), ("day in (mon)", "20 1 29 0"),
    ]);
}

#[test]
fn p3_a_comma_needs_a_day_behind_it() {
    refuses(&[
        ("when at 7:05 on mon, when http trigger", "50 1 22 0"), ("when at 7:05 on mon, if day in tue", "50 1 22 0"),
        ("when at sunset on mon, on tue", "50 1 24 0"), ("when at 7:05 on mon.. when http trigger", "50 1 23 0"),
    ]);
    condition_refused(&[("day in mon, and sun is up", "50 1 34 0"), ("day in mon.. and sun is up", "50 1 35 0"), ("day in mon, if sun is up", "50 1 34 0")]);
}

#[test]
fn p4_day_names_are_exact_and_in_is_fixed() {
    for word in ["Mon", "MON", "monday", "mo", "sunset", "sunrise", "sunday", "mon_", "_mon", "mon1", "m", "day", "weekday", "tues", "sonntag", "on", "in"] {
        refuses(&[(&format!("when at 7:05 on {word}"), "50 1 17 0"), (&format!("when at sunset on mon..{word}"), "50 1 24 0")]);
        condition_refused(&[(&format!("day in {word}"), "50 1 29 0"), (&format!("day in sun, {word}"), "50 1 34 0")]);
    }
    condition_refused(&[
        ("day foo", "20 1 26 0"), ("day", "20 1 25 0"), ("day mon", "20 1 26 0"), ("day is mon", "20 1 26 0"), ("day on mon", "20 1 26 0"), ("day In mon", "20 1 26 0"),
        ("day 5", "20 1 26 0"), ("day \"in\" mon", "20 1 26 0"), ("day and sun is up", "20 1 26 0"), ("Day in mon", "21 1 22 0"), ("days in mon", "21 1 22 0"),
        ("mon", "21 1 22 0"), ("weekday in mon", "21 1 22 0"), ("var(\"v\") == day", "20 1 34 0"), ("time in mon..fri", "21 1 30 0"),
    ]);
    refuses(&[("when day in mon", "21 1 6 0"), ("when mon", "21 1 6 0"), ("when at mon", "21 1 9 0"), ("when at on mon", "21 1 9 0")]);
}

#[test]
fn p5_all_seven_days_are_as_without_on() {
    let without = says("when at 7:05");
    let singles = DAYS.join(", ");
    let backwards: Vec<&str> = DAYS.iter().rev().copied().collect();
    for set in [
        "mon..sun", "tue..mon", "wed..tue", "thu..wed", "fri..thu", "sat..fri", "sun..sat", &singles, &backwards.join(","), "mon..fri, sat, sun", "sat..mon, tue..fri",
        "mon..thu, wed..sun", "mon..sun, mon..sun", "sun, mon..sat", "mon..sun, tue",
    ] {
        assert_eq!(says(&format!("when at 7:05 on {set}")), without, "{set}");
        assert_eq!(digits(set), "1234567", "{set}");
    }
    assert_eq!(says("when at sunset on mon..sun"), "accepted 1 0\nT at_solar sunset 0");
    assert_eq!(says("when http trigger if day in mon..sun"), "accepted 1 1\nT http_trigger\nC day_in 1234567");
    for (set, wanted) in [
        ("tue, tue", "2"), ("mon..wed, tue", "123"), ("tue, mon..wed", "123"), ("mon..wed, tue..thu", "1234"), ("fri..mon, sun..tue", "12567"), ("sun, sun, sun", "7"),
        ("mon..wed, mon..wed", "123"), ("sun, mon, sun..mon", "17"), ("tue..sun", "234567"), ("mon..sat", "123456"), ("wed..mon", "134567"),
    ] {
        assert_eq!(digits(set), wanted, "{set}");
    }
}

#[test]
fn p6_what_no_set_has() {
    refuses(&[
        ("when at 7:05 on mon..tue..wed", "41 1 25 0"), ("when at 7:05 on mon on tue", "41 1 21 0"), ("when at 7:05 on mon tue", "41 1 21 0"),
        ("when at 7:05 on mon...fri", "20 1 22 0"), ("when at sunset on mon..tue..wed", "41 1 27 0"), ("when at sunset + 5m on mon on tue", "41 1 28 0"),
        ("when at 7:05 on mon .", "41 1 21 0"), ("when at 7:05 on mon + 5m", "41 1 21 0"), ("when at 7:05 on mon and tue", "41 1 21 0"),
        ("when at 7:05 on mon if day in tue on wed", "41 1 35 0"), ("when at 7:05 on mon. .tue", "41 1 20 0"), ("when at 7:05 on mon-fri", "41 1 20 0"),
        ("when at sunset on mon + 5m", "41 1 23 0"), ("when http trigger on mon", "41 1 19 0"), ("when every 5s on mon", "41 1 15 0"),
        ("when at 7:05 day in mon", "41 1 14 0"), ("when at 7:05 in mon", "41 1 14 0"), ("when at 7:05 On mon", "41 1 14 0"), ("when at 7:05 + 5m on mon", "41 1 14 0"),
    ]);
    condition_refused(&[
        ("day in mon..tue..wed", "41 1 37 0"), ("day in mon tue", "41 1 33 0"), ("day in mon in tue", "41 1 33 0"), ("day in mon...fri", "20 1 34 0"),
        ("time in 7:05..8:00 on mon", "41 1 41 0"), ("sun is up on mon", "41 1 32 0"), ("day in mon == 5", "41 1 33 0"),
    ]);
}

#[test]
fn p7_the_offset_and_the_lexer_come_first() {
    refuses(&[
        ("when at sunset + 2147483.648s on foo", "36 1 18 0"), ("when at sunset - 2147483.649s on", "36 1 18 0"), ("when at 7:05 on foo @", "10 1 21 0"),
        ("when at sunset + 2147483.648s on foo @", "10 1 38 0"), ("when at 7:05 on foo \"", "11 1 21 0"), ("when at 7:05 on foo 24:00", "13 1 21 0"),
        ("when at noon on foo", "21 1 9 0"), ("when at sunset + 5 on foo", "20 1 18 0"), ("when every 5ms when at 7:05 on foo", "35 1 12 0"),
    ]);
    assert_eq!(says("when at sunset - 2147483.648s on sat"), "accepted 1 0\nT at_solar sunset -2147483648 on 6");
    let four = "when at 7:05 on mon ".repeat(4);
    assert_eq!(says(&(four + "when at 7:05 on foo")), "refused 37 1 81 0");
    let four = "when http trigger if day in mon and day in mon and day in mon and day in mon ";
    assert_eq!(says(&format!("{four}and day in foo")), "refused 39 1 78 0");
    assert_eq!(says(&format!("when at 7:05 on foo{}", " (".repeat(1_020))), "refused 19 1 2059 0");
    assert_eq!(tokens(&case(b"when at 7:05 on foo ( (", ALL.as_bytes())).len(), 7);
    assert_eq!(tokens(&case(b"when at 7:05 on foo @ (", ALL.as_bytes())).len(), 5);
}

#[test]
fn p8_sun_is_a_day_and_a_first_word() {
    assert_eq!(says("when http trigger if day in sun and sun is up"), "accepted 1 2\nT http_trigger\nC day_in 7\nC sun_is up");
    assert_eq!(says("when at sunset on sun if sun is up and day in sat, sun..sun"), "accepted 1 2\nT at_solar sunset 0 on 7\nC sun_is up\nC day_in 67");
    assert_eq!(says("when at sunrise on sat..sun if var(\"v\") == sun.is_up"), "accepted 1 1\nT at_solar sunrise 0 on 67\nC var_compare x76 eq value reading sun_is_up");
    condition_refused(&[("day in sun is up", "41 1 33 0"), ("sun in mon", "20 1 26 0"), ("day in sun.is_up", "41 1 32 0"), ("day in sun, sun is up", "41 1 38 0")]);
}

#[test]
fn p14_a_set_may_fill_the_buffer() {
    let text = |count: usize| format!("when http trigger when at 7:05 on {}", vec!["tue"; count].join(","));
    assert_eq!(says(&text(509)), "accepted 2 0\nT http_trigger\nT at_time 425 on 2");
    assert_eq!(tokens(&case(text(509).as_bytes(), ALL.as_bytes())).len(), 1_024);
    assert_eq!(says(&(text(509) + ",")), "refused 19 1 2070 0");
    assert_eq!(says(&(text(508) + ",foo")), "refused 50 1 2067 0");
}

#[test]
fn the_shop_profile_has_days() {
    let shop = |text: &str| verdict_of(&case(text.as_bytes(), ALL.as_bytes()).with_habit(Habit::Shop));
    assert_eq!(shop("when at 7:05 on sat if day in sat and lamp(\"Lamp\") is on"), "accepted 1 2\nT at_time 425 on 6\nC day_in 6\nC lamp_is 2 5 on");
    assert_eq!(shop("when at 7:05 on sat if lamp(3) is on"), "refused 57 1 29 0");
    assert_eq!(shop("when lamp(3) turns on when at 7:05 on foo"), "refused 50 1 39 0");
}

#[test]
fn the_domain_has_no_days() {
    let in_domain = |text: &str| second::in_domain(&case(text.as_bytes(), ALL.as_bytes()));
    for text in [
        "when at 7:05 on mon", "when at 7:05 on", "when at 7:05 on foo", "when at sunset on mon", "when at sunset + 5m on", "when http trigger if day", "when http trigger if day in mon",
        "when http trigger if sun is up and day foo", "when at 7:05 on mon..sun", "when at 7:05 on mon when lamp(", "when at sunset on mon foo",
    ] {
        assert!(!in_domain(text), "{text}");
    }
    for text in [
        "when at 7:05", "when day", "when at 7:05 + 5m on mon", "when at sunset + 2147483.648s on foo", "when at 7:05 on foo @", "when http trigger on mon",
        "when every 5ms when at 7:05 on mon", "when http trigger if mon", "when http trigger foo if day in mon",
    ] {
        assert!(in_domain(text), "{text}");
    }
}
