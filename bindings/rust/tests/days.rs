//! Opening days: `on` behind a time, and `day in` as a condition.

use tergyosul::{Condition, Day, Days, Party, Refusal, Rule, SolarEvent, Trigger, TOKEN_WORDS};

const SHEET: &[u8] = b"primary,0\n";
const ZERO: Party = Party { number: 0, primary: 0 };

/// The answer, which all calls give, with the same tokens.
fn read(text: &str) -> Result<Rule, Refusal> {
    let [mut words, mut archive_words, mut shop_words] = [[9; TOKEN_WORDS]; 3];
    let answer = tergyosul::read(text.as_bytes(), SHEET, ZERO, &mut words);
    let archive = tergyosul::read_archive(text.as_bytes(), SHEET, ZERO, &mut archive_words);
    let shop = tergyosul::read_shop(text.as_bytes(), SHEET, ZERO, &mut shop_words);
    assert_eq!((answer, words), (archive, archive_words));
    assert_eq!((answer, words), (shop, shop_words));
    answer
}

/// Number, line and column of a refusal. The detail is 0.
fn refused(text: &str) -> (u32, u32, u32) {
    let r = read(text).unwrap_err();
    assert_eq!(r.detail, 0);
    (r.number, r.line, r.column)
}

/// The days of a set, which is read alike in all three places.
fn days(set: &str) -> Days {
    let rule = read(&format!("when at 7:05 on {set} when at sunset + 30m on {set} if day in {set}")).unwrap();
    let [Trigger::AtTime(425, at), Trigger::AtSolar(SolarEvent::Sunset, 1_800_000, solar)] = rule.triggers() else {
        panic!("{set}")
    };
    let [Condition::DayIn(condition)] = rule.conditions() else { panic!("{set}") };
    assert_eq!((at, solar), (condition, condition), "{set}");
    *condition
}

/// The days from one to another, as the calendar has them.
fn from_to(from: Day, to: Day) -> Days {
    let forward = Day::ALL.into_iter().cycle().skip_while(|day| *day != from);
    let mut behind = false;
    forward.take_while(|day| !std::mem::replace(&mut behind, *day == to)).collect()
}

#[test]
fn a_range_runs_forward() {
    for from in Day::ALL {
        for to in Day::ALL {
            assert_eq!(days(&format!("{from}..{to}")), from_to(from, to), "{from}..{to}");
        }
    }
    assert_eq!(days("fri..mon").iter().collect::<Vec<_>>(), [Day::Mon, Day::Fri, Day::Sat, Day::Sun]);
    assert_eq!(days("mon..mon").iter().collect::<Vec<_>>(), [Day::Mon]);
    assert_eq!(days("tue..mon"), Days::EVERY_DAY);
}

/// Days and ranges come in any order, and a day may come again. A set is read as it is shown.
#[test]
fn commas_part_days_and_ranges() {
    for (set, shown) in [
        ("sun", "sun"),
        ("sun,mon", "mon, sun"),
        ("wed , mon,wed", "mon, wed"),
        ("mon..wed,tue..thu", "mon, tue, wed, thu"),
        ("sat..sun,\nmon,fri..sat", "mon, fri, sat, sun"),
        ("mon,tue,wed,thu,fri,sat,sun", "mon, tue, wed, thu, fri, sat, sun"),
    ] {
        assert_eq!(days(set).to_string(), shown);
        assert_eq!(days(shown), days(set));
    }
}

#[test]
fn without_on_all_seven_count() {
    let rule = read("when at 7:05 when at sunrise when at sunset - 1s if sun is up").unwrap();
    let every_day = Days::EVERY_DAY;
    let sunset = Trigger::AtSolar(SolarEvent::Sunset, -1_000, every_day);
    assert_eq!(rule.triggers(), [Trigger::AtTime(425, every_day), Trigger::AtSolar(SolarEvent::Sunrise, 0, every_day), sunset]);
    assert_eq!(read("when at 7:05 on mon..sun"), read("when at 7:05"));
}

/// Several triggers and conditions each have their own days.
#[test]
fn each_entry_has_its_own_days() {
    let rule = read("when at 7:05 on mon..fri when at 9:00 on sat when at 11:00 if day in fri..mon and day in sat").unwrap();
    let shown: Vec<String> = rule
        .triggers()
        .iter()
        .map(|trigger| match trigger {
            Trigger::AtTime(minutes, days) => format!("{minutes}: {days}"),
            _ => panic!("{trigger:?}"),
        })
        .collect();
    assert_eq!(shown, ["425: mon, tue, wed, thu, fri", "540: sat", "660: mon, tue, wed, thu, fri, sat, sun"]);
    assert_eq!(rule.conditions(), [Condition::DayIn(from_to(Day::Fri, Day::Mon)), Condition::DayIn(from_to(Day::Sat, Day::Sat))]);
}

/// 50, at the word, when it is read: what follows is not looked at.
#[test]
fn a_word_that_is_no_day_is_refused() {
    for word in ["monday", "Mon", "MON", "mo", "day", "when", "if", "on"] {
        assert_eq!(refused(&format!("when at 7:05 on {word}")), (50, 1, 17), "{word}");
        assert_eq!(refused(&format!("when at sunset on {word} foo")), (50, 1, 19), "{word}");
        assert_eq!(refused(&format!("when at 7:05 on mon..{word}")), (50, 1, 22), "{word}");
        assert_eq!(refused(&format!("when at 7:05 on mon, {word} when foo")), (50, 1, 22), "{word}");
        assert_eq!(refused(&format!("when http trigger\nif day in {word}")), (50, 2, 11), "{word}");
        assert_eq!(refused(&format!("when http trigger\nif day in sun,mon..{word}")), (50, 2, 20), "{word}");
    }
    let shown = read("when at 7:05 on monday").unwrap_err().to_string();
    assert_eq!(shown, "1:17: the word is no day (refusal 50)");
}

/// 20 where no word stands, be it another token or the end.
#[test]
fn a_day_is_a_word() {
    for (text, column) in [
        ("when at 7:05 on", 16),
        ("when at 7:05 on 5", 17),
        ("when at 7:05 on \"mon\"", 17),
        ("when at 7:05 on (mon)", 17),
        ("when at 7:05 on mon..", 22),
        ("when at 7:05 on mon..,tue", 22),
        ("when at 7:05 on mon,", 21),
        ("when at 7:05 on mon,,tue", 21),
        ("when http trigger if day", 25),
        ("when http trigger if day mon", 26),
        ("when http trigger if day is mon", 26),
        ("when http trigger if day in", 28),
        ("when http trigger if day in (mon)", 29),
    ] {
        assert_eq!(refused(text), (20, 1, column), "{text}");
    }
}

/// Where no day set is taken, `on` and a day are what they were.
#[test]
fn a_day_set_has_its_places() {
    assert_eq!(refused("when at 7:05 on mon tue"), (41, 1, 21));
    assert_eq!(refused("when at 7:05 on mon on tue"), (41, 1, 21));
    assert_eq!(refused("when every 5s on mon"), (41, 1, 15));
    assert_eq!(refused("when http trigger if time in 21:00..sunrise + 30m on mon"), (41, 1, 51));
    assert_eq!(refused("when day in mon"), (21, 1, 6));
}
