use super::coverage::Coverage;
use super::faults::{Way, FAULTS, THE_RIGHT_WAY};
use super::run::{Difference, Other, Readers};
use super::sorts;
use crate::batches::{Found, Plan};
use crate::features::{OF_THE_PROFILE, REFUSALS};
use crate::held::{run, smallest, Held};
use crate::tokens::refusal;
use cases::{Case, Habit, Join, LEAST_WORDS};
use std::collections::BTreeSet;

const SEED: u64 = 11;

fn generated(index: u64) -> Join {
    generate::join(SEED, index)
}

fn plan(count: u64, batch: u64) -> Plan<'static, Join> {
    Plan { make: &generated, count, batch, threads: 1, progress: false }
}

/// The first difference of such joins to what the calls come to, in up to so many generated ones, made small.
fn found(join: &(dyn Fn(&Join) -> String + Sync), count: u64) -> Option<(u64, Difference)> {
    let readers = Readers { join, call: &second::answer, replay: None };
    match run(&plan(count, 50), &readers).expect("no program is run") {
        Found::Same(_) => None,
        Found::Different(found) => Some((found.line.id, smallest(&found, &readers))),
    }
}

/// The faults below are steps of a way to join that is right without them.
#[test]
fn the_right_way_is_the_second_readers() {
    for index in 0..6_000 {
        let join = generated(index);
        assert_eq!(THE_RIGHT_WAY.join(&join), second::join(&join), "{index}");
    }
}

/// Each seeded fault is found among the generated joins, and the join becomes small.
#[test]
fn every_seeded_fault_is_found() {
    for (fault, way) in FAULTS {
        let (index, small) = found(&|join| way.join(join), 20_000).unwrap_or_else(|| panic!("not found: {fault}"));
        let size = small.line.texts[0].len() + small.line.texts[1].len() + small.line.sheet.len() + small.line.topics.len();
        println!("{index} {size} {fault}");
        assert_eq!(small.other, Other::Calls, "{fault}");
        assert!(size < 250, "{fault}\n{}\n{}", small.line.texts[0].escape_ascii(), small.line.texts[1].escape_ascii());
        assert_ne!(way.join(&small.line), second::join(&small.line));
    }
}

/// A reader to which another party's rows matter is found by the sheets beside.
#[test]
fn what_comes_of_others_rows_is_found() {
    let counting = |join: &Join| {
        let rows = join.sheet.iter().filter(|&&b| b == b'\n').count();
        second::join(join).replace("accepted 1 0", &format!("accepted 1 {}", rows % 2))
    };
    let calls = |case: &Case| second::answer(case);
    let readers = Readers { join: &counting, call: &calls, replay: None };
    let join = (0..2_000).map(generated).find(|join| readers.differs(Other::Beside, join)).expect("one with another sheet beside it");
    assert!(!Readers { join: &second::join, call: &calls, replay: None }.differs(Other::Beside, &join));
}

/// Nothing is left uncovered by far fewer joins than a run has.
#[test]
fn every_sort_comes_up() {
    let readers = Readers { join: &second::join, call: &second::answer, replay: None };
    let Found::Same(coverage) = run(&Plan { threads: 2, ..plan(50_000, 1_000) }, &readers).unwrap() else { panic!("a difference") };
    assert_eq!(coverage.zeros(), Vec::<String>::new());
    assert!(coverage.accepted > 15_000 && coverage.beside > 40_000, "{coverage:?}");
    assert_eq!(Coverage::default().zeros().len(), sorts::all().len() + 1);
    let different: BTreeSet<&String> = sorts::all().iter().collect();
    assert_eq!(different.len(), sorts::all().len());
}

/// The sorts that a join shows, without those of every join.
fn shown(texts: [&str; 2], lent: &str) -> String {
    let texts = texts.map(|text| text.as_bytes().to_vec());
    let sheet = b"primary,0\nadapter,0\nlamp,0,4,Till\n".to_vec();
    let join = Join { id: 1, words: [LEAST_WORDS; 2], party: 0, primary: 0, texts, sheet, topics: lent.into() };
    let found = sorts::sorts(&join, &second::join(&join));
    assert!(found.iter().all(|sort| sorts::place(sort).is_some()), "{found:?}");
    sorts::all().iter().filter(|sort| found.contains(*sort) && *sort != "party 0").cloned().collect::<Vec<_>>().join("; ")
}

#[test]
fn what_a_join_shows_is_counted() {
    for (texts, lent, wanted) in [
        (["when @", "when"], "", "first 10; both refused; both refused, the second's number is higher"),
        (["when", "when http trigger"], "", "first 20; first refused, the second not"),
        (["when http trigger", "foo"], "", "second 38"),
        (["when http trigger if sun is up", "when http trigger if sun is down"], "", "51; 51 for accepted; 51 by one entry; 51 at entry 1; 51 by sun_is 1"),
        (["when http trigger if sun is up", "when http trigger"], "", "51; 51 for accepted; 51 by a second without conditions"),
        (["when http trigger if sun is up and sun is down", "when http trigger if sun is down and sun is up"], "", "51; 51 for accepted; 51 by order alone"),
        (["when http trigger if sun is up", "when http trigger if sun is up and sun is up"], "", "51; 51 for accepted; 51 by one more behind; 51 by repeats alone"),
        (["when http trigger if var(\"v\") == 5", "when http trigger if var(\"v\") == \"5\""], "", "51; 51 for accepted; 51 by one entry; 51 at entry 1; 51 by a text for a number"),
        (["when http trigger if var(\"v\") == var(\"w\")", "when http trigger if var(\"v\") == var(\"w\") - 0"], "", "51; 51 for accepted; 51 by one entry; 51 at entry 1; 51 by an added 0"),
        (["when http trigger if var(\"v\") == \"a\"", "when http trigger if var(\"v\") == \"b\""], "", "51; 51 for accepted; 51 by one entry; 51 at entry 1; 51 by strings alone; 51 by a string at the same place; 51 by var_compare text 4"),
        (["when every 1s when every 2s when every 3s", "when every 3s when every 4s when every 5s"], "", "52; 52 of 5; 52 with one of both"),
        (
            ["when every 1s when every 2s", "when every 1000ms when every 3s if sun is up"], "",
            "51; 51 for accepted; 51 by a first without conditions",
        ),
        (
            ["when http trigger", "when http trigger"], "",
            "T 1; C 0; 0 from the second; of the first in the second; dropped, in the same words; dropped http_trigger",
        ),
        (
            ["when lamp(\"Till\") turns on", "when lamp(4, adapter=0) turns on when lamp(4) turns off"], "",
            "T 2; C 0; 1 from the second; of the first in the second; dropped, in other words; dropped, a name for a number; dropped, an adapter for none; dropped lamp_turns; \
             from the second lamp_turns; kept apart by lamp_turns 3",
        ),
        (
            ["when timer(\"a\") fires", "when timer(\"b\") fires"], "",
            "T 2; C 0; 1 from the second; kept, a name at the same place; kept, a name as long; from the second timer_fires; kept apart by timer_fires 1",
        ),
        (
            ["when at 7:05 when at 7:05", "when http trigger when at 07:05 on mon..sun"], "",
            "T 2; C 0; 1 from the second; again in the first; of the first in the second; a third time; apart from its first place; dropped, in the same words; \
             dropped, in the same words elsewhere; dropped, in other words; dropped, another time; dropped, days for none; dropped at_time; from the second http_trigger",
        ),
        (
            ["when http trigger if lamp(4).level == 0", "when http trigger if lamp(4).level == -0"], "",
            "T 1; C 1; 0 from the second; of the first in the second; dropped, in the same words; conditions, in other words; conditions, a sign of 0; dropped http_trigger; \
             equal conditions lamp_level",
        ),
        (["when mqtt \"a\"", "when mqtt \"b\""], "1\n2\n3\n4\n5\n6\n7", "second 66; 66 by the first's topics; 66 by the first's topics, no last LF; 66 at trigger 1"),
        (["when mqtt \"1\"", "when http trigger when mqtt \"b\""], "1\n2\n3\n4\n5\n6\n7\n8", "second 66; 66 without the first's topics too; 66 at trigger 2"),
        (
            ["when mqtt \"a\"", "when mqtt \"a\""], "1\n2\n3\n4\n5\n6\n7",
            "T 1; C 0; 0 from the second; of the first in the second; a topic of both; a topic of both that is not lent; taken as the first's, with eight named; \
             dropped, in the same words; dropped, a string at the same place; dropped mqtt",
        ),
    ] {
        assert_eq!(shown(texts, lent), wanted, "{texts:?}");
    }
}

/// The generator's two ways to write one rule say the same, and a rule with one entry replaced by another beside it does not.
#[test]
fn a_rule_in_other_words_is_the_same() {
    let (mut same, mut other, mut conditions) = (0, 0, 0);
    for index in 0..6_000 {
        let join = generate::join_of_a_rule(SEED, index, false);
        let answer = second::join(&join);
        match refusal(&answer) {
            None => { same += 1; assert!(!answer.contains("\nT 2 "), "{answer}") }
            Some((_, refusal)) => assert!(refusal.starts_with("53 ") || refusal.starts_with("66 "), "{index} {answer}"),
        }
        let join = generate::join_of_a_rule(SEED, index, true);
        let answer = second::join(&join);
        match refusal(&answer) {
            None => other += usize::from(answer.contains("\nT 2 ")),
            Some(("0", refusal)) => { conditions += 1; assert!(refusal.starts_with("51 ") || refusal.starts_with("52 "), "{index} {answer}") }
            Some((_, refusal)) => assert!(refusal.starts_with("53 ") || refusal.starts_with("66 "), "{index} {answer}"),
        }
    }
    assert!(same > 5_000 && other > 2_000 && conditions > 1_500, "{same} {other} {conditions}");
}

#[test]
fn the_wrong_texts_have_their_numbers() {
    let number = |text: &&str| {
        let case = Case::new(1, LEAST_WORDS, *text, b"primary,0\nadapter,0\n").with_habit(Habit::Rule);
        refusal(&second::answer(&case)).map(|(number, _)| number.to_string()).unwrap_or_else(|| panic!("{text} is accepted"))
    };
    let found: BTreeSet<String> = generate::WRONG_TEXTS.iter().map(number).collect();
    let others = ["1", "2", "3", "4", "19", "32", "33", "34", "53", "66"];
    let wanted = REFUSALS.iter().filter(|number| !others.contains(number) && !OF_THE_PROFILE.contains(number));
    assert_eq!(found, wanted.map(|number| number.to_string()).collect());
}

/// The stored joins are short and different, and show every sort but those of long texts and some of the numbers, kinds and fields.
#[test]
fn the_stored_joins() {
    let joins = generate::stored_joins();
    let mut coverage = Coverage::default();
    joins.iter().for_each(|join| coverage.add(join, &second::join(join)));
    let of_lists = |sort: &String| {
        let starts = ["kept apart by ", "dropped ", "from the second ", "equal conditions ", "51 by value "];
        let number = |start: &str| sort.strip_prefix("join ").and_then(|sort| sort.strip_prefix(start)).is_some_and(|number| number.parse::<u32>().is_ok());
        let field = sort.starts_with("join 51 by ") && sort.ends_with(|c: char| c.is_ascii_digit()) || sort.ends_with(" value");
        field || number("first ") || number("second ") || starts.iter().any(|start| sort.starts_with(&format!("join {start}")))
    };
    let missing: Vec<String> = coverage.zeros().into_iter().filter(|sort| !of_lists(sort)).collect();
    let long = [
        "join first refused, the second too long", "join second 1 before 2", "join the first of 16384 bytes, accepted", "join the second of 16384 bytes, accepted",
        "join 1024 tokens in both, accepted", "a join on a sheet beside",
    ];
    assert_eq!(missing, long, "of {} joins", joins.len());
    let size = |join: &Join| join.texts[0].len() + join.texts[1].len() + join.sheet.len() + join.topics.len();
    assert!((60..=100).contains(&joins.len()) && joins.iter().all(|join| size(join) < 600), "{}", joins.len());
    let different: BTreeSet<String> = joins.iter().map(|join| format!("{join:?}")).collect();
    assert_eq!(different.len(), joins.len());
}

/// The stored joins alone tell the seeded faults, too.
#[test]
fn the_stored_joins_tell_the_faults() {
    let joins = generate::stored_joins();
    let told = |way: &Way| joins.iter().any(|join| way.join(join) != second::join(join));
    let untold: Vec<&str> = FAULTS.iter().filter(|(_, way)| !told(way)).map(|(fault, _)| *fault).collect();
    assert_eq!(untold, Vec::<&str>::new());
}
