//! Document 02 §3, joining two rules, and §12 where topics of the first count for the second.

mod common;
use cases::{Join, LEAST_WORDS};
use common::S;

/// Sheet S with an input device and a group, another party's adapter, and a name twice on one adapter.
fn sheet() -> String {
    format!("{S}adapter,7\nparty,7,3\ninput,0,3,Door\ngroup,0,2,Hall\nlamp,7,9,Oven\nlamp,0,5,Twice\nlamp,0,6,Twice\n")
}

fn join(texts: [&str; 2]) -> Join {
    let texts = texts.map(|text| text.as_bytes().to_vec());
    Join { id: 1, words: [LEAST_WORDS; 2], party: 0, primary: 0, texts, sheet: sheet().into_bytes(), topics: Vec::new() }
}

/// The lines of an answer, without its token lines.
fn lines_of(join: &Join) -> Vec<String> {
    second::join(join).lines().filter(|line| !line.starts_with("token ")).map(str::to_string).collect()
}

/// What stands behind both `buffer` lines.
fn says_of(join: &Join) -> String {
    let lines = lines_of(join);
    assert_eq!(lines[..3], ["case 1", "buffer kept", "buffer kept"]);
    lines[3..].join("\n")
}

fn says(one: &str, two: &str) -> String {
    says_of(&join([one, two]))
}

/// How many token lines stand before each `buffer` line.
fn records_of(join: &Join) -> [usize; 2] {
    let answer = second::join(join);
    let parts: Vec<&str> = answer.split("buffer kept\n").collect();
    let count = |part: &str| part.lines().filter(|line| line.starts_with("token ")).count();
    assert_eq!((parts.len(), count(parts[2])), (3, 0));
    [count(parts[0]), count(parts[1])]
}

/// Triggers behind `when` each.
fn when(triggers: &[&str]) -> String {
    triggers.iter().map(|trigger| format!("when {trigger}")).collect::<Vec<_>>().join(" ")
}

/// The FROM of each trigger that is left.
fn from(one: &[&str], two: &[&str]) -> String {
    let says = says(&when(one), &when(two));
    assert!(says.starts_with("accepted "), "{one:?} {two:?} {says}");
    says.lines().filter_map(|line| line.strip_prefix("T ")).map(|line| &line[..1]).collect()
}

/// Whether a second trigger is dropped beside a first.
fn equal(one: &str, two: &str) -> bool {
    let (there, back) = (from(&[one], &[two]), from(&[two], &[one]));
    assert_eq!(there, back);
    there == "1"
}

/// Whether the conditions agree.
fn agree(one: &str, two: &str) -> bool {
    let [there, back] = [(one, two), (two, one)].map(|(one, two)| says(&format!("when http trigger {one}"), &format!("when http trigger {two}")));
    assert!([&there, &back].iter().all(|says| says.starts_with("accepted ") || *says == "refused 0 51 0 0 0"), "{there}");
    assert_eq!(there.starts_with("accepted "), back.starts_with("accepted "));
    there.starts_with("accepted ")
}

#[test]
fn p60_both_texts_are_read_by_the_default_call() {
    let repeat = "when input(dev=3, dev=5, inst=0) is press";
    assert_eq!(says(repeat, "when http trigger"), "refused 1 63 1 19 0");
    assert_eq!(says("when http trigger", repeat), "refused 2 63 1 19 0");
    assert_eq!(says("when lamp(3) turns on", "when hcl override starts for broadcast"), "accepted 2 0\nT 1 lamp_turns 0 3 on\nT 2 hcl_override broadcast 0 starts");
}

#[test]
fn p61_the_first_questions() {
    let with = |one: &str, words: [usize; 2]| says_of(&Join { words, ..join([one, "when http trigger"]) });
    assert_eq!(with("when http trigger", [LEAST_WORDS, 0]), "refused 2 2 0 0 0");
    assert_eq!(with("when @", [LEAST_WORDS, 0]), "refused 1 10 1 6 0");
    assert_eq!(with("when http trigger", [LEAST_WORDS - 1, LEAST_WORDS]), "refused 1 2 0 0 0");
    assert_eq!(with("when http trigger", [0, 0]), "refused 1 2 0 0 0");
    assert_eq!(with("when http trigger", [LEAST_WORDS, LEAST_WORDS + 1]), "accepted 1 0\nT 1 http_trigger");
    let raw = |nth: usize| {
        let mut join = join(["when http trigger", "when http trigger"]);
        join.texts[nth] = b"\n \xff".to_vec();
        join
    };
    assert_eq!((says_of(&raw(0)), says_of(&raw(1))), ("refused 1 4 2 2 0".to_string(), "refused 2 4 2 2 0".to_string()));
    let long = " ".repeat(16_385);
    assert_eq!((says(&long, &long), says("when http trigger", &long), says("when", &long)), ("refused 1 1 0 0 0".into(), "refused 2 1 0 0 0".into(), "refused 1 20 1 5 0".into()));
    assert_eq!(says_of(&Join { words: [LEAST_WORDS, 0], ..raw(1) }), "refused 2 2 0 0 0");
    // 3 and 53 are always the first text's.
    assert_eq!(says_of(&Join { sheet: b"primary,0\n\n".to_vec(), ..raw(1) }), "refused 1 3 2 0 0");
    assert_eq!(says_of(&Join { primary: 7, ..raw(1) }), "refused 1 53 0 0 0");
    assert_eq!(says_of(&Join { primary: 7, ..raw(0) }), "refused 1 4 2 2 0");
}

#[test]
fn p62_what_the_buffers_hold() {
    for (texts, records) in [
        (["when @", "when http trigger"], [1, 0]),
        (["when", "when http trigger"], [1, 0]),
        (["when http trigger", "when foo @"], [3, 2]),
        (["when http trigger", "when foo bar baz"], [3, 4]),
        (["when http trigger", "when http trigger if sun is up"], [3, 7]),
        (["when every 1s when every 2s when every 3s", "when every 4s when every 5s"], [9, 6]),
        (["when http trigger", "when http trigger"], [3, 3]),
    ] {
        assert_eq!(records_of(&join(texts)), records, "{texts:?}");
    }
    assert_eq!(records_of(&Join { words: [LEAST_WORDS, 0], ..join(["when http trigger", "when http trigger"]) }), [3, 0]);
    // Each buffer has its own text's records.
    let answer = second::join(&join(["# a\nwhen http trigger", "when\n http trigger"]));
    assert!(answer.starts_with("case 1\ntoken 1 0 4 4 2 1\ntoken 1 0 9 4 2 6\ntoken 1 0 14 7 2 11\nbuffer kept\ntoken 1 0 0 4 1 1\ntoken 1 0 6 4 2 2\n"), "{answer}");
}

#[test]
fn p63_repeats_are_dropped_throughout() {
    let says = says("when http trigger when every 1h when http trigger", "when every 60m when controller starts");
    assert_eq!(says, "accepted 3 0\nT 1 http_trigger\nT 1 every 3600000\nT 2 controller_starts");
    assert_eq!(from(&["every 1s", "every 1s"], &["every 1s", "every 1s", "every 1s", "every 1s"]), "1");
    assert_eq!(from(&["every 1s"], &["every 2s", "every 2s", "every 1s", "every 3s"]), "122");
    assert_eq!(from(&["every 1s", "every 2s", "every 1s"], &["every 3s", "every 2s", "every 3s"]), "112");
    assert_eq!(from(&["every 1s"], &["every 2s", "every 3s", "every 4s"]), "1222");
}

#[test]
fn p63_conditions_are_the_first_texts() {
    let both = says("when http trigger if sun is up and sun is up", "when controller starts if sun is up and sun is up");
    assert_eq!(both, "accepted 2 2\nT 1 http_trigger\nT 2 controller_starts\nC 1 sun_is up\nC 1 sun_is up");
}

#[test]
fn p64_equality_is_by_record() {
    for (one, two) in [
        ("lamp(\"Till\") turns on", "lamp(7, adapter=1) turns on"), ("at 7:05", "at 07:05 on tue..mon"), ("at sunset", "at sunset - 0s"),
        ("every 1h", "every 60m"), ("at sunset on mon, tue", "at sunset + 0ms on tue, mon..tue"), ("scene(3) recalled", "scene(003, adapter=0) recalled"),
        ("input(3, 4) is press", "input(type=light, inst=4, dev=\"Door\") is press"), ("input(group=3, type=light) is press", "input(type=4, group=3, adapter=0) is press"),
        ("input device(3) power cycled", "input device(dev=\"Door\") power cycled"), ("hcl override starts for group(2)", "hcl override starts for group(\"Hall\")"),
        ("timer(\"a\") fires", "timer\n#\n(\"a\") fires"), ("mqtt \"a\"", "mqtt\t\"a\""),
    ] {
        assert!(equal(one, two), "{one} {two}");
    }
    for (one, two) in [
        ("lamp(\"Till\") turns on", "lamp(7) turns on"), ("lamp(7) turns on", "lamp(7) turns off"), ("at 7:05", "at 7:05 on mon..sat"), ("at sunset", "at sunset - 1ms"),
        ("at sunset + 1s", "at sunset - 1s"), ("input(group=3) is press", "input(group=3, type=0) is press"), ("input(3, 4) is press", "input(4, 3) is press"),
        ("input(3, 4) is any_event", "input(3, 4) is event(data=0)"), ("timer(\"a\") fires", "rule(\"a\") fails"), ("timer(\"a\") fires", "timer(\"b\") fires"),
        ("timer(\"a\") fires", "timer(\"ab\") fires"), ("timer(\"a\") fires", "timer(\"A\") fires"), ("timer(\"a\") fires", "timer(\"a \") fires"), ("mqtt \"a\"", "mqtt \"b\""),
        ("timer(\"a\0b\") fires", "timer(\"a\0c\") fires"), ("timer(\"\u{e9}\") fires", "timer(\"e\u{301}\") fires"), ("controller starts", "controller becomes active"),
        ("device(1) goes offline", "device(1) comes online"), ("hcl override starts for lamp(2)", "hcl override starts for group(2)"),
    ] {
        assert!(!equal(one, two), "{one} {two}");
    }
}

#[test]
fn p64_conditions_by_record() {
    for (one, two) in [
        ("if lamp(4).level == 0", "if lamp(4).level == -0"), ("if var(\"v\") == var(\"w\") + 0", "if var(\"v\") == var(\"w\") - 0"), ("if lamp(\"Till\") is on", "if lamp(7, adapter=1) is on"),
        ("if time in 7:05..sunset", "if time in 07:05 .. sunset + 0s"), ("if day in mon..sun", "if day in tue..mon"), ("if last_fired(\"l\") older than 1h", "if last_fired(\"l\") older than 60m"),
        ("if var(\"v\") == \"\"", "# \"\"\nif var(\"v\") ==\n\"\""), ("", "# if sun is up"),
    ] {
        assert!(agree(one, two), "{one} {two}");
    }
    for (one, two) in [
        ("if var(\"v\") == var(\"w\")", "if var(\"v\") == var(\"w\") + 0"), ("if var(\"v\") == 5", "if var(\"v\") == \"5\""), ("if var(\"v\") == 5", "if var(\"v\") == -5"),
        ("if var(\"v\") == \"a\"", "if var(\"v\") == \"b\""), ("if var(\"v\") == \"a\"", "if var(\"w\") == \"a\""), ("if lamp(4).level > 5", "if lamp(4).level >= 5"),
        ("if lamp(4).level > 5", "if lamp(4).cct > 5"), ("if timer(\"a\") is running", "if rule(\"a\") is enabled"),
    ] {
        assert!(!agree(one, two), "{one} {two}");
    }
}

#[test]
fn p65_conditions_are_lists() {
    assert!(agree("", "") && agree("if sun is up and sun is up", "if sun is up and sun is up"));
    for (one, two) in [
        ("", "if sun is up"), ("if sun is up", "if sun is up and sun is up"), ("if sun is up and sun is down", "if sun is down and sun is up"),
        ("if sun is up and sun is up and sun is down", "if sun is up and sun is down and sun is down"),
        ("if sun is up and sun is up and sun is up and sun is up", "if sun is up and sun is up and sun is up and sun is down"),
    ] {
        assert!(!agree(one, two), "{one} {two}");
    }
}

#[test]
fn p66_51_before_52_and_four_are_enough() {
    let four = when(&["every 1s", "every 2s", "every 3s", "every 4s"]);
    assert_eq!(says(&four, "when every 5s"), "refused 0 52 0 0 0");
    assert_eq!(says(&four, "when every 5s if sun is up"), "refused 0 51 0 0 0");
    assert_eq!(says(&(four.clone() + " if sun is up"), "when every 5s if sun is up"), "refused 0 52 0 0 0");
    assert_eq!(from(&["every 1s", "every 2s", "every 3s", "every 4s"], &["every 4s", "every 3s", "every 2s", "every 1s"]), "1111");
    assert_eq!(from(&["every 1s", "every 2s", "every 1s", "every 2s"], &["every 3s", "every 2s", "every 4s", "every 3s"]), "1122");
    assert_eq!(says(&when(&["every 1s", "every 2s", "every 1s", "every 2s"]), &when(&["every 3s", "every 4s", "every 5s"])), "refused 0 52 0 0 0");
    assert_eq!(says(&when(&["every 1s"; 4]), &when(&["every 2s", "every 3s", "every 4s", "every 5s"])), "refused 0 52 0 0 0");
}

#[test]
fn p67_the_first_texts_topics_count_as_earlier() {
    let lending = |lent: usize, one: &[&str], two: &[&str]| {
        let topics = (1..=lent).map(|topic| topic.to_string()).collect::<Vec<_>>().join("\n").into_bytes();
        let naming = |topics: &[&str]| topics.iter().map(|topic| format!("when mqtt \"{topic}\"")).collect::<Vec<_>>().join(" ");
        says_of(&Join { topics, ..join([&naming(one), &naming(two)]) })
    };
    let accepts = |lent: usize, one: &[&str], two: &[&str]| lending(lent, one, two).starts_with("accepted ");
    assert_eq!(lending(6, &["a", "b"], &["c"]), "refused 2 66 1 6 0");
    assert_eq!(lending(6, &["a", "b"], &["a"]), "accepted 2 0\nT 1 mqtt x61\nT 1 mqtt x62");
    assert_eq!(lending(7, &["a"], &["a", "7", "b"]), "refused 2 66 1 34 0");
    assert_eq!(lending(8, &["1"], &["a"]), "refused 2 66 1 6 0");
    assert_eq!(lending(8, &["a"], &["1"]), "refused 1 66 1 6 0");
    assert!(accepts(8, &["1"], &["1"]) && accepts(10, &["1", "9"], &["10", "9"]) && accepts(4, &["a", "b", "c", "d"], &["d"]));
    // Named or lent twice is one topic; without lent ones eight are not too many.
    assert!(accepts(5, &["a", "a"], &["b", "c"]) && accepts(5, &["1", "a"], &["b", "c"]));
    assert_eq!(lending(0, &["a", "b", "c", "d"], &["e", "f", "g", "h"]), "refused 0 52 0 0 0");
}

#[test]
fn refusals_of_the_second_keep_their_place_and_detail() {
    assert_eq!(says("when http trigger", "\n when lamp(\"Aisle\") turns on"), "refused 2 34 2 12 2");
    assert_eq!(says("when http trigger", "when lamp(\"Twice\") turns on"), "refused 2 33 1 11 2");
    assert_eq!(says("when http trigger", "when lamp(\"Till\", adapter=0) turns on"), "refused 2 32 1 11 1");
    assert_eq!(says("when http trigger\n\n\n", "when http trigger # \u{e9}\nfoo"), "refused 2 41 2 1 0");
    assert_eq!(says("when lamp(\"Aisle\") turns on", "when @"), "refused 1 34 1 11 2");
}

#[test]
fn a_party_and_its_primary() {
    let oven = Join { party: 3, primary: 7, ..join(["when lamp(\"Oven\") turns on when scene(3) recalled", "when lamp(9) turns on when lamp(9, adapter=7) turns off"]) };
    assert_eq!(says_of(&oven), "accepted 3 0\nT 1 lamp_turns 7 9 on\nT 1 scene_recalled 7 3\nT 2 lamp_turns 7 9 off");
    assert_eq!(says("when http trigger", "when lamp(\"Oven\") turns on"), "refused 2 31 1 11 0");
}
