use crate::batches::Counts;
use crate::external::split_answers;
use crate::features::{feature_count, feature_name, Coverage, Features, MOST_FEATURES};
use crate::layout;
use crate::options;
use crate::profile;
use crate::readers::{guarded, past_question_3, quiet_panics, Other, Reader, Readers};
use crate::run::{run, smallest, Difference, Outcome, Plan};
use crate::shrink::shrink;
use crate::tokens::{refusal, tokens, Token, STRING};
use crate::vectors;
use cases::{own_primary, Case, Habit, FORMER_LEAST_WORDS, LEAST_WORDS, MOST_WORDS};

const SEED: u64 = 11;

fn contains(whole: &[u8], part: &[u8]) -> bool {
    whole.windows(part.len()).any(|window| window == part)
}

fn generated(index: u64) -> Case {
    generate::case(SEED, index)
}

/// The same without parties, for readers that know nothing of them.
fn of_one_party(index: u64) -> Case {
    let case = generated(index);
    let rows: Vec<&[u8]> = case.sheet.split_inclusive(|&b| b == b'\n').filter(|row| !row.starts_with(b"party,")).collect();
    Case { sheet: rows.concat(), ..case.with_party(0, case.primary()) }
}

fn always(_: &Case) -> bool {
    true
}

/// The first difference between two readers over the generated cases, made small.
fn difference(second: Reader, supplied: Reader, threads: u64) -> Option<Difference> {
    let readers = Readers { second, in_domain: &always, supplied, replay: None };
    let plan = Plan { make: &of_one_party, count: 30_000, batch: 1_000, threads, progress: false };
    match run(&plan, &readers).expect("no program is run") {
        Outcome::Same(_) => None,
        Outcome::Different(found) => Some(smallest(&found, &readers)),
    }
}

/// A reader that takes a group id of 16 is found, whichever reader it is made from, and the case becomes small.
#[test]
fn a_group_id_of_16_is_found() {
    let faulty = |case: &Case| {
        if contains(&case.text, b"group(16") { "accepted 1 0\n".to_string() } else { second::answer(case) }
    };
    for threads in [1, 2] {
        let found = difference(&second::answer, &faulty, threads).expect("a difference");
        assert_eq!(found.other, Other::Supplied);
        assert_eq!((found.case.text.as_slice(), found.case.words), (&b"group(16"[..], LEAST_WORDS));
        assert!(found.case.sheet.is_empty(), "{}", found.case.sheet.escape_ascii());
        assert_eq!(found.answer, "accepted 1 0\n");
    }
}

/// The count and the adapters of the rows with the name in the first string token: 33 on one adapter, 34 on several.
fn by_rows(case: &Case) -> u32 {
    let records = second::lexing(&case.text, LEAST_WORDS).0.records;
    let Some([_, _, start, length, _]) = records.iter().find(|record| record[0] == STRING) else { return 0 };
    let name = &case.text[*start as usize..(start + length) as usize];
    let rows: Vec<Vec<&[u8]>> = cases::lines(&case.sheet).into_iter().map(cases::fields).collect();
    let adapters: Vec<&[u8]> = rows.iter().filter(|row| row.len() == 4 && row[0] == b"lamp" && row[3] == name).map(|row| row[1]).collect();
    match adapters.len() {
        0 | 1 => 0,
        _ if adapters.iter().all(|adapter| *adapter == adapters[0]) => 33,
        _ => 34,
    }
}

#[test]
fn a_33_in_the_place_of_34_is_found() {
    let right = |case: &Case| format!("refused {}\n", by_rows(case));
    let faulty = |case: &Case| format!("refused {}\n", by_rows(case).min(33));
    let found = difference(&right, &faulty, 1).expect("a difference");
    assert_eq!(by_rows(&found.case), 34);
    let rows = found.case.sheet.split(|&b| b == b'\n').filter(|row| !row.is_empty()).count();
    assert!(rows == 2 && found.case.sheet.len() < 60 && found.case.text.len() < 20, "{:?}", found.case);
}

#[test]
fn equal_readers_have_no_difference() {
    let reader = |case: &Case| format!("case {}\n", case.id);
    assert!(difference(&reader, &reader, 2).is_none());
}

#[test]
fn a_case_outside_the_domain_is_not_compared() {
    let (one, two) = (|_: &Case| "1\n".to_string(), |_: &Case| "2\n".to_string());
    let readers = Readers { second: &one, in_domain: &|case| case.id == 40, supplied: &two, replay: None };
    let plan = Plan { make: &generated, count: 50, batch: 7, threads: 1, progress: false };
    let Outcome::Different(found) = run(&plan, &readers).unwrap() else { panic!("no difference") };
    assert_eq!(found.case.id, 40);
}

#[test]
fn a_panic_is_an_answer() {
    quiet_panics();
    let reader = |_: &Case| -> String { panic!("no answer") };
    assert_eq!(guarded(&reader, &generated(0)), "panicked\n");
}

#[test]
fn shrinking_leaves_what_matters() {
    let case = Case::new(1, MOST_WORDS, b"when lamp(\"Aisle\") turns on # x", b"primary,0\nlamp,0,1,a\nlamp,1,2,b\n");
    let mut asked = 0;
    let small = shrink(&case, 10_000, &mut |case| {
        asked += 1;
        contains(&case.text, b"turns") && contains(&case.sheet, b"lamp,1") && case.text.contains(&b'#')
    });
    assert_eq!((small.text.as_slice(), small.sheet.as_slice(), small.words), (&b"turns#"[..], &b"lamp,1"[..], LEAST_WORDS));
    assert!(asked < 500, "{asked}");
}

/// A trigger is dropped as a whole, and so is a character of several bytes.
#[test]
fn shrinking_keeps_texts_that_are_read() {
    let text = "# \u{3000}\u{1f4a1}\nwhen timer(\"\u{e9}\") fires when every 5s when lamp(\"a\") turns on if sun is up and sun is down and time in 7:05..8:00";
    let case = Case::new(1, LEAST_WORDS, text, b"primary,0\nlamp,0,1,a\n");
    let small = |line: &str| {
        let small = shrink(&case, 10_000, &mut |case| second::answer(case).contains(line));
        String::from_utf8(small.text).expect("a text that is read")
    };
    assert_eq!(small("\nT every 5000\n"), "when every 5s");
    assert_eq!(small("\nC sun_is down\n"), "when lamp(\"a\")turns on if sun is down");
    assert_eq!(small("\nT timer_fires xc3a9\n"), "when timer(\"\u{e9}\")fires");
}

#[test]
fn shrinking_keeps_to_its_tries() {
    let case = Case::new(1, 0, vec![b'a'; 5_000], []);
    let mut asked = 0;
    let small = shrink(&case, 50, &mut |case| { asked += 1; case.text.len() > 10 });
    assert!(asked <= 50 && small.text.len() > 10);
}

#[test]
fn features_are_read_off_an_answer() {
    let answer = "case 1\ntoken 5 5000 0 2 1 1\ntoken 22 0 0 1 1 1\nbuffer kept\naccepted 2 3\n\
        T input_event group 0 2 - raw 5\nT hcl_override broadcast 0 clears\n\
        C lamp_level 0 1 ge offset lamp_cct 0 2 -5\nC var_compare x61 ne text x\nC time_in_range clock 5 solar sunset -3\n";
    let case = Case::new(1, LEAST_WORDS, b"5s", []);
    let names: Vec<String> = Features::of(&case, answer).members().map(feature_name).collect();
    let wanted = [
        "token 5", "token 22", "trigger input_event", "trigger hcl_override", "condition time_in_range", "condition lamp_level",
        "condition var_compare", "reading lamp_cct", "event raw", "selector group", "target broadcast", "bound clock",
        "bound sunset", "comparison ne", "comparison ge", "value offset", "value text", "choice T hcl_override clears",
        "count T 2", "count C 3", "buffer least taken", "line case",
    ];
    assert_eq!(names, wanted);
    assert!(feature_count() <= MOST_FEATURES);
}

#[test]
fn sorts_of_durations_are_read_off_the_text() {
    let shown = |text: &str| {
        let case = Case::new(1, LEAST_WORDS, text, b"primary,0");
        let names = Features::of(&case, &second::answer(&case)).members().map(feature_name);
        names.filter_map(|name| name.strip_prefix("duration ").map(String::from)).collect::<Vec<_>>().join(", ")
    };
    let zeros = "0".repeat(20);
    assert_eq!(shown("when every 5s when at sunset + 1.5s"), "");
    assert_eq!(shown(&format!("when every 1.{zeros}s")), "20 places taken, long s, every long");
    assert_eq!(shown("when every 1845.0000000000000000s"), "long taken with fewer places, long s, every long");
    assert_eq!(shown(&format!("when every 0.{zeros}h")), "20 places taken, long h, every long 35");
    assert_eq!(shown(&format!("when at sunset\n- 2147483.{zeros}s")), "20 places taken, long s, solar long");
    assert_eq!(shown(&format!("when at sunset + 2147484.{zeros}s")), "20 places taken, long s, solar long 36");
    let older = "when http trigger if last_fired(\"\u{e9}\") older than";
    assert_eq!(shown(&format!("{older} 1193.{zeros}h")), "20 places taken, long near the most, long h, last_fired long");
    assert_eq!(shown(&format!("{older} 5.{}ms", "0".repeat(1_000))), "20 places taken, 1000 places taken, long ms, last_fired long");
    assert_eq!(shown(&format!("{older}\n1194.{zeros}h")), "20 places 17, long 17");
    assert_eq!(shown(&format!("{older} 1.{zeros}1m")), "20 places 18, long 18");
    assert_eq!(shown(&format!("{older} 1.{zeros}1000000001m")), "20 places 12");
    assert_eq!(shown(&format!("{older} 1.{zeros}x")), "20 places 16");
    assert_eq!(shown(&format!("{older} 1.{zeros}")), "20 places 15");
    assert_eq!((shown("1194h"), shown("0.5ms")), ("17 as before".to_string(), "18 as before".to_string()));
}

#[test]
fn repeats_and_what_stands_beside_them_are_counted() {
    let shown = |habit: Habit, arguments: &str| {
        let case = Case::new(1, LEAST_WORDS, format!("when input({arguments}"), b"primary,0\nadapter,0\n").with_habit(habit);
        let names = Features::of(&case, &second::answer(&case)).members().map(feature_name);
        names.filter_map(|name| name.strip_prefix("repeat ").map(String::from)).collect::<Vec<_>>().join(", ")
    };
    for (arguments, wanted) in [
        ("dev=1, dev=1, inst=2) is press", "63 dev, 63 same value, 63 in a trigger, 63 for accepted"),
        ("dev=1, inst=2, inst=99) is press", "63 inst, 63 in a trigger, 63 for 22"),
        ("dev=1,) is press", "63 unnamed dev, 63 at ), 63 in a trigger, 63 for 20"),
        ("1, inst=2, ", "63 unnamed inst, 63 at the end, 63 in a trigger, 63 for 20"),
        ("dev=1, dev==2", "63 unnamed dev, 63 at a word, 63 in a trigger, 63 for 20"),
        ("1, 2, dev=3, 4)", "63 dev, 63 in a trigger, 63 for 26"),
        ("1, dev=\"\", inst=2) is press if sun", "63 dev, 63 in a trigger, 63 for 23"),
        ("1, dev=3, inst=2) is press if sun", "63 dev, 63 in a trigger, 63 for 20"),
        ("1, dev=3, inst=2) is press then", "63 dev, 63 in a trigger, 63 for a later fault"),
        ("1, 2) is press if input(1, 2, type=1, type=1) is occupied", "63 type, 63 same value, 63 in a condition, 63 for accepted"),
        ("1, 2) is press if var(\"v\") > input(1, 2, 3", "26 kept"),
        ("1, 2) is press if var(\"v\") > input(1, \"a\", inst=3", ""),
        ("1, 2) is press if var(\"v\") > input(1, dev=\"a\", inst=3", "63 dev, 63 in a reading, 63 for 20"),
        ("1, 2, 3, inst=4, inst=5)", "26 first, 26 kept"),
        ("inst=99, inst=4)", "22 first"),
        ("1, 2) is press", ""),
        ("1, 2) is press when lamp(1, adapter=0, adapter=0) turns on", "20 for a second adapter clause"),
    ] {
        assert_eq!(shown(Habit::Rule, arguments), wanted, "{arguments}");
    }
    assert_eq!(shown(Habit::Archive, "dev=1, dev=1, inst=2) is press"), "replaced, accepted");
    assert_eq!(shown(Habit::Archive, "dev=1, dev=1"), "replaced, refused");
    assert_eq!(shown(Habit::Archive, "dev=1, inst=1"), "");
}

/// A default call that says more than 63 differently from the archive call is found, and so is a changed archive call.
#[test]
fn the_default_call_is_held_to_the_archive_call() {
    let unlike = |case: &Case| {
        let answer = second::answer(case);
        if case.habit() == Habit::Rule { answer.replace("refused 26", "refused 20") } else { answer }
    };
    let found = difference(&unlike, &second::answer, 2).expect("a difference");
    assert_eq!((found.other, found.case.habit()), (Other::Archive, Habit::Rule));
    assert!(found.case.text.len() < 100 && second::answer(&found.case).contains("refused 26"), "{}", found.case.text.escape_ascii());
    let strict = |case: &Case| second::answer(&case.with_habit(Habit::Rule));
    let readers = Readers { second: &strict, in_domain: &second::in_domain, supplied: &supplied::answer, replay: None };
    let plan = Plan { make: &generated, count: 30_000, batch: 1_000, threads: 1, progress: false };
    let Outcome::Different(found) = run(&plan, &readers).unwrap() else { panic!("no difference") };
    let small = smallest(&found, &readers);
    assert_eq!((small.other, small.case.habit()), (Other::Supplied, Habit::Archive));
    assert!(small.case.settings.is_none() && strict(&small.case).contains("refused 63"));
}

/// The names that a group of features has for a case.
fn shown(group: &str, case: &Case) -> String {
    let names = Features::of(case, &second::answer(case)).members().map(feature_name);
    names.filter_map(|name| name.strip_prefix(group).map(String::from)).collect::<Vec<_>>().join(", ")
}

#[test]
fn parties_and_what_another_would_have_changed_are_counted() {
    let rows = "party,1,7\nadapter,0\nadapter,1\nlamp,0,4,a\nlamp,1,4,a\nlamp,1,5,b\nlamp,1,6,c\nlamp,1,6,c\nlamp,2,7,a\n";
    let asked = |rows: &str, party: u8, primary: u8, text: &str| {
        shown("party ", &Case::new(1, LEAST_WORDS, format!("when {text}"), format!("primary,0\n{rows}")).with_party(party, primary))
    };
    for (party, primary, text, wanted) in [
        (0, 0, "lamp(\"b\") turns on", "31 for accepted, party 0 beside another"),
        (0, 0, "lamp(\"c\") turns on", "31 for 33, party 0 beside another"),
        (0, 0, "lamp(\"a\") turns on", "34 for another detail, party 0 beside another"),
        (7, 1, "lamp(\"a\") turns on", "accepted for 34, a party beside party 0"),
        (0, 0, "lamp(\"b\", adapter=0) turns on", "31 for 32, party 0 beside another"),
        (0, 0, "lamp(1, adapter=1) turns on", "25 for accepted, party 0 beside another"),
        (0, 0, "lamp(64, adapter=1) turns on", "25 for 22, party 0 beside another"),
        (0, 0, "lamp(\"c\", adapter=1) turns on", "25 for a name's refusal, party 0 beside another"),
        (0, 0, "lamp(1, adapter=1) turns up", "25 for a later fault, party 0 beside another"),
        (0, 3, "lamp(1, adapter=3) turns on", "25 of the primary, party 0 beside another, primary without a row"),
        (0, 0, "lamp(1, adapter=3) turns on", "party 0 beside another"),
        (0, 2, "scene(1) recalled when lamp(1) turns on", "party 0 beside another, primary scene, primary id"),
        (7, 1, "input(1, 2) is press when input(group=1) is press", "a party beside party 0, primary instance, primary group"),
        (7, 1, "hcl override starts for broadcast", "a party beside party 0, primary broadcast"),
        (0, 1, "http trigger", "53 by a row, 53 of party 0, 53 for accepted"),
        (7, 0, "@", "53 without a row, 53 of another party, 53 for a fault of lexing"),
        (7, 0, "foo", "53 without a row, 53 of another party, 53 for a fault of parsing"),
    ] {
        assert_eq!(asked(rows, party, primary, text), wanted, "{party} {primary} {text}");
    }
    for (rows, party, primary, wanted) in [
        ("party,1,7\nparty,1,7", 0, 0, "3 by a second row, same party"),
        ("party,1,7\nparty,1,8", 0, 0, "3 by a second row, other party"),
        ("party,1,7\nparty,1,0", 0, 0, "3 by a second row, party 0"),
        ("party,1,07", 0, 0, "3 by a party row's numbers"),
        ("party,1,7\nadapter,256", 0, 0, ""),
        ("lamp,1,4,a\nparty,1,7\nparty,2,0", 0, 0, "a row above its party row, a party row alone, a row of party 0, party 0 beside another"),
        ("party,1,255", 255, 1, "a party beside party 0, party 255"),
        ("adapter,1", 0, 0, ""),
    ] {
        assert_eq!(asked(rows, party, primary, "http trigger").replace(", primary without a row", ""), wanted, "{rows}");
    }
}

#[test]
fn party_rows_at_the_limits_are_counted() {
    let parties: String = (0..256).map(|adapter| format!("party,{adapter},7\n")).collect();
    let sheet = |rows: usize, last: &str| format!("primary,0\n{parties}{}{last}", "adapter,1\n".repeat(rows - 256));
    let call = |sheet: String| shown("party ", &Case::new(1, LEAST_WORDS, "when http trigger", sheet).with_party(7, 0));
    assert_eq!(call(sheet(512, "")), "512 rows, every adapter has a party row, a party row alone, a party beside party 0");
    assert_eq!(call(sheet(512, "party,1,7")), "3 by the 513th row, of a party");
    assert_eq!(call(sheet(511, "party,1,7")), "3 by a second row, same party");
    let line = |sheet: &str| shown("party ", &Case::new(1, LEAST_WORDS, "when http trigger", sheet));
    assert_eq!(line("primary,0\nparty,0,7"), "53 by a row, 53 of party 0, 53 on a case line, 53 for accepted");
    assert_eq!(line("primary,0\nparty,1,7\nadapter,1"), "a case with party rows, party 0 beside another");
    let first = |words: usize, text: &[u8]| shown("party ", &Case::new(1, words, text, b"primary,0").with_party(7, 0));
    assert_eq!([first(0, b""), first(LEAST_WORDS, b"\xff"), first(0, &[b' '; 16_385])], ["2 first", "4 first", "1 first"]);
}

/// What a reader says to which every adapter is the party's.
fn without_parties(case: &Case) -> String {
    let rows: Vec<&[u8]> = case.sheet.split(|&b| b == b'\n').filter(|row| !row.starts_with(b"party,")).collect();
    second::answer(&Case { sheet: rows.join(&b'\n'), ..case.with_party(0, case.primary()) })
}

/// Readers in which something of another's shows: its rows in a detail, its adapter as a listed one, the sheet's primary.
#[test]
fn what_shows_of_another_party_is_found() {
    let refused = |case: &Case, numbers: &[&str]| {
        let answer = second::answer(case);
        let leaks = numbers.iter().any(|number| answer.contains(&format!("\nrefused {number} ")));
        if leaks { without_parties(case) } else { answer }
    };
    let in_details = |case: &Case| refused(case, &["32", "33", "34"]);
    let as_listed = |case: &Case| refused(case, &["25"]);
    let in_primary = |case: &Case| {
        if second::answer(case).contains("refused 53") { return second::answer(case) }
        second::answer(&case.with_party(case.party(), own_primary(&case.sheet)))
    };
    let leaking: [Reader; 3] = [&in_details, &as_listed, &in_primary];
    for leaking in leaking {
        let readers = Readers { second: leaking, in_domain: &|_| false, supplied: &second::answer, replay: None };
        let plan = Plan { make: &generated, count: 30_000, batch: 1_000, threads: 1, progress: false };
        let Outcome::Different(found) = run(&plan, &readers).unwrap() else { panic!("no difference") };
        assert_eq!(found.other, Other::Beside);
        let small = smallest(&found, &readers);
        assert!(readers.differs(Other::Beside, &small.case) && small.case.text.len() + small.case.sheet.len() < 300, "{:?}", small.case);
    }
}

/// So many lent topics: `1`, `2` and so on.
fn numbered(count: usize) -> String {
    (1..=count).map(|topic| topic.to_string()).collect::<Vec<_>>().join("\n")
}

#[test]
fn topics_and_what_decides_are_counted() {
    let long = "a".repeat(49);
    let wide = "\u{e9}".repeat(24);
    for (lent, text, wanted) in [
        (0, "mqtt \"\"", "64 empty"),
        (0, "mqtt \"a+\"", "64 U+002B"),
        (8, "mqtt \"#\" is", "64 U+0023, 64 for 66, 64 before is"),
        (0, "mqtt \"\u{0}\"", "64 U+0000"),
        (0, "mqtt \"\t\"", "64 another control character"),
        (0, "mqtt \"\u{9f}\"", "64 U+009F"),
        (0, "mqtt \"\u{fdef}\"", "64 U+FDEF"),
        (0, "mqtt \"\u{fde0}\"", "64 between those"),
        (0, "mqtt \"\u{ffff}\"", "64 plane 0, 64 FFFF"),
        (0, "mqtt \"\u{10fffe}\"", "64 plane 16, 64 FFFE"),
        (0, "mqtt \"+#\"", ""),
        (0, &format!("mqtt \"+{long}\""), "64 U+002B, 64 for 65"),
        (8, &format!("mqtt \"{long}\""), "65 of 49 bytes, 65 for 66"),
        (0, &format!("mqtt \"{wide}x\" is"), "65 of 49 bytes, 65 of at most 48 characters, 65 before is"),
        (0, &format!("mqtt \"{long}b\""), "65 of more"),
        (0, &format!("mqtt \"{wide}\""), "48 bytes taken, 48 bytes of wide characters taken"),
        (0, "mqtt \" \u{10000}\u{1fffd}\"", "U+0020 taken, FFFD of another plane taken, 0000 of another plane taken"),
        (0, "mqtt", "20 at the end"),
        (0, "mqtt is", "20 at is"),
        (0, "mqtt (", "20 at another token"),
        (0, "mqtt \"a\" when lamp", ""),
        (0, "mqtt \"a\" is", "40 at the last is"),
        (8, "mqtt \"a\" is \"b\"", "40 before a payload, 40 for 66"),
        (8, "mqtt \"1\" is 5", "40 before another token"),
        (0, "at 7:05 on foo when mqtt \"a\"", ""),
        (8, "mqtt \"a\"", "66 at trigger 1, 66 for accepted, 66 with 8 lent, 66 of the archive call"),
        (9, "mqtt \"1\" when mqtt \"a\" foo", "66 at trigger 2, 66 for a later fault, 66 with 9 lent, 66 behind a lent one, 66 of the archive call"),
        (7, "mqtt \"a\" when mqtt \"a\" when mqtt \"b\"", "66 at trigger 3, 66 for accepted, 66 with 7 lent, 66 behind a repeat, 66 of the archive call"),
        (7, "mqtt \"a\" when mqtt \"a\"", "one byte taken, eight in all, eight in all, none lent twice, eight in all, one named twice"),
        (7, "mqtt \"a\" when mqtt \"7\"", "one byte taken, eight in all, eight in all, none lent twice, eight in all, one lent named"),
        (6, "mqtt \"a\"", "one byte taken"),
        (8, "mqtt \"8\"", "one byte taken, 8 lent, accepted"),
        (10, "mqtt \"8\"", "one byte taken, 10 lent, accepted"),
        (10, "http trigger", "10 lent, none named"),
    ] {
        let case = Case::new(1, LEAST_WORDS, format!("when {text}"), b"primary,0").with_topics(numbered(lent));
        assert_eq!(shown("topic ", &case), wanted, "{lent} {text}");
    }
}

#[test]
fn lent_lines_that_decide_are_counted() {
    let call = |lent: &[u8]| shown("topic ", &Case::new(1, LEAST_WORDS, "when mqtt \"a\"", b"primary,0").with_topics(lent).with_habit(Habit::Rule));
    let eighth = |line: &[u8]| {
        let shown = call(&[numbered(7).as_bytes(), b"\n", line].concat());
        shown.strip_prefix("66 at trigger 1, 66 for accepted, 66 with 8 lent, ").expect("66").strip_suffix("66 of the default call").expect("66").to_string()
    };
    assert_eq!(eighth(b"8"), "");
    assert_eq!(eighth(b"\r"), "66 by a line of CR, 66 by a CR behind a topic, ");
    assert_eq!(eighth(b"a\r"), "66 by a CR behind a topic, ");
    assert_eq!(eighth(b"+"), "66 by a forbidden one, ");
    assert_eq!(eighth(&[b'x'; 60]), "66 by one over 48 bytes, ");
    assert_eq!(eighth(b"\xff"), "66 by one that is not UTF-8, ");
    let seven = numbered(7);
    assert_eq!(call(format!("{seven}\n").as_bytes()), "one byte taken, eight in all, eight in all, none lent twice, eight in all, a last LF");
    assert_eq!(call(format!("\n{seven}").as_bytes()), "one byte taken, eight in all, eight in all, none lent twice, eight in all, an empty line");
    assert_eq!(call(format!("1\n{seven}").as_bytes()), "one byte taken, eight in all, eight in all, one lent twice");
    assert_eq!(call(b"\xff"), "one byte taken, not UTF-8 lent, accepted");
}

/// The lent topics as a reader would have them that makes something of the lines.
fn lent_as(case: &Case, make: fn(&[u8]) -> Option<Vec<u8>>) -> String {
    let lines: Vec<Vec<u8>> = case.topics().split(|&b| b == b'\n').filter_map(make).collect();
    second::answer(&case.with_topics(lines.join(&b'\n')))
}

/// Readers that judge or mend lent lines, or drop some, are found, and the case keeps the lines that matter.
#[test]
fn what_is_made_of_lent_lines_is_found() {
    let without_carriage = |case: &Case| lent_as(case, |line| Some(line.strip_suffix(b"\r").unwrap_or(line).to_vec()));
    let without_forbidden = |case: &Case| lent_as(case, |line| (!line.contains(&b'+')).then(|| line.to_vec()));
    let without_long = |case: &Case| lent_as(case, |line| (line.len() <= 48).then(|| line.to_vec()));
    let none = |case: &Case| lent_as(case, |_| None);
    let faulty: [Reader; 4] = [&without_carriage, &without_forbidden, &without_long, &none];
    for faulty in faulty {
        let readers = Readers { second: &second::answer, in_domain: &second::in_domain, supplied: faulty, replay: None };
        let plan = Plan { make: &generated, count: 30_000, batch: 1_000, threads: 1, progress: false };
        let Outcome::Different(found) = run(&plan, &readers).unwrap() else { panic!("no difference") };
        let small = smallest(&found, &readers);
        assert_eq!(small.other, Other::Supplied);
        let lines = small.case.topics().split(|&b| b == b'\n').filter(|line| !line.is_empty()).count();
        assert!((5..=9).contains(&lines) && small.case.text.len() < 60, "{:?}", small.case);
    }
}

/// The supplied Rust with a rule set that is empty, and with one whose topics are counted by lines.
#[test]
fn the_supplied_rust_needs_its_rule_set() {
    let empty = |case: &Case| supplied::answer(&case.with_topics([]));
    let one_more = |case: &Case| {
        let lent = case.topics();
        supplied::answer(&if lent.is_empty() { case.clone() } else { case.with_topics([lent, b"\n\x01"].concat()) })
    };
    let faulty: [Reader; 2] = [&empty, &one_more];
    for faulty in faulty {
        let readers = Readers { second: &second::answer, in_domain: &second::in_domain, supplied: faulty, replay: None };
        let plan = Plan { make: &generated, count: 30_000, batch: 1_000, threads: 1, progress: false };
        let Outcome::Different(found) = run(&plan, &readers).unwrap() else { panic!("no difference") };
        assert_eq!(found.other, Other::Supplied);
    }
}

#[test]
fn shrinking_drops_lent_topics() {
    let case = Case::new(1, LEAST_WORDS, b"when mqtt \"a\" foo", b"primary,0\n").with_topics(numbered(12));
    let small = shrink(&case, 10_000, &mut |case| second::answer(case).contains("refused 66"));
    assert_eq!(small.topics().split(|&b| b == b'\n').filter(|line| !line.is_empty()).count(), 8);
    assert_eq!(small.text, b"when mqtt\"a\"");
    let none = shrink(&case, 10_000, &mut |case| second::answer(case).contains("refused 20"));
    assert!(none.settings.is_none() || none.topics().is_empty(), "{none:?}");
}

#[test]
fn the_generators_topics_are_what_they_are_called() {
    let mut rng = generate::Rng::new(SEED, 1);
    for _ in 0..20_000 {
        let topic = generate::topics::any(&mut rng);
        let text = [b"when mqtt \"", &topic[..], b"\""].concat();
        let taken = second::answer(&Case::new(1, LEAST_WORDS, text, b"primary,0")).contains("\naccepted 1 0\n");
        assert_eq!(generate::topics::fits(&topic), taken, "{}", topic.escape_ascii());
    }
}

#[test]
fn days_and_what_is_refused_beside_them_are_counted() {
    let asked = |text: &str| shown("day ", &Case::new(1, LEAST_WORDS, format!("when {text}"), b"primary,0").with_habit(Habit::Rule));
    for (text, wanted) in [
        ("at 7:05 on mon", "mon, 1 day, behind a time, in trigger 1, before the end, of the default call"),
        ("at sunset on fri..mon when http trigger", "fri..mon, 4 days, behind a sun, in trigger 1, before when, of the default call"),
        ("at 7:05 when at sunrise + 5m on sun..sat", "sun..sat, seven behind an offset, seven as a range, behind an offset, in trigger 2, before the end, of the default call"),
        ("http trigger if day in sun and sun is up", "sun, 1 day, as a condition, in condition 1, before and, before sun is, of the default call"),
        ("http trigger if sun is up and day in tue, tue", "1 day, a day twice, as a condition, in condition 2, before the end, of the default call"),
        ("at 7:05 on mon..wed, tue, mon..wed if sun is up", "3 days, a range twice, a day of a range, a day behind a range, a range behind a day, behind a time, in trigger 1, before if, of the default call"),
        ("at 7:05 on mon..thu, wed..sun", "seven behind a time, seven as ranges, ranges that share days, a range behind a range, behind a time, in trigger 1, before the end, of the default call"),
        ("at 7:05 on sat..thu, fri", "seven behind a time, seven as both, a day behind a range, behind a time, in trigger 1, before the end, of the default call"),
        ("at 7:05 on mon,tue,wed,thu,fri,sat,sun", "seven behind a time, seven as single days, behind a time, in trigger 1, before the end, 13 tokens, of the default call"),
        ("at 7:05 on foo", "50 first, 50 behind a time, 50 at another word, 50 for accepted, 50 in trigger 1, 50 at the last token, 50 of the default call"),
        ("http trigger if day in mon..Tue 5", "50 behind .., 50 as a condition, 50 at capitals, 50 for 41, 50 in condition 1, 50 of the default call"),
        ("at sunset on mon..tue,\nmonday, 5", "50 behind a comma, 50 behind a range and a comma, 50 behind a sun, 50 at a longer word, 50 for 20, 50 in trigger 1, 50 past line 1, 50 of the default call"),
        ("at sunset - 5m on mo, when", "50 first, 50 behind an offset, 50 at a shorter word, 50 for 50, 50 in trigger 1, 50 of the default call"),
        ("at 7:05 on sunset when every 5ms", "50 first, 50 behind a time, 50 at sunrise or sunset, 50 for another, 50 in trigger 1, 50 of the default call"),
        ("at 7:05 on mon, when http trigger", "50 behind a comma, 50 behind a time, 50 at when, 50 for 41, 50 in trigger 1, 50 of the default call"),
        ("at 7:05 on", "20 first, 20 behind a time, 20 at the end first"),
        ("at sunset on mon,", "20 behind a comma, 20 behind a sun, 20 at the end behind a comma"),
        ("http trigger if day in mon..", "20 behind .., 20 as a condition, 20 at the end behind .."),
        ("at 7:05 on \"mon\"", "20 first, 20 behind a time, 20 at a string"),
        ("at 7:05 on 5", "20 first, 20 behind a time, 20 at an integer"),
        ("at 7:05 on mon, 7:05", "20 behind a comma, 20 behind a time, 20 at a time"),
        ("at 7:05 on mon..5s", "20 behind .., 20 behind a time, 20 at a duration"),
        ("at 7:05 on 1.5", "20 first, 20 behind a time, 20 at a decimal"),
        ("at 7:05 on mon,,tue", "20 behind a comma, 20 behind a time, 20 at a comma"),
        ("at 7:05 on mon...fri", "20 behind .., 20 behind a time, 20 at a point behind .."),
        ("at 7:05 on (mon)", "20 first, 20 behind a time, 20 at another sign"),
        ("http trigger if day mon", "20 for in at a day"),
        ("http trigger if day foo", "20 for in at another word"),
        ("http trigger if day 5", "20 for in at another token"),
        ("http trigger if sun is up and day", "20 for in at the end"),
        ("http trigger if sun day", ""),
        ("at 7:05 on mon..tue..wed", "41 at .. behind a range"),
        ("at 7:05 on mon on tue", "41 at on behind a set"),
        ("at 7:05 on mon tue", "41 at a day behind a set"),
        ("at 7:05 on mon foo", "41 at another word behind a set"),
        ("at 7:05 on mon.", "41 at a point behind a set"),
        ("at 7:05 on mon 5", "41 at another token behind a set"),
        ("every 5s on mon", "41 at on behind another trigger"),
        ("http trigger if sun is up on mon", "41 at on behind a condition"),
        ("day", "21 at day"),
        ("http trigger if mon", "21 at a day"),
        ("at sunset + 2147483.648s on foo", "36 first"),
        ("at 7:05 on foo @", "lexing first"),
        ("at 7:05 on mon @", ""),
        (&format!("at 7:05 on foo{}", "(".repeat(1_024)), "19 first"),
        (&format!("http trigger {}when at 7:05 on foo", "when http trigger ".repeat(3)), "37 first"),
        ("every 5ms when at 7:05 on foo", "another first"),
        ("at 7:05", ""),
    ] {
        assert_eq!(asked(text), wanted, "{text}");
    }
    let most = format!("http trigger when at 7:05 on {}", ["tue"; 509].join(","));
    assert!(asked(&most).contains("13 tokens, 100 tokens, the most tokens"));
    let five = "http trigger if day in mon and day in mon and day in mon and day in mon and day in foo";
    assert_eq!(asked(five), "39 first");
    let shop = |text: &str| shown("day ", &Case::new(1, LEAST_WORDS, text, b"primary,0").with_habit(Habit::Shop));
    assert_eq!(shop("when at 7:05 on mon if lamp(3) is on"), "beside a refusal of the profile");
    assert!(shop("when at 7:05 on mon").ends_with("of the shop call"));
}

/// Readers with a fault in days are found, and the case becomes small.
#[test]
fn faults_in_days_are_found() {
    let with = |case: &Case, from: &str, to: &str| {
        let text = String::from_utf8_lossy(&case.text).replace(from, to);
        second::answer(&Case { text: text.into_bytes(), ..case.clone() })
    };
    let capitals = move |case: &Case| with(case, "Mon", "mon");
    let sunday = |case: &Case| second::answer(case).replace(" on 1567\n", " on 567\n");
    let seven = |case: &Case| second::answer(case).replace("day_in 1234567", "day_in 123456");
    let at_once = |case: &Case| second::answer(case).replace("refused 50 ", "refused 20 ");
    let faulty: [Reader; 4] = [&capitals, &sunday, &seven, &at_once];
    for faulty in faulty {
        let found = difference(&second::answer, faulty, 1).expect("a difference");
        assert!(found.case.text.len() < 200 && found.case.sheet.len() < 60, "{:?}", found.case);
    }
}

/// Of the calls that a domain without days would have, the supplied Rust leaves out just those that the second reader leaves out.
#[test]
fn both_leave_out_the_same_texts_for_days() {
    let mut left_out = 0;
    for case in (0..30_000).map(generated).map(|case| case.with_habit(Habit::Archive).with_topics("")) {
        let number = refusal(&second::answer(&case)).map_or(0, |(number, _)| number.parse().expect("a number"));
        let text = std::str::from_utf8(&case.text).unwrap_or_default();
        if matches!(number, 1..=4 | 19 | 40 | 53) || second::formerly_17(text) {
            continue;
        }
        let supplied = supplied::answer(&case).ends_with("\noutside the domain\n");
        assert_eq!(supplied, !second::in_domain(&case), "{}", case.text.escape_ascii());
        left_out += usize::from(supplied);
    }
    assert!(left_out > 2_000, "{left_out}");
}

#[test]
fn the_profile_and_what_comes_before_it_are_counted() {
    let sheet = "primary,0\nadapter,0\nlamp,0,1,a\nlamp,0,2,b\nlamp,0,3,b\ninput,0,4,a\n";
    let asked = |text: &str, lent: usize| {
        shown("profile ", &Case::new(1, LEAST_WORDS, format!("when {text}"), sheet).with_habit(Habit::Shop).with_topics(numbered(lent)))
    };
    for (text, wanted) in [
        ("lamp(3) turns on", "57 lamp in a trigger, at trigger 1"),
        ("http trigger when group(3, adapter=0) becomes any_on", "57 group in a trigger, 57 with an adapter, at trigger 2"),
        ("input device(dev=3) power cycled", "57 input device in a trigger, 57 behind dev =, at trigger 1"),
        ("input(inst=1, 5) is press", "57 input in a trigger, 57 behind another argument, at trigger 1"),
        ("lamp(\"a\") turns on\nif hcl is enabled for group(3)", "57 group in a target, at condition 1, past line 1, behind a name"),
        ("http trigger if lamp(3).level > event.value", "57 lamp in a condition, 57 then 59, at condition 1"),
        ("http trigger if sun is up and var(\"v\") == input(5, 1).light", "57 input in a reading, at condition 2"),
        ("hcl override starts for broadcast if device(3) is online", "58 in a trigger, 58 then 57, at trigger 1"),
        ("http trigger if hcl is enabled for broadcast", "58 in a condition, at condition 1"),
        ("http trigger if lamp(\"a\").level > event.value + 5", "59 value, 59 for a lamp, 59 with a number, at condition 1, behind a name"),
        ("http trigger if var(\"v\") == event.option and var(\"v\") == event.value", "59 option, 59 for a var, 59 then 59, at condition 1"),
        ("lamp(\"a\", adapter=0).level crosses above 5", "takes lamp, takes an adapter, takes a bound"),
        ("input(\"a\", 5, type=1) is event(data=5)", "takes input, takes a type, takes data"),
        ("input(group=5) is press when scene(5) recalled", "takes a scene, takes an instance group, takes a text without names"),
        ("hcl override starts for lamp(\"a\")", "takes lamp, takes a name in a target"),
        ("http trigger if var(\"v\") == input(\"a\", 1).light and var(\"v\") > 5", "takes input, takes a value, takes a name in a reading"),
        ("lamp(3) turns on foo", "41 first"),
        ("lamp(3) turns on when at 7:05 on foo", "50 first"),
        ("lamp(3) turns on when lamp(\"b\") turns on", "33 first"),
        ("lamp(3) turns on @", "lexing first"),
        ("lamp(64) turns on", "22 of an id"),
        ("input(3, dev=\"a\", inst=1) is press", "63 first"),
        ("lamp(\"b\") turns on when lamp(3) turns on", ""),
        ("foo lamp(3)", ""),
    ] {
        assert_eq!(asked(text, 0), wanted, "{text}");
    }
    assert_eq!(asked("lamp(3) turns on when mqtt \"a\"", 8), "66 first");
    let case = Case::new(1, LEAST_WORDS, "when lamp(3) turns on", sheet).with_habit(Habit::Shop);
    assert_eq!(shown("profile ", &Case { words: 0, ..case.clone() }), "2 first");
    assert_eq!(shown("profile ", &case.with_party(7, 0)), "53 first");
    assert_eq!((shown("profile ", &case.with_habit(Habit::Rule)), shown("line ", &case)), (String::new(), "shop".to_string()));
}

/// What the tokens of an accepted text show is what the second reader's shop call refuses.
#[test]
fn tokens_show_what_the_profile_leaves_out() {
    let (mut taken, mut refused) = (0, 0);
    for case in (0..30_000).map(generated) {
        let [default, shop] = [Habit::Rule, Habit::Shop].map(|habit| second::answer(&case.with_habit(habit)));
        let (Ok(text), true) = (std::str::from_utf8(&case.text), default.contains("\naccepted ")) else { continue };
        let tokens: Vec<Token> = tokens(text, &default).collect();
        match profile::left_out(&tokens).first() {
            None => assert_eq!(shop, default, "{}", case.id),
            Some((number, at)) => assert!(shop.ends_with(&format!("refused {number} {} 0\n", tokens[*at].place)), "{}", case.id),
        }
        taken += usize::from(shop == default);
        refused += usize::from(shop != default);
    }
    assert!(taken > 1_000 && refused > 1_000, "{taken} {refused}");
}

/// Shop calls that differ from the default call in more than the profile are found: in the lists, in a refusal that the profile is
/// to come behind, and in the records.
#[test]
fn the_shop_call_is_held_to_the_default_call() {
    let of_shop = |case: &Case, change: fn(&Case, String) -> String| {
        let answer = second::answer(case);
        if case.habit() == Habit::Shop { change(case, answer) } else { answer }
    };
    let other_lists = |case: &Case| of_shop(case, |_, answer| answer.replace("press", "release"));
    let profile_first = |case: &Case| of_shop(case, |case, answer| {
        if contains(&case.text, b"broadcast") { answer.replace("refused 41 ", "refused 58 ") } else { answer }
    });
    let no_records = |case: &Case| of_shop(case, |_, answer| {
        let lines = answer.split_inclusive('\n');
        if answer.contains("refused 57") { lines.filter(|line| !line.starts_with("token")).collect() } else { answer }
    });
    let by_the_archive = |case: &Case| of_shop(case, |case, answer| {
        if answer.contains("refused 63") { second::answer(&case.with_habit(Habit::Archive)) } else { answer }
    });
    let faulty: [Reader; 4] = [&other_lists, &profile_first, &no_records, &by_the_archive];
    for faulty in faulty {
        let found = difference(faulty, &second::answer, 1).expect("a difference");
        assert_eq!((found.other, found.case.habit()), (Other::Default, Habit::Shop));
        assert!(found.case.text.len() < 100, "{}", found.case.text.escape_ascii());
    }
}

#[test]
fn line_ends_and_names_with_commas_are_counted() {
    let asked = |text: &str, sheet: &str| shown("sheet ", &Case::new(1, LEAST_WORDS, text, sheet).with_party(0, 0));
    let bad = |sheet: &str| asked("when http trigger", sheet);
    for (sheet, wanted) in [
        ("primary,0\r\nadapter,1\r\n", "CR LF throughout, CR LF at the end, CR on the first line, CR on an adapter row"),
        ("primary,0\nparty,1,7\nlamp,0,1,a\r", "CR LF and LF, CR at the end, CR on a named row"),
        ("primary,0\nparty,1,7\r\nlamp,0,1,,", "CR LF and LF, CR on a party row, a comma first, a comma last, a comma alone"),
        ("primary,0\nlamp,0,1,a,b,c", "several commas"),
        ("primary,0\nlamp,0,1,a\n", ""),
        ("primary,0\r\r\n", "3 by two CR on the first line"),
        ("primary,0\nadapter,1\r\r\nadapter,256\n", "3 by two CR on an adapter row"),
        ("primary,0\nlamp,0,1,a\r\r", "3 by two CR on a named row, 3 by two CR at the end"),
        ("primary,0\nlamp,0,64,a\r\r", ""),
        ("primary,0\n\r", "3 by a CR behind the last LF"),
        ("primary,0\n\r\n", "3 by a line of CR"),
        ("primary,0\nlamp,0,1,a\rb\r\n", "3 by a CR in a name"),
        ("primary,\r0\n", "3 by a CR in another field"),
        ("primary,0\nlamp,0,1,\r\n", "3 by no name before CR"),
        ("primary,0\nlamp,0,1,a,\"\n", "3 by a quote behind a comma"),
        ("primary,0\nlamp,0,1,\"a,b\n", ""),
        ("primary,0\nparty,1,2,\n", "3 by a comma on a party row"),
        ("primary,0\nparty,1,2\nparty,1,3\r\n", "3 by a second party row with CR"),
        ("primary,0\nlamp,0,64,a,b\n", ""),
    ] {
        assert_eq!(bad(sheet), wanted, "{sheet:?}");
    }
    let sheet = "primary,0\nadapter,0\nlamp,0,1,a, b\r\nlamp,0,2,c\nlamp,0,3,d, e\nlamp,0,4,d, e\n";
    for (name, wanted) in [
        ("a, b", "a name with a comma found, a name on a line with CR found"), ("c", ""), ("a", "31 for the part before a comma"),
        (" b", "31 for the part behind a comma"), ("b", "31 for that part without its blank"), ("c\r", "31 for a name with CR behind it"),
        ("c,", "31 for a name with a comma behind it"), ("d, e", "33 with a comma"),
    ] {
        let ends = "CR LF and LF, CR on a named row";
        let all = [ends, wanted].join(if wanted.is_empty() { "" } else { ", " });
        assert_eq!(asked(&format!("when lamp(\"{name}\") turns on"), sheet), all, "{name}");
    }
    let long = format!("primary,0\r\n{}", "adapter,7\r\n".repeat(513));
    assert_eq!(bad(&long), "3 by the 513th row, with CR");
    assert_eq!(shown("sheet ", &Case::new(1, LEAST_WORDS, "when http trigger", "primary,9\r")), "CR at the end, CR on the first line, the primary of a line with CR");
    assert_eq!(shown("sheet ", &Case::new(1, LEAST_WORDS, "when @", "primary,0\nparty,0,7\r\n")), "53 by a party row with CR");
}

/// What a line ends with decides nothing: the same lines with LF alone get the same answer, from both Rust readers.
#[test]
fn line_ends_change_nothing() {
    let mut changed = 0;
    for case in (0..20_000).map(generated).filter(|case| case.sheet.contains(&b'\r')) {
        let answer = second::answer(&case);
        if !past_question_3(&answer) {
            continue;
        }
        let plain = Case { sheet: cases::lines(&case.sheet).join(&b'\n'), ..case.clone() };
        assert_eq!(second::answer(&plain), answer, "{}", case.id);
        assert_eq!(supplied::answer(&plain), supplied::answer(&case), "{}", case.id);
        changed += 1;
    }
    assert!(changed > 5_000, "{changed}");
}

/// Resolvers that cut names at a comma, from either side, or drop a comma at the end, are found.
#[test]
fn names_cut_at_commas_are_found() {
    let renamed = |case: &Case, name: fn(&[u8]) -> &[u8]| {
        let rows: Vec<Vec<u8>> = cases::lines(&case.sheet).into_iter().map(|line| match cases::fields(line)[..] {
            [kind, adapter, number, long] if !name(long).is_empty() => [kind, adapter, number, name(long)].join(&b','),
            _ => line.to_vec(),
        }).collect();
        supplied::answer(&Case { sheet: rows.join(&b'\n'), ..case.clone() })
    };
    let before = |case: &Case| renamed(case, |name| name.split(|&b| b == b',').next().unwrap_or(name));
    let behind = |case: &Case| renamed(case, |name| name.rsplit(|&b| b == b',').next().unwrap_or(name));
    let without_last = |case: &Case| renamed(case, |name| name.strip_suffix(b",").unwrap_or(name));
    let faulty: [Reader; 3] = [&before, &behind, &without_last];
    for faulty in faulty {
        let readers = Readers { second: &second::answer, in_domain: &second::in_domain, supplied: faulty, replay: None };
        let plan = Plan { make: &generated, count: 30_000, batch: 1_000, threads: 1, progress: false };
        let Outcome::Different(found) = run(&plan, &readers).unwrap() else { panic!("no difference") };
        let small = smallest(&found, &readers);
        assert!(small.other == Other::Supplied && small.case.text.len() + small.case.sheet.len() < 150, "{:?}", small.case);
    }
}

/// Isolation of the second reader over generated pairs of sheets, in which names and adapters of others abound.
#[test]
fn a_party_sees_nothing_of_another() {
    let mut sorts = std::collections::BTreeSet::new();
    for case in (0..30_000).map(generated).filter(|case| contains(&case.sheet, b"\nparty,")) {
        let answer = second::answer(&case);
        if !past_question_3(&answer) {
            continue;
        }
        let beside = generate::beside(&case);
        assert_eq!(second::answer(&beside), answer, "{}", case.id);
        let names = Features::of(&beside, &answer).members().map(feature_name);
        sorts.extend(names.filter_map(|name| name.strip_prefix("party ").map(String::from)));
    }
    for sort in ["25 for accepted", "31 for accepted", "31 for 34", "33 for 34", "34 for another detail", "accepted for 34", "53 by a row"] {
        assert!(sorts.contains(sort), "{sort}");
    }
}

#[test]
fn sizes_of_buffers_and_far_places_are_counted() {
    let shown = |words: usize, text: String| {
        let case = Case::new(1, words, text, b"primary,0");
        let names = Features::of(&case, &second::answer(&case)).members().map(feature_name);
        names.filter_map(|name| name.strip_prefix("buffer ").map(String::from)).collect::<Vec<_>>().join(", ")
    };
    let small = |words| shown(words, "when".to_string());
    assert_eq!((small(0), small(LEAST_WORDS - 1)), (String::new(), "least - 1 refused".to_string()));
    assert_eq!((small(LEAST_WORDS), small(LEAST_WORDS + 1)), ("least taken".to_string(), "least + 1 taken".to_string()));
    assert_eq!((small(FORMER_LEAST_WORDS - 1), small(MOST_WORDS)), ("former least - 1 taken".to_string(), "most taken".to_string()));
    assert_eq!(shown(LEAST_WORDS, "(\n".repeat(1_024)), "least taken, least full, token line 256");
    assert_eq!(shown(LEAST_WORDS + 2, "(".repeat(1_024)), "larger full, token column 256");
    let far = |lines: usize, spaces: usize, last: &str| shown(FORMER_LEAST_WORDS, "\n".repeat(lines) + &" ".repeat(spaces) + last);
    assert_eq!(far(255, 255, "("), "former least taken, token line 256, token column 256, token both 256");
    assert_eq!(far(0, 254, "("), "former least taken");
    assert_eq!(far(16_383, 0, "("), "former least taken, token line 256, last line of a token");
    assert_eq!(far(0, 16_383, "("), "former least taken, token column 256, last column of a token");
    assert_eq!((far(16_384, 0, ""), far(0, 16_384, "")), (
        "former least taken, last line of the end".to_string(), "former least taken, last column of the end".to_string()));
}

#[test]
fn the_generators_durations_are_what_they_are_called() {
    use generate::vocabulary::{DURATIONS, WRONG_DURATIONS};
    let taken = |text: &[u8]| matches!(&second::lexing(text, LEAST_WORDS).0, lexing if lexing.number == 0 && lexing.records.len() == 1);
    assert!(DURATIONS.iter().all(|text| taken(text.as_bytes())));
    assert!(!WRONG_DURATIONS.iter().any(|text| taken(text.as_bytes())));
    let mut rng = generate::Rng::new(SEED, 0);
    for _ in 0..20_000 {
        let text = generate::durations::fitting(&mut rng);
        assert!(taken(&text), "{}", text.escape_ascii());
    }
}

#[test]
fn coverage_counts_cases_and_names_zeros() {
    let mut coverage = Coverage::default();
    let case = Case::new(1, LEAST_WORDS, [], []);
    coverage.add(&case, "case 1\nbuffer kept\nrefused 41 1 1 0\n", true);
    coverage.add(&case, "case 2\nbuffer kept\naccepted 1 0\nT every 1000\n", false);
    let mut both = coverage.clone();
    both.merge(&coverage);
    assert_eq!((both.cases, both.in_domain, both.accepted, both.refused), (4, 2, 2, 2));
    let zeros = both.zeros();
    assert!(zeros.contains(&"refused 40".to_string()) && !zeros.contains(&"refused 41".to_string()));
    both.add_reflowed(&["CR LF".to_string(), "refused 20".to_string()]);
    both.merge(&both.clone());
    assert!(both.reflowed == 2 && zeros.contains(&"layout CR LF".to_string()) && !both.zeros().contains(&"layout CR LF".to_string()));
    assert_eq!(zeros.len(), feature_count() - 6 + layout::SORTS.len() + 2);
    assert_eq!(both.zeros().len(), zeros.len() - 3);
}

#[test]
fn output_is_cut_into_answers() {
    assert_eq!(split_answers("case 1\na\ncase 2\nb\n", 3), ["case 1\na\n", "case 2\nb\n", ""]);
    assert_eq!(split_answers("bad input\n", 2), ["bad input\n", ""]);
    assert_eq!(split_answers("case 1\ncase 2\ncase 3\n", 2), ["case 1\n", "case 2\ncase 3\n"]);
    assert_eq!(split_answers("", 1), [""]);
}

#[test]
fn options_are_read() {
    let words = |line: &str| options::parse(line.split(' ').map(String::from).collect::<Vec<_>>());
    let options = words("--cases 5 --threads 9 --vectors 3 a b --allow-zero").unwrap();
    assert_eq!((options.cases, options.threads, options.allow_zero), (5, 2, true));
    assert_eq!(options.vectors, Some(options::Vectors { want: 3, input: "a".into(), output: "b".into() }));
    let stored = options::Stored { input: "a".into(), output: "b".into() };
    assert_eq!(words("--extend a b").unwrap().extend, Some(stored));
    assert!(words("--cases x").is_err() && words("--vectors 3 a").is_err() && words("--what").is_err());
}

#[test]
fn vectors_take_the_smallest_first() {
    let answer = |case: &Case| format!("case {}\nrefused {} 1 1 0\n", case.id, 20 + case.text.len() % 3);
    let make = |index: u64| Case::new(index, LEAST_WORDS, vec![b'a'; 60 - index as usize], []);
    let chosen = vectors::choose(4, 60, &make, vec![make(5)], &answer);
    assert_eq!(chosen.iter().map(|case| case.id).collect::<Vec<_>>(), [1, 2, 3, 4]);
    let mut lengths: Vec<usize> = chosen.iter().map(|case| case.text.len()).collect();
    lengths.sort();
    assert_eq!(lengths, [1, 2, 3, 55]);
}

#[test]
fn stored_cases_are_extended_once() {
    let make = |id: u64, text: &str| Case::new(id, LEAST_WORDS, text, []);
    let stored = vec![make(1, "a"), make(2, "b")];
    let more = || vec![make(0, "b"), make(0, "c"), make(0, "d")];
    let extended = vectors::extended(stored, more());
    assert_eq!(extended, [make(1, "a"), make(2, "b"), make(3, "c"), make(4, "d")]);
    assert_eq!(vectors::extended(extended.clone(), more()), extended);
    let call = make(0, "a").with_habit(Habit::Archive).with_habit(Habit::Rule);
    assert_eq!(vectors::extended(extended, vec![call.clone()])[4], Case { id: 5, ..call });
}
