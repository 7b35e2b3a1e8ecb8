//! Document 02 §11: "It refuses an argument that sets one already set, named or not, with 63 at its first token, whichever
//! stands there or at the end, before its value is read but after 26."

mod common;
use cases::{Case, Habit};
use common::*;

fn call(text: &str, habit: Habit) -> Case {
    case(text.as_bytes(), ALL.as_bytes()).with_habit(habit)
}

fn says(text: &str, habit: Habit) -> String {
    verdict_of(&call(text, habit))
}

/// Texts that begin with `when `, with what the default call and the archive call refuse them for.
fn refused_by_both(table: &[(&str, &str, &str)]) {
    for (text, default, archive) in table {
        let text = format!("when {text}");
        assert_eq!(says(&text, Habit::Rule), format!("refused {default}"), "{text}");
        assert_eq!(says(&text, Habit::Shop), format!("refused {default}"), "{text}");
        assert_eq!(says(&text, Habit::Archive), format!("refused {archive}"), "{text}");
    }
}

/// The same for texts that the archive call accepts.
fn replaced(table: &[(&str, &str, &str)]) {
    for (text, default, record) in table {
        let text = format!("when {text}");
        assert_eq!(says(&text, Habit::Rule), format!("refused {default}"), "{text}");
        assert_eq!(says(&text, Habit::Archive), format!("accepted 1 0\nT {record}"), "{text}");
    }
}

#[test]
fn pair_11_is_the_archive_calls() {
    replaced(&[("input(dev=3, dev=5, inst=0) is press", "63 1 19 0", "input_event instance 2 5 0 press")]);
}

/// "All five can repeat", also with the value that is there already.
#[test]
fn each_argument_repeats() {
    replaced(&[
        ("input(dev=1, dev=1, inst=2) is press", "63 1 19 0", "input_event instance 2 1 2 press"),
        ("input(dev=1, inst=2, inst=3) is press", "63 1 27 0", "input_event instance 2 1 3 press"),
        ("input(group=1, group=2) is press", "63 1 21 0", "input_event group 2 2 - press"),
        ("input(group=1, type=2, type=light) is press", "63 1 29 0", "input_event group 2 1 4 press"),
        ("input(group=1, adapter=3, adapter=2) is press", "63 1 32 0", "input_event group 2 1 - press"),
        ("input(1, dev=3, inst=2) is press", "63 1 15 0", "input_event instance 2 3 2 press"),
        ("input(dev=1, 3, inst=2) is press", "63 1 19 0", "input_event instance 2 3 2 press"),
        ("input(dev=1, \"Input\", inst=2) is press", "63 1 19 0", "input_event instance 3 9 2 press"),
        ("input(1, 2, inst=3) is press", "63 1 18 0", "input_event instance 2 1 3 press"),
        ("input(1, inst=3, 2) is press", "63 1 23 0", "input_event instance 2 1 2 press"),
        ("input(inst=3, 1, 2) is press", "63 1 23 0", "input_event instance 2 1 2 press"),
    ]);
}

#[test]
fn what_is_no_key_is_an_unnamed_argument() {
    refused_by_both(&[
        ("input(dev=1,)", "63 1 18 0", "20 1 18 0"),
        ("input(dev=1,", "63 1 18 0", "20 1 18 0"),
        ("input(1, inst=2,)", "63 1 22 0", "20 1 22 0"),
        ("input(dev=1, # \u{e9}", "63 1 22 0", "20 1 22 0"),
        ("input(dev=1,\n\n ", "63 3 2 0", "20 3 2 0"),
        ("input(1,)", "20 1 14 0", "20 1 14 0"),
        ("input(inst=1,)", "20 1 19 0", "20 1 19 0"),
        ("input(group=1,)", "20 1 20 0", "20 1 20 0"),
        ("input(1,2,)", "26 1 16 0", "26 1 16 0"),
        ("input(dev=1,,inst=2)", "63 1 18 0", "20 1 18 0"),
        ("input(dev=1, inst)", "63 1 19 0", "20 1 19 0"),
        ("input(dev=1, dev 2)", "63 1 19 0", "20 1 19 0"),
        ("input(dev=1, dev==2)", "63 1 19 0", "20 1 19 0"),
        ("input(dev=1, foo)", "63 1 19 0", "20 1 19 0"),
        ("input(dev=1, foo=2)", "21 1 19 0", "21 1 19 0"),
        ("input(foo=1, foo=2)", "21 1 12 0", "21 1 12 0"),
        ("input(inst=2, 1, 7:05)", "63 1 23 0", "20 1 23 0"),
    ]);
}

#[test]
fn before_the_second_value_and_after_the_first() {
    refused_by_both(&[
        ("input(dev=1, dev=\"\")", "63 1 19 0", "23 1 23 0"),
        ("input(dev=1, \"\")", "63 1 19 0", "23 1 19 0"),
        ("input(adapter=2, adapter=77)", "63 1 23 0", "25 1 31 0"),
        ("input(dev=1, dev=", "63 1 19 0", "20 1 23 0"),
        ("input(inst=1, inst=99)", "63 1 20 0", "22 1 25 0"),
        ("input(type=1, type=foo)", "63 1 20 0", "21 1 25 0"),
        ("input(inst=99, inst=1)", "22 1 17 0", "22 1 17 0"),
        ("input(adapter=77, adapter=2)", "25 1 20 0", "25 1 20 0"),
        ("input(dev=\"\", dev=1)", "23 1 16 0", "23 1 16 0"),
        ("input(type=foo, type=1)", "21 1 17 0", "21 1 17 0"),
    ]);
}

/// A dev's range and rows are judged behind `)`, so that a repeat comes before them and before 27 to 30.
#[test]
fn before_27_to_34() {
    refused_by_both(&[
        ("input(group=1, dev=1, dev=2) is press", "63 1 28 0", "27 1 18 0"),
        ("input(inst=1, inst=2) is press", "63 1 20 0", "28 1 26 0"),
        ("input(dev=1, dev=2) is press", "63 1 19 0", "29 1 24 0"),
        ("input(group=1, group=2) becomes occupied", "63 1 21 0", "30 1 11 0"),
        ("input(dev=\"a\", inst=1, inst=2) is press", "63 1 29 0", "31 1 16 0"),
        ("input(dev=\"Input\", inst=1, adapter=2, adapter=2) is press", "63 1 44 0", "32 1 16 3"),
        ("input(dev=\"Both\", inst=1, inst=1) is press", "63 1 32 0", "34 1 16 2"),
        ("input(64, 1, inst=1) is press", "63 1 19 0", "22 1 12 0"),
    ]);
    replaced(&[("input(dev=64, dev=63, inst=1) is press", "63 1 20 0", "input_event instance 2 63 1 press")]);
}

#[test]
fn after_26() {
    refused_by_both(&[
        ("input(1,2,3)", "26 1 16 0", "26 1 16 0"),
        ("input(1,2,3,dev=4)", "26 1 16 0", "26 1 16 0"),
        ("input(1,2,dev=3,4)", "63 1 16 0", "26 1 22 0"),
        ("input(1,2,dev", "26 1 16 0", "26 1 16 0"),
    ]);
    replaced(&[("input(dev=1, inst=2, 3) is press", "63 1 27 0", "input_event instance 2 3 2 press")]);
}

#[test]
fn only_in_args() {
    refused_by_both(&[
        ("lamp(1, adapter=2, adapter=2) turns on", "20 1 23 0", "20 1 23 0"),
        ("input device(5, adapter=2, adapter=2) power cycled", "20 1 31 0", "20 1 31 0"),
        ("scene(5, adapter=2, adapter=2) recalled", "20 1 24 0", "20 1 24 0"),
    ]);
}

/// Each `input( )` begins anew, and conditions and readings are held to the rule as triggers are.
#[test]
fn wherever_args_stand() {
    let twice = "when input(1, 2) is press when input(dev=1, inst=2) is press if input(1, 2) is occupied \
                 and var(\"v\") == input(1, 2).light + 5";
    assert!(says(twice, Habit::Rule).starts_with("accepted 2 2\n"));
    for (condition, column) in [("input(1, 2, dev=3) is occupied", 34), ("var(\"v\") == input(1, 2, inst=3).light", 46)] {
        let text = format!("when http trigger if {condition}");
        assert_eq!(says(&text, Habit::Rule), format!("refused 63 1 {column} 0"), "{text}");
        assert!(says(&text, Habit::Archive).starts_with("accepted 1 1\n"), "{text}");
    }
}

/// The buffer holds every token's record, and the text is lexed before any parsing.
#[test]
fn lexing_comes_first() {
    assert_eq!(tokens(&call("when input(1, dev=2) foo bar", Habit::Rule)).len(), 11);
    assert_eq!(says("when input(1, dev=2) @", Habit::Rule), "refused 10 1 22 0");
    assert_eq!(says("when foo when input(1, dev=2)", Habit::Rule), "refused 21 1 6 0");
    assert_eq!(says("when input(1, dev=2, 3:99", Habit::Rule), "refused 13 1 22 0");
}

#[test]
fn only_the_archive_call_is_in_the_domain() {
    let in_domain = |habit| second::in_domain(&call("when http trigger", habit));
    assert!(in_domain(Habit::Archive) && !in_domain(Habit::Rule) && !in_domain(Habit::Shop));
    assert!(second::in_domain(&case(b"when http trigger", ALL.as_bytes())));
}
