//! Document 02 §9, the shop profile: what it leaves out, where, and what comes before it.

mod common;
use cases::{Case, Habit};
use common::*;

fn call(text: &str, habit: Habit) -> Case {
    case(text.as_bytes(), ALL.as_bytes()).with_habit(habit)
}

/// What the shop call says. But for 57 to 59 it is what the default call says; with them the default call accepts, and the
/// buffer is the same.
fn says(text: &str) -> String {
    let [shop, default] = [Habit::Shop, Habit::Rule].map(|habit| call(text, habit));
    let (says, by_default) = (verdict_of(&shop), verdict_of(&default));
    assert_eq!(tokens(&shop), tokens(&default), "{text}");
    if ["57", "58", "59"].iter().any(|number| says.starts_with(&format!("refused {number} "))) {
        assert!(by_default.starts_with("accepted "), "{text}: {by_default}");
    } else {
        assert_eq!(says, by_default, "{text}");
    }
    says
}

/// Texts behind `when `, with what the shop call refuses them for.
fn leaves_out(table: &[(&str, &str)]) {
    for (text, refusal) in table {
        assert_eq!(says(&format!("when {text}")), format!("refused {refusal}"), "{text}");
    }
}

/// Conditions behind `when http trigger if `, which has 21 characters.
fn leaves_out_conditions(table: &[(&str, &str)]) {
    for (text, refusal) in table {
        assert_eq!(says(&format!("when http trigger if {text}")), format!("refused {refusal}"), "{text}");
    }
}

fn accepts(texts: &[&str]) {
    for text in texts {
        assert!(says(&format!("when {text}")).starts_with("accepted "), "{text}");
    }
}

#[test]
fn every_kind_of_reference_is_named() {
    accepts(&[
        "lamp(\"Lamp\") turns on", "lamp(\"Lamp\").level crosses above 5", "group(\"Group\") becomes any_on", "device(\"Device\") goes offline",
        "device(\"Device\", adapter=2) comes online", "input(\"Input\", 3) is press", "input(dev=\"Both\", inst=0, adapter=3) becomes vacant",
        "input(inst=1, \"Input\").light crosses above 5", "input(\"Input\", 3).position changes", "input device(\"Input\") power cycled",
        "input device(dev=\"Both\", adapter=2) manual config changed", "hcl override starts for lamp(\"Lamp\")",
        "hcl override clears for group(\"Group\")",
        "http trigger if lamp(\"Lamp\") is on and lamp(\"Lamp\").cct < 5 and group(\"Group\") all_off and device(\"Device\") is online",
        "http trigger if input(\"Input\", 1) is vacant and input(\"Input\", 1).light below 5 and hcl is enabled for lamp(\"Lamp\")",
        "http trigger if var(\"v\") == lamp(\"Lamp\").level and var(\"v\") == group(\"Group\").any_on and var(\"v\") == input(\"Input\", 1).light",
    ]);
}

#[test]
fn p34_57_stands_at_the_id() {
    leaves_out(&[
        ("lamp(3) turns on", "57 1 11 0"), ("lamp(\n 3, adapter=2) turns on", "57 2 2 0"), ("lamp(3).level crosses above 5", "57 1 11 0"),
        ("group(3) becomes any_on", "57 1 12 0"), ("device(3) goes offline", "57 1 13 0"), ("device(3) comes online", "57 1 13 0"),
        ("input(3, 1) is press", "57 1 12 0"), ("input(dev=3, inst=1) is press", "57 1 16 0"), ("input(inst=3, 5) is press", "57 1 20 0"),
        ("input(adapter=2, inst=3, dev=5) is press", "57 1 35 0"), ("input(3, 1) becomes vacant", "57 1 12 0"),
        ("input(3, 1).light crosses above 5", "57 1 12 0"), ("input(3, 1).position changes", "57 1 12 0"),
        ("input(3, 1, type=light) is event(data=5)", "57 1 12 0"), ("input device(3) power cycled", "57 1 19 0"),
        ("input device(dev=3, adapter=2) manual config changed", "57 1 23 0"), ("hcl override starts for lamp(3)", "57 1 35 0"),
        ("hcl override starts for group(3)", "57 1 36 0"),
    ]);
    leaves_out_conditions(&[
        ("lamp(3) is on", "57 1 27 0"), ("lamp(3).level > 5", "57 1 27 0"), ("group(3) any_on", "57 1 28 0"), ("device(3) is online", "57 1 29 0"),
        ("input(3, 1) is vacant", "57 1 28 0"), ("input(inst=1, 3).light above 5", "57 1 36 0"), ("hcl is enabled for lamp(3)", "57 1 46 0"),
        ("hcl is enabled for group(3)", "57 1 47 0"), ("lamp(\"Lamp\").level > lamp(3).level", "57 1 48 0"),
        ("var(\"v\") > lamp(3).is_on + 5", "57 1 38 0"), ("var(\"v\") > group(3).member_count", "57 1 39 0"),
        ("var(\"v\") > input(3, 1).light - 5", "57 1 39 0"), ("input(\"Input\", 1).light above input(dev=3, inst=1).position", "57 1 62 0"),
    ]);
}

#[test]
fn p34_58_and_59_stand_at_the_word() {
    leaves_out(&[("hcl override starts for broadcast", "58 1 30 0"), ("hcl override clears for\nbroadcast", "58 2 1 0")]);
    leaves_out_conditions(&[
        ("hcl is enabled for broadcast", "58 1 41 0"), ("hcl is overridden for broadcast", "58 1 44 0"), ("var(\"v\") == event.value", "59 1 34 0"),
        ("var(\"v\") == event . device + 5", "59 1 34 0"), ("lamp(\"Lamp\").level > event.instance", "59 1 43 0"),
        ("lamp(\"Lamp\").cct > event.option - 5", "59 1 41 0"), ("input(\"Input\", 1).light below event.value", "59 1 52 0"),
    ]);
}

#[test]
fn p33_what_is_no_reference_passes() {
    accepts(&[
        "scene(3) recalled", "scene(3, adapter=2) recalled", "input(group=2) is press", "input(group=2, type=3, adapter=3) is press",
        "input(\"Input\", 3) is press", "input(\"Input\", 3, type=4, adapter=3) is press", "lamp(\"Lamp\", adapter=2).level crosses above 254",
        "input(\"Input\", 3).light crosses below 1023", "input(\"Input\", 3) is event(data=5)", "input(group=2) is event(data=5)",
        "http trigger if lamp(\"Lamp\").level == 5 and var(\"v\") == -5 and var(\"v\") == time.hour + 5 and var(\"v\") == sun.is_up",
        "every 5s when at 7:05 when at sunset + 5m if time in 7:05..sunrise and last_fired(\"3\") older than 5s", "timer(\"broadcast\") fires",
        "http trigger if var(\"event\") == \"event\" and var(\"v\") != var(\"event\")", "mqtt \"broadcast\"",
    ]);
}

#[test]
fn p32_any_other_refusal_comes_first() {
    leaves_out(&[
        ("lamp(3) turns on foo", "41 1 23 0"), ("input(3, dev=\"Input\", inst=1) is press", "63 1 15 0"), ("lamp(64) turns on", "22 1 11 0"),
        ("lamp(3) turns on when lamp(\"None\") turns on", "31 1 33 0"), ("lamp(3) turns on @", "10 1 23 0"), ("lamp(3) turns up", "21 1 20 0"),
        ("hcl override starts for broadcast if", "20 1 42 0"), ("lamp(3) turns on if var(\"v\") == event.foo", "21 1 44 0"),
        ("lamp(3, adapter=9) turns on", "25 1 22 0"), ("input(group=3) becomes vacant", "30 1 11 0"), ("lamp(3) turns on when every 5ms", "35 1 34 0"),
        ("lamp(3) turns on when mqtt \"a\" is", "40 1 37 0"), ("lamp(3) turns on when at 7:05 on foo", "50 1 39 0"), ("input(group=2, dev=3) is press", "27 1 18 0"), ("input(3) is press", "29 1 13 0"),
    ]);
    let first = |case: Case| verdict_of(&case.with_habit(Habit::Shop));
    let numbered = "when lamp(3) turns on";
    assert_eq!(first(call(numbered, Habit::Rule).with_party(7, 2)), "refused 53 0 0 0");
    assert_eq!(first(case(numbered.as_bytes(), b"primary")), "refused 3 1 0 0");
    assert_eq!(first(Case { words: 5_119, ..call(numbered, Habit::Rule) }), "refused 2 0 0 0");
    let lent = call("when lamp(3) turns on when mqtt \"a\"", Habit::Rule).with_topics("1\n2\n3\n4\n5\n6\n7\n8");
    assert_eq!(first(lent), "refused 66 1 28 0");
}

#[test]
fn p35_the_earliest_place_decides() {
    leaves_out_conditions(&[
        ("lamp(3).level > event.value", "57 1 27 0"), ("var(\"v\") == event.value and lamp(3) is on", "59 1 34 0"),
        ("hcl is enabled for broadcast and lamp(3) is on", "58 1 41 0"), ("device(3) is online and hcl is enabled for broadcast", "57 1 29 0"),
        ("var(\"v\") == event.value and hcl is enabled for broadcast", "59 1 34 0"),
        ("hcl is enabled for broadcast and var(\"v\") == event.value", "58 1 41 0"), ("lamp(3).level > lamp(4).level", "57 1 27 0"),
        ("sun is up and sun is up and sun is up and lamp(3) is on", "57 1 69 0"),
    ]);
    leaves_out(&[
        ("hcl override starts for broadcast if lamp(3) is on", "58 1 30 0"), ("lamp(3) turns on when hcl override starts for broadcast", "57 1 11 0"),
        ("lamp(\"Lamp\") turns on when http trigger\nwhen input(5, 1) is press when lamp(3) turns on", "57 2 12 0"),
        ("http trigger when http trigger when http trigger when group(3) becomes any_on if lamp(4) is on", "57 1 66 0"),
    ]);
}

/// "The profile stands over the default call": an archive call is not held to it, nor is the default call.
#[test]
fn p36_only_the_shop_call_has_the_profile() {
    let text = "when lamp(3) turns on when hcl override starts for broadcast if var(\"v\") == event.value";
    let lists = "accepted 2 1\nT lamp_turns 2 3 on\nT hcl_override broadcast 2 starts\nC var_compare x76 eq value reading event_value";
    assert_eq!([Habit::Rule, Habit::Archive].map(|habit| verdict_of(&call(text, habit))), [lists, lists]);
    assert_eq!(says(text), "refused 57 1 11 0");
    assert!(!second::in_domain(&call("when http trigger", Habit::Shop)));
}
