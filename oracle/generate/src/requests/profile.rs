//! §9: the shop profile.

use super::{numbered, SHARED};
use cases::{Case, Habit, LEAST_WORDS};

/// A sheet with a name of each kind; one of the lamps' is on two adapters, and one twice on one.
const NAMES: &[u8] = b"primary,0\nadapter,0\nadapter,1\nlamp,0,4,Aisle\nlamp,1,4,Aisle\nlamp,1,7,Till\nlamp,0,5,Twin\nlamp,0,6,Twin\n\
group,0,2,Hall\ndevice,1,9,Meter\ninput,1,13,Door\n";

/// Triggers that the profile leaves out.
const TRIGGERS: &[&str] = &[
    "lamp(3) turns on", "lamp(63, adapter=1).level crosses above 5", "lamp(\n3) turns off", "group(3) becomes any_on",
    "group(15, adapter=0) becomes all_off", "device(3) goes offline", "device(3, adapter=1) comes online", "input(3, 1) is press",
    "input(dev=3, inst=1) becomes occupied", "input(inst=3, 5).light crosses above 9", "input(inst=3, adapter=1, dev=5) is press",
    "input(adapter=1, 5, inst=3).position changes", "input(5, 3, type=light) is event(data=5)", "input device(3) power cycled",
    "input device(dev=3, adapter=1) manual config changed", "input device(\n dev=63) power cycled", "hcl override starts for lamp(3)",
    "hcl override clears for lamp(3, adapter=1)", "hcl override starts for group(3)", "hcl override clears for group(0, adapter=1)",
    "hcl override starts for broadcast", "hcl override clears for\nbroadcast",
];

/// Conditions that it leaves out.
const CONDITIONS: &[&str] = &[
    "lamp(3) is on", "lamp(3).level > 5", "lamp(3, adapter=1).cct != lamp(\"Till\").cct", "group(3) any_on", "group(3, adapter=1) all_off",
    "device(3) is online", "device(63, adapter=0) is online", "input(3, 1) is vacant", "input(inst=1, 3).light below 5",
    "input(dev=3, inst=1, adapter=1).light above -5", "hcl is enabled for lamp(3)", "hcl is overridden for group(3)", "hcl is enabled for broadcast",
    "hcl is overridden for broadcast", "lamp(\"Till\").level > lamp(3).level", "var(\"v\") < lamp(3).is_on + 5",
    "var(\"v\") == group(3).member_count", "lamp(\"Till\").cct <= group(3, adapter=1).any_on - 5", "var(\"v\") > input(3, 1).light",
    "input(\"Door\", 1).light above input(dev=3, inst=1).position + 7", "var(\"v\") == event.value", "var(\"v\") == event.device + 5",
    "lamp(\"Till\").level > event.instance", "lamp(\"Till\").cct > event.option - 5", "input(\"Door\", 1).light below event.value",
    "input(\"Door\", 1).light above event.option", "var(\"v\") != event . device", "var(\"v\") != event.instance",
];

/// Whole texts with several forms that it leaves out, and with such a form far behind.
const SEVERAL: &[&str] = &[
    "when lamp(3) turns on when lamp(4) turns on", "when lamp(3) turns on when hcl override starts for broadcast",
    "when device(3) goes offline if hcl is enabled for broadcast", "when input(5, 3) is press if var(\"v\") == event.value",
    "when http trigger if lamp(3).level > event.value", "when http trigger if lamp(3).level > lamp(4).level",
    "when hcl override starts for broadcast when lamp(3) turns on", "when hcl override starts for broadcast if lamp(3) is on",
    "when hcl override starts for broadcast when hcl override clears for broadcast",
    "when hcl override starts for broadcast if hcl is enabled for broadcast", "when hcl override starts for broadcast if var(\"v\") == event.value",
    "when http trigger if hcl is enabled for broadcast and lamp(\"Till\").level > event.option",
    "when http trigger if var(\"v\") == event.value and lamp(3) is on",
    "when http trigger if lamp(\"Till\").level == event.value and group(3) any_on",
    "when http trigger if var(\"v\") == event.value and hcl is enabled for broadcast",
    "when http trigger if input(\"Door\", 1).light below event.option - 5 and hcl is overridden for broadcast",
    "when http trigger if var(\"v\") == event.value and var(\"v\") == event.device",
    "when http trigger if var(\"v\") == event.value and lamp(\"Till\").cct < event.option",
    "when lamp(\"Till\") turns on when group(3) becomes any_on",
    "when lamp(\"Till\") turns on\nwhen http trigger when input(5, 1) is press when lamp(3) turns on",
    "when http trigger when every 5s when device(3) comes online",
    "when http trigger when http trigger when http trigger when group(3) becomes any_on",
    "when http trigger when scene(5) recalled when input(\"Door\", 5) is press when hcl override starts for broadcast if lamp(4) is on",
    "when http trigger if sun is up and lamp(3) is on", "when http trigger if lamp(\"Till\") is on and lamp(\"Till\").level > event.value",
    "when http trigger if lamp(\"Till\") is on and lamp(\"Till\").level > 5 and group(3) any_on",
    "when http trigger if sun is up and sun is up and var(\"v\") == event.value",
    "when http trigger if sun is up and sun is up and sun is up and device(3) is online",
    "when lamp(\"Till\") turns on if group(\"Hall\") any_on and device(\"Meter\") is online and input(\"Door\", 3) is vacant and hcl is enabled for broadcast",
    "# \u{e9}\n\n when\u{3000}lamp ( # 4\n  3 ) turns on", "when mqtt \"a\" when lamp(3) turns on",
];

/// Texts that it takes.
const TAKEN: &[&str] = &[
    "when lamp(\"Till\") turns on", "when lamp(\"Till\", adapter=1).level crosses above 254", "when group(\"Hall\") becomes any_on",
    "when device(\"Meter\") goes offline if device(\"Meter\", adapter=1) is online", "when input(\"Door\", 3) is press",
    "when input(dev=\"Door\", inst=3) becomes vacant", "when input(inst=3, \"Door\").light crosses below 1023",
    "when input(\"Door\", 3, type=4, adapter=1) is event(data=5)", "when input(type=2, \"Door\", inst=31).position changes",
    "when input device(\"Door\") power cycled", "when input device(dev=\"Door\", adapter=1) manual config changed",
    "when hcl override starts for lamp(\"Till\")", "when hcl override clears for group(\"Hall\")", "when scene(3) recalled",
    "when scene(3, adapter=1) recalled", "when input(group=2) is press", "when input(group=2, type=3, adapter=1) is event(data=1023)",
    "when http trigger if lamp(\"Till\") is on and lamp(\"Till\").level == 5 and group(\"Hall\") all_off and hcl is enabled for lamp(\"Till\")",
    "when http trigger if input(\"Door\", 1) is vacant and input(\"Door\", 1).light below 5",
    "when http trigger if lamp(\"Till\").cct > lamp(\"Aisle\", adapter=1).level + 5 and var(\"v\") == group(\"Hall\").any_on",
    "when http trigger if var(\"v\") == input(\"Door\", 1).light - 5 and var(\"v\") > -5", "when device(\"Meter\") comes online if var(\"v\") <= 63",
    "when every 5s when at 7:05 when at sunset + 5m if time in 7:05..sunrise and last_fired(\"3\") older than 5s", "when timer(\"broadcast\") fires",
    "when mqtt \"broadcast\" if var(\"event\") == \"event\" and var(\"v\") != var(\"event\") and var(\"v\") == time.hour + 5 and var(\"v\") == sun.is_up",
];

/// Refusals of the default call, mostly behind a form that the profile leaves out.
const REFUSED_FIRST: &[&str] = &[
    "lamp(3) turns on @", "lamp(3) turns on when every 5x", "lamp(3) turns on if", "hcl override starts for broadcast if lamp", "lamp(3) turns up",
    "lamp(3) turns on if var(\"v\") == event.foo", "lamp(3) turns on if lamp(3).foo > event.value", "lamp(64) turns on", "device(64) goes offline",
    "input(64, 3) is press", "group(16) becomes any_on", "lamp(3) turns on when lamp(64) turns on", "lamp(3) turns on when scene(16) recalled",
    "lamp(3) turns on when timer(\"\") fires", "hcl override starts for broadcast if var(\"\") == 5",
    "lamp(3) turns on if var(\"v\") == \"12345678901234567\"", "lamp(3) turns on if var(\"v\") == \"aaaaaaaaaaaaaaaaaaaa\"",
    "lamp(3, adapter=9) turns on", "lamp(3) turns on when lamp(4, adapter=9) turns on",
    "hcl override starts for broadcast when scene(1, adapter=2) recalled", "input(3, 1, 2) is press",
    "lamp(3) turns on when input(\"Door\", 1, 2) is press", "lamp(3) turns on when input(group=2, dev=\"Door\") is press",
    "lamp(3) turns on when input(group=2, inst=3) is press", "input(group=2, dev=3) is press", "lamp(3) turns on when input(inst=3) is press",
    "hcl override starts for broadcast when input(type=3) is press", "input(3) is press", "lamp(3) turns on when input(\"Door\") is press",
    "lamp(3) turns on when input(group=3) becomes vacant", "lamp(3) turns on if input(group=3) is vacant",
    "lamp(3) turns on when lamp(\"None\") turns on", "http trigger if lamp(\"Till\").level > event.value and group(\"Till\") any_on",
    "lamp(3) turns on when lamp(\"Till\", adapter=0) turns on", "hcl override starts for broadcast if device(\"Meter\", adapter=0) is online",
    "lamp(3) turns on when lamp(\"Twin\") turns on", "lamp(3) turns on if lamp(\"Twin\", adapter=0) is on",
    "lamp(3) turns on when lamp(\"Aisle\") turns on", "http trigger if lamp(3).level > lamp(\"Aisle\").level", "lamp(3) turns on when every 999ms",
    "hcl override starts for broadcast when every 0s", "lamp(3) turns on when at sunset + 600h", "lamp(3) turns on if time in sunset - 600h..7:05",
    "lamp(3) turns on when http trigger when http trigger when http trigger when http trigger",
    "http trigger when http trigger when http trigger when hcl override starts for broadcast when",
    "http trigger if lamp(3) is on and sun is up and sun is up and sun is up and sun is up",
    "hcl override starts for broadcast if sun is up and sun is up and sun is up and sun is up and", "lamp(3) turns on when mqtt \"a\" is \"b\"",
    "lamp(3) turns on when mqtt \"a\" is", "lamp(3) turns on foo", "http trigger if var(\"v\") == event.value when",
    "input(3, dev=\"Door\", inst=1) is press", "input(dev=\"Door\", inst=1, dev=3) is press",
    "lamp(3) turns on when input(dev=\"Door\", inst=1, inst=1) is press", "lamp(3) turns on when mqtt \"\"",
    "hcl override starts for broadcast when mqtt \"a+\"", "lamp(3) turns on when mqtt \"aaaaaaaaaaaaaaaaaaaaaaaaaaaaaaaaaaaaaaaaaaaaaaaaa\"",
    "hcl override starts for broadcast when mqtt \"aaaaaaaaaaaaaaaaaaaaaaaaaaaaaaaaaaaaaaaaaaaaaaaaa\"",
];

fn call(habit: Habit, text: &str) -> Case {
    Case::new(0, LEAST_WORDS, text, NAMES).with_habit(habit)
}

/// What the profile leaves out, each also as a default call and as an archive call; what it takes, and what comes before it.
pub fn cases() -> Vec<Case> {
    let triggers = TRIGGERS.iter().map(|trigger| format!("when {trigger}"));
    let conditions = CONDITIONS.iter().map(|condition| format!("when http trigger if {condition}"));
    let several = SEVERAL.iter().map(|text| text.to_string());
    let left_out: Vec<String> = triggers.chain(conditions).chain(several).collect();
    let mut cases: Vec<Case> = left_out.iter().map(|text| call(Habit::Shop, text)).collect();
    cases.extend(left_out.iter().step_by(4).flat_map(|text| [Habit::Rule, Habit::Archive].map(|habit| call(habit, text))));
    cases.extend(TAKEN.iter().map(|text| call(Habit::Shop, text)));
    cases.extend(REFUSED_FIRST.iter().map(|text| call(Habit::Shop, &format!("when {text}"))));
    cases.extend(other_calls());
    cases
}

/// The profile in calls of several parties, with lent topics, behind the first questions, and over the archive habit.
fn other_calls() -> Vec<Case> {
    let shared = |party: u8, primary: u8, text: &str| {
        Case::new(0, LEAST_WORDS, text, SHARED).with_habit(Habit::Shop).with_party(party, primary)
    };
    let numbered_lamp = "when lamp(3) turns on";
    let mut cases: Vec<Case> = [(0, 0), (7, 1), (0, 1), (7, 0)].iter().flat_map(|&(party, primary)| {
        ["when lamp(\"Till\") turns on", numbered_lamp, "when hcl override starts for broadcast"].map(|text| shared(party, primary, text))
    }).collect();
    let lending = |text: &str| call(Habit::Shop, text).with_topics(numbered(8));
    cases.extend([
        lending("when lamp(3) turns on when mqtt \"a\""), lending("when lamp(3) turns on when mqtt \"8\""), lending("when mqtt \"8\""),
        lending("when mqtt \"a\" when lamp(3) turns on"), lending("when hcl override starts for broadcast when mqtt \"1\" when mqtt \"a\""),
        Case { words: 0, ..call(Habit::Shop, numbered_lamp) }, Case { words: LEAST_WORDS - 1, ..call(Habit::Shop, "when http trigger if lamp(3) is on") },
        Case { text: b"when lamp(3) turns \xff".to_vec(), ..call(Habit::Shop, "") }, Case { sheet: b"primary".to_vec(), ..call(Habit::Shop, numbered_lamp) },
        Case { text: vec![b' '; 16_385], ..call(Habit::Shop, "") }, call(Habit::Archive, "when input(3, dev=\"Door\", inst=1) is press"),
        Case::new(0, LEAST_WORDS, numbered_lamp, NAMES),
    ]);
    cases
}
