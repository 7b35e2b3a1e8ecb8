//! §3: two rules to be joined: what is dropped and what stays, in which words; conditions that agree or not; four triggers and more; refusals of
//! either text; topics that count for the second.

use super::numbered;
use cases::{Join, LEAST_WORDS, MOST_WORDS};

/// Names on one adapter, on two, and twice on one. Adapter 7 is another party's.
const SHEET: &str = "primary,0\nadapter,0\nadapter,1\nadapter,7\nparty,7,3\nlamp,1,7,Till\nlamp,0,4,Aisle\nlamp,1,4,Aisle\nlamp,0,5,Twice\nlamp,0,6,Twice\n\
lamp,7,9,Oven\ngroup,0,2,Hall\ninput,0,3,Door\n";

const FOUR: &str = "when http trigger when controller starts when every 1s when every 2s";

/// Texts to be joined, party 0's with primary 0.
const PAIRS: &[[&str; 2]] = &[
    // Repeats between the texts and inside them; the first place counts.
    ["when http trigger", "when http trigger"],
    ["when http trigger", "when controller starts"],
    ["when http trigger when every 1h when http trigger", "when every 60m when controller starts"],
    ["when http trigger", "when every 5s when every 5000ms when http trigger"],
    ["when every 1s when every 2s when every 1s when every 2s", "when every 2s when every 3s when every 1s when every 3s"],
    ["when http trigger when http trigger when http trigger when http trigger", "when http trigger when http trigger when http trigger when http trigger"],
    // The same record in other words, and beside each one that is not the same.
    ["when lamp(\"Till\") turns on", "when lamp(7, adapter=1) turns on when lamp(7) turns on"],
    ["when lamp(\"Aisle\", adapter=1).level crosses above 5", "when lamp(004, adapter=1).level crosses above 05 when lamp(4).level crosses above 5"],
    ["when at 7:05", "when at 07:05 on tue..mon when at 7:05 on tue..sun"],
    ["when at 7:05 on mon, tue, sun", "when at 07:05 on sun..tue when at 7:05 on mon, tue"],
    ["when at sunset", "when at sunset - 0s when at sunset + 0ms on mon..sun when at sunset + 1ms when at sunrise"],
    ["when at sunrise - 90m on sat, sun", "when at sunrise - 1.5h on sun, sat..sun when at sunrise + 90m on sat, sun"],
    ["when input(3, 4) is press", "when input(type=light, inst=4, adapter=0, dev=\"Door\") is press when input(4, 3) is press"],
    [
        "when input(group=3) is press when input(group=3, type=4) is press",
        "when input(group=3, type=0) is press when input(type=4, group=3) is press when input(adapter=0, type=light, group=03) is press",
    ],
    ["when input(3, 4) is event(data=7)", "when input(3, inst=4) is event(data=007) when input(3, 4) is any_event when input(3, 4) becomes vacant"],
    ["when scene(3) recalled", "when scene(003, adapter=0) recalled when scene(3, adapter=1) recalled"],
    ["when input device(3) power cycled", "when input device(dev=\"Door\", adapter=0) power cycled when input device(3) manual config changed"],
    ["when hcl override starts for group(\"Hall\")", "when hcl override starts for group(2) when hcl override starts for lamp(2) when hcl override clears for group(2)"],
    ["when device(8) goes offline when hcl override starts for broadcast", "when device(8) comes online when hcl override starts for broadcast"],
    // Names: elsewhere, in the same place, of another length, kind or case.
    ["when timer(\"a\") fires when rule(\"a\") fails", "# timer(\"b\")\nwhen rule\n(\"a\" ) fails\n\nwhen timer(\"a\")fires # \u{e9}"],
    ["when timer(\"a\") fires", "when timer(\"b\") fires"],
    ["when timer(\"a\") fires", "when timer(\"ab\") fires"],
    ["when timer(\"a\") fires when timer(\"b\") fires", "when timer(\"b\") fires when timer(\"c\") fires"],
    ["when rule(\"Till\") fails", "when rule(\"till\") fails when rule(\"Till \") fails when timer(\"Till\") fires"],
    ["when timer(\"a\0b\") fires", "when timer(\"a\0c\") fires when timer(\"a\") fires"],
    ["when timer(\"\u{e9}\") fires", "when timer(\"e\u{301}\") fires when timer(\"\u{e9}\") fires"],
    [
        "when rule(\"aaaaaaaaaaaaaaaaaaaaaaaaaaaaaaaaaaaaaaaaaaaaaaaa\") fails",
        "when rule(\"aaaaaaaaaaaaaaaaaaaaaaaaaaaaaaaaaaaaaaaaaaaaaaab\") fails when rule(\"aaaaaaaaaaaaaaaaaaaaaaaaaaaaaaaaaaaaaaaaaaaaaaaa\") fails",
    ],
    // Conditions that agree, in other words and elsewhere; a repeat stays.
    ["when http trigger if sun is up and sun is up", "when controller starts if sun is up and sun is up"],
    ["when http trigger if lamp(4).level == 0", "when every 1s if lamp(004).level == - 00"],
    ["when http trigger if var(\"v\") == var(\"w\") + 0 and var(\"v\") != \"\"", "# var(\"v\")\nwhen http trigger if var (\"v\") == var (\"w\") - 0 and var(\"v\") !=\"\""],
    [
        "when http trigger if timer(\"t\") is running and input(dev=3, inst=4) is occupied and lamp(\"Till\") is on",
        "when http trigger if timer(\"t\") is running and input(inst=4, dev=3) is occupied and lamp(7, adapter=1) is on",
    ],
    [
        "when http trigger if time in 7:05..sunset and day in mon..sun and last_fired(\"l\") older than 1h and input(\"Door\", 4).light above lamp(\"Till\").level + 5",
        "when at 7:05 if time in 07:05..sunset + 0s and day in tue..mon and last_fired(\"l\") older than 60.0m and input(3, inst=4, type=1).light above lamp(7, adapter=1).level + 5",
    ],
    // Those that do not: no list in one, order, repeats, one entry, one more.
    ["when http trigger if sun is up", "when http trigger"],
    ["when http trigger", "when http trigger if sun is up"],
    ["when http trigger if sun is up and controller is active", "when http trigger if controller is active and sun is up"],
    ["when http trigger if sun is up and sun is up and controller is active", "when http trigger if sun is up and controller is active and controller is active"],
    ["when http trigger if sun is up", "when http trigger if sun is up and sun is up"],
    ["when http trigger if sun is up and controller is active", "when http trigger if sun is up"],
    ["when http trigger if lamp(4).level > 5", "when http trigger if lamp(4).level >= 5"],
    ["when http trigger if lamp(4).level > 5", "when http trigger if lamp(4, adapter=1).level > 5"],
    ["when http trigger if var(\"v\") == 5", "when http trigger if var(\"v\") == \"5\""],
    ["when http trigger if var(\"v\") == 5", "when http trigger if var(\"v\") == -5"],
    ["when http trigger if var(\"v\") == var(\"w\")", "when http trigger if var(\"v\") == var(\"w\") + 0"],
    ["when http trigger if var(\"v\") == \"on\"", "when http trigger if var(\"v\") == \"On\""],
    ["when http trigger if var(\"v\") == \"on\"", "when http trigger if var(\"w\") == \"on\""],
    ["when http trigger if sun is up and time in 7:05..sunset", "when http trigger if sun is up and time in 7:05..sunset + 1ms"],
    ["when http trigger if sun is up and sun is up and day in mon..sun", "when http trigger if sun is up and sun is up and day in mon..sat"],
    ["when http trigger if hcl is enabled for lamp(2)", "when http trigger if hcl is enabled for group(2)"],
    [
        "when http trigger if sun is up and sun is up and controller is active and device(8) is online",
        "when http trigger if sun is up and sun is up and controller is active and device(9) is online",
    ],
    // Four triggers left, and more; 51 comes first.
    [FOUR, "when every 2s when every 1s when http trigger"],
    [FOUR, "when http trigger"],
    [FOUR, "when every 3s"],
    [FOUR, "when every 3s if sun is up"],
    ["when every 1s when every 2s when every 1s when every 2s", "when every 3s when every 2s when every 4s when every 3s"],
    ["when every 1s when every 2s when every 1s when every 2s", "when every 3s when every 4s when every 5s"],
    ["when every 1s when every 2s when every 3s", "when every 3s when every 4s when every 4s"],
    ["when every 1s when every 2s when every 3s if sun is up", "when every 3s when every 4s when every 5s if sun is up"],
    ["when every 1s when every 2s when every 3s", "when every 4s when every 5s when every 6s when every 5s"],
    [FOUR, "when every 3s when every 4s when every 5s when every 3s"],
    [FOUR, "when every 3s when every 4s when every 5s when every 6s"],
    // Refusals of the first text, of the second and of both.
    ["when @", "when http trigger"],
    ["when lamp(\"Aisle\") turns on", "when"],
    ["when @", "when http trigger foo"],
    ["", ""],
    ["when input(dev=1, dev=1, inst=2) is press", "when http trigger"],
    ["when http trigger", "when @"],
    ["when http trigger\nif sun is up", "when http trigger\n\n foo"],
    ["when http trigger", "when input(dev=1, dev=1, inst=2) is press"],
    ["when http trigger", "when lamp(\"Till\", adapter=0) turns on"],
    ["when http trigger", "when lamp(\"Twice\") turns on"],
    ["when http trigger", "# \u{e9}\nwhen lamp(\"Aisle\") turns on"],
];

/// Buffers of either size.
const WORDS: &[([usize; 2], [&str; 2])] = &[
    ([LEAST_WORDS, 0], ["when @", "when http trigger"]),
    ([0, LEAST_WORDS], ["when http trigger", "when http trigger"]),
    ([MOST_WORDS, LEAST_WORDS - 1], ["when http trigger", "when @"]),
    ([LEAST_WORDS, MOST_WORDS], ["when http trigger", "when controller starts"]),
    ([LEAST_WORDS + 1, LEAST_WORDS], ["when http trigger if sun is up", "when controller starts"]),
];

/// Topics of both texts, with so many lent: the digits are lent, the letters are not.
const TOPICS: &[(usize, [&str; 2])] = &[
    (6, ["a b", "c"]), (6, ["a b", "a"]), (6, ["a", "b a c"]), (8, ["1", "1"]), (8, ["1", "a"]), (8, ["a", "1"]), (7, ["a", "a 7 1 b"]), (5, ["a a", "b c"]), (5, ["1 a", "b c"]),
    (6, ["1 a", "b c"]), (4, ["a b c d", "d"]), (10, ["1 9", "10 9"]), (0, ["a b c d", "e f g h"]), (0, ["a", "A a b"]),
];

fn join(texts: [&[u8]; 2]) -> Join {
    let texts = texts.map(<[u8]>::to_vec);
    Join { id: 0, words: [LEAST_WORDS; 2], party: 0, primary: 0, texts, sheet: SHEET.into(), topics: Vec::new() }
}

fn on(sheet: &str, party: u8, primary: u8, texts: [&[u8]; 2]) -> Join {
    Join { sheet: sheet.into(), party, primary, ..join(texts) }
}

pub fn joins() -> Vec<Join> {
    let bytes = |texts: &[&'static str; 2]| texts.map(str::as_bytes);
    let mut joins: Vec<Join> = PAIRS.iter().map(|texts| join(bytes(texts))).collect();
    joins.extend(WORDS.iter().map(|(words, texts)| Join { words: *words, ..join(bytes(texts)) }));
    let naming = |topics: &str| topics.split(' ').map(|topic| format!("when mqtt \"{topic}\"")).collect::<Vec<_>>().join(" ");
    joins.extend(TOPICS.iter().map(|(lent, topics)| {
        let [one, two] = topics.map(naming);
        Join { topics: numbered(*lent).into(), ..join([one.as_bytes(), two.as_bytes()]) }
    }));
    joins.extend(of_parties());
    joins
}

/// What is asked of the sheet and the primary is the first text's; other parties; texts that are not UTF-8.
fn of_parties() -> Vec<Join> {
    let good = b"when http trigger".as_slice();
    vec![
        on("primary", 0, 0, [good, good]),
        Join { words: [LEAST_WORDS, 0], ..on("primary,0\n\n", 0, 0, [good, b"\xff"]) },
        on(SHEET, 0, 7, [good, b"\xff"]),
        on(SHEET, 3, 0, [b"\xff", good]),
        on(SHEET, 3, 7, [b"when lamp(\"Oven\") turns on when scene(3) recalled", b"when lamp(9) turns on when scene(3, adapter=7) recalled"]),
        on(SHEET, 0, 1, [b"when lamp(\"Till\") turns on", b"when lamp(7) turns on when lamp(4, adapter=0) turns on"]),
        join([b"when \xc3\xa9\xff", good]),
        Join { words: [LEAST_WORDS, 0], ..join([good, b"\xff"]) },
        join([good, b"# \xc3\xa9\nwhen \xff"]),
        Join { topics: b"\n1\r\n1\n\n2\n2\n3\n4\n5".to_vec(), ..join([b"when mqtt \"1\" when mqtt \"a\"", b"when mqtt \"b\""]) },
    ]
}
