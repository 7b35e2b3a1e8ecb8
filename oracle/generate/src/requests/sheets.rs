//! §8: line ends with CR, and names with commas.

use super::SHEET;
use crate::sheet::of_length;
use cases::{Case, Habit, LEAST_WORDS};

fn call(text: &str, sheet: impl Into<Vec<u8>>) -> Case {
    Case::new(0, LEAST_WORDS, text, sheet).with_habit(Habit::Rule)
}

fn lamp(name: &str) -> String {
    format!("when lamp(\"{name}\") turns on")
}

/// Sheets with a lamp `Till` and others that lack it, good and bad, for the line ends.
const ENDS: &[&str] = &[
    "primary,0\r\nadapter,0\r\nlamp,0,7,Till\r\n", "primary,0\r\nlamp,0,7,Till\r", "primary,0\r\nlamp,0,7,Till", "primary,0\nlamp,0,7,Till\r\n",
    "primary,0\nlamp,0,7,Till\r", "primary,0\r\nadapter,0\nparty,9,7\r\nlamp,0,7,Till\n", "primary,0\nadapter,0\r\nparty,9,7\nlamp,0,7,Till\r\n",
    "primary,0\r", "primary,0\r\n", "primary,0\r\r", "primary,0\r\r\n", "primary,0\r\r\nlamp,0,7,Till\n", "primary,0\nadapter,1\r\r\n",
    "primary,0\nadapter,1\r\r", "primary,0\r\nparty,1,2\r\r\n", "primary,0\nparty,1,2\r\r", "primary,0\nlamp,0,7,Till\r\r\n",
    "primary,0\nlamp,0,7,Till\r\r", "primary,0\nlamp,0,7,Till\r\r\r\n", "primary,0\n\r", "primary,0\r\n\r", "primary,0\nlamp,0,7,Till\n\r",
    "primary,0\n\r\n", "primary,0\r\n\r\nlamp,0,7,Till\r\n", "primary,0\n\r\nadapter,1", "primary,0\n\n", "\r", "\r\n", "\r\nprimary,0\r\n",
    "\rprimary,0", "primary\r,0\n", "primary,\r0\n", "primary,0\rlamp,0,7,Till", "primary,0\n\radapter,1\n", "primary,0\nadapter\r,1\n",
    "primary,0\nadapter,1\r2\n", "primary,0\nadapter,\r\n", "primary,0\nlamp,0\r,7,Till\n", "primary,0\nlamp,0,7\r\n", "primary,0\nparty,1\r,7\n",
    "primary,0\nlamp,0,7,\r\n", "primary,0\r\nlamp,0,7,\r", "primary,0\nlamp,0,7,Ti\rll\n", "primary,0\nlamp,0,7,\rTill\r\n",
    "primary,0\nlamp,0,7,Till\r,\n", "primary,256\r\n", "primary,07\r\n", "primary\r\n", "primary,0,", "primary,0,\r\n",
    "primary,0\r\nparty,1,7\r\nparty,1,7\r\n", "primary,0\nparty,1,7\nparty,1,0\r", "primary,0\r\nparty,1,7\nparty,1,8\r\n",
    "primary,0\r\nprimary,0\r\n", "primary,0\nlamp,0,7,Till\nlamp,0,7,Till\r\n",
];

/// Rows behind `primary,0`, for the commas and what a name has not.
const ROWS: &[&str] = &[
    "lamp,0,1,,", "lamp,0,1,a,", "lamp,0,1,,a", "lamp,0,1,a,b,c", "lamp,0,1,,,,", "lamp,0,1,0,1,Till", "lamp,0,1,a,\"", "lamp,0,1,\",a",
    "lamp,0,1,\"a, b\"", "lamp,0,1,a\"", "lamp,0,1,a,\rb", "lamp,0,1,", "lamp,0,1", "lamp,,0,1,a", "lamp,0,,1,a", "lamp,0,64,a,b", "lamp,0,01,a,b",
    "lamp,256,1,a,b", "light,0,1,a,b", "group,0,16,a,b", "group,0,15,a,b", "device,0,63,a,b", "input,0,63,a,b", "input,0,64,a,b", "adapter,1,",
    "adapter,1,2", "adapter,1,2,3", "adapter,1,2,3,4", "party,1,2,", "party,1,2,3", "party,1,2,3,4", "primary,0,1,a", "lamp,0,1,a\0,b",
    "lamp,0,1,\t,\u{7f}", "lamp,0,1, , ",
];

/// Names of one sheet, and what might be taken for them.
const LOOKED_UP: &[&str] = &[
    "Aisle 3, cold", "cold", " cold", "Aisle 3", "Aisle 3,", "Aisle 3,cold", "Aisle 3, cold\r", "Aisle 3, cold,", "aisle 3, cold", "Aisle 4, cold",
    "Till", "Till\r", "Till,", "Oven", "Oven\r", ",", ",\r", "a", "a,", ",,", "b,c", "c", "Twin, left", "Wide, right", "Nobody, here", "\r",
];
const NAMES: &[u8] = b"primary,0\r\nadapter,0\r\nadapter,1\nlamp,0,1,Aisle 3, cold\r\nlamp,1,2,Aisle 4, cold\ngroup,0,3,cold\r\nlamp,0,4,Till\r\nlamp,0,5,Oven\n\
lamp,0,6,,\r\nlamp,0,7,a,\r\nlamp,0,8,a,b,c\nlamp,0,9,Twin, left\r\nlamp,0,10,Twin, left\nlamp,0,11,Wide, right\r\nlamp,1,12,Wide, right\r\n\
device,1,13,Meter, main\r\ninput,0,14,Door, back\r\n";

/// Texts with names of every kind.
const OTHER_KINDS: &[&str] = &[
    "when group(\"cold\") becomes any_on", "when device(\"Meter, main\") goes offline", "when input(\"Door, back\", 1) is press",
    "when input(dev=\"back\", inst=1) is press", "when input device(\"Door, back\", adapter=0) power cycled",
    "when lamp(\"Aisle 4, cold\", adapter=0) turns on", "when lamp(\"Twin, left\", adapter=1) turns on",
    "when lamp(\"Twin, left\", adapter=0) turns on", "when http trigger if lamp(\"Wide, right\") is on",
    "when lamp(\"Wide, right\", adapter=1) turns on", "when device(\"Meter\") goes offline", "when http trigger if var(\"a, b\r\") == \"Till\r\"",
];

/// Sizes around the bounds: of a name, of the sheet, of its rows.
fn sizes() -> Vec<Case> {
    let (name, commas) = ("n".repeat(48), ",".repeat(48));
    let row = |row: String| call(&lamp(&name), format!("primary,0\nlamp,0,7,{row}"));
    let mut cases = vec![
        row(format!("{name}\r\n")), row(format!("{name}\r")), row(format!("{name}n\r\n")), row(format!("{name}n\r")),
        row(format!("{name}\r\r\n")), row(format!("{name}\r\r")), row(format!("{name},\r\n")), row(format!("{},\n", &name[1..])),
        call(&lamp(&commas), format!("primary,0\r\nlamp,0,7,{commas}\r\n")), call(&lamp(&commas), format!("primary,0\nlamp,0,7,{commas},\n")),
    ];
    let good = |sheet: Vec<u8>| call("when http trigger", sheet);
    cases.extend([16_384, 16_385].map(|bytes| good(of_length(bytes, "\r\n"))));
    let with_one_cr = |mut sheet: Vec<u8>| { sheet.insert(SHEET.len() - 1, b'\r'); sheet };
    cases.extend([16_383, 16_384].map(|bytes| good(with_one_cr(of_length(bytes, "\n")))));
    let rows = |count: usize| format!("primary,0\r\n{}", "adapter,7\r\n".repeat(count));
    cases.extend([512, 513].map(|count| good(rows(count).into())));
    cases.extend(["\r", "adapter,7\r"].map(|last| good((rows(512) + last).into())));
    cases.push(call("when lamp(3, adapter=7) turns on", rows(511) + "adapter,8\r"));
    cases
}

/// Calls of parties and of other habits, `case` lines, and the order of the first questions.
fn other_calls() -> Vec<Case> {
    let shared = b"primary,0\r\nadapter,1\r\nparty,1,7\r\nlamp,1,7,a, b\r\nlamp,0,8,a, b\r\nparty,2,7\nlamp,2,9,b\n";
    let text = lamp("a, b");
    let mut cases: Vec<Case> = [(0, 0), (7, 1), (0, 1), (7, 0), (0, 2), (7, 2)].iter().flat_map(|&(party, primary)| {
        [Habit::Rule, Habit::Shop, Habit::Archive].map(|habit| call(&text, *shared).with_habit(habit).with_party(party, primary))
    }).collect();
    let line = |text: &str, sheet: &str| Case::new(0, LEAST_WORDS, text, sheet);
    cases.extend([
        line("when lamp(3) turns on", "primary,9\r\n"), line("when lamp(3) turns on", "primary,9\r"), line("when scene(3) recalled", "primary,255\r\nadapter,1"),
        line("when lamp(3) turns on", "primary,9\r\r\n"), line("when http trigger", "primary,3\r\nparty,3,7\r\n"), line(&text, "primary,0\r\nlamp,0,1,a, b\r\n"),
        line("when lamp(\"Till\r\") turns on", "primary,0\nlamp,0,7,Till\r\n"), line("when lamp(\"Till\") turns on", "primary,0\nlamp,0,7,Till\r\n"),
        Case { words: 0, ..line("when http trigger", "primary,0\r\r\n") }, Case { text: b"\xff".to_vec(), ..line("", "primary,0\r\n") },
        Case { text: b"\xff".to_vec(), ..line("", "primary,0\n\r") },
    ]);
    cases
}

pub fn cases() -> Vec<Case> {
    let mut cases: Vec<Case> = ENDS.iter().map(|sheet| call(&lamp("Till"), *sheet)).collect();
    cases.extend(ROWS.iter().flat_map(|row| ["\n", "\r\n", ""].map(|end| call(&lamp("a,b,c"), format!("primary,0\n{row}{end}")))));
    cases.extend(LOOKED_UP.iter().map(|name| call(&lamp(name), NAMES)));
    cases.extend(OTHER_KINDS.iter().map(|text| call(text, NAMES)));
    cases.extend(sizes());
    cases.extend(other_calls());
    cases
}
