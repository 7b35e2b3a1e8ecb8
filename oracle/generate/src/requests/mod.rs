//! Fixed cases for the requests of document 02, to be stored behind the sample of document 01.

mod conversions;
mod days;
mod joins;
mod layout;
mod profile;
mod sheets;
mod writings;

pub use conversions::conversions as stored_conversions;
pub use joins::joins as stored_joins;
pub use layout::LAYOUTS;
pub use writings::writings as stored_writings;

use cases::{Case, Habit, Settings, FORMER_LEAST_WORDS, LEAST_WORDS, MOST_TOKENS, MOST_WORDS};

/// The cases of every request that has landed, in the order of their landing.
pub fn requests() -> Vec<Case> {
    let mut cases = durations();
    cases.extend(records());
    cases.extend(repeats());
    cases.extend(parties());
    cases.extend(topics());
    cases.extend(profile::cases());
    cases.extend(sheets::cases());
    cases.extend(days::cases());
    cases.extend(layout::cases());
    cases
}

const SHEET: &[u8] = b"primary,0\n";

fn case(words: usize, text: String) -> Case {
    Case::new(0, words, text, SHEET)
}

/// §2: long zeros, small digits behind them, and what stands beside them.
fn durations() -> Vec<Case> {
    let zeros = |count: usize| "0".repeat(count);
    let every = |duration: String| format!("when every {duration}");
    let solar = |sign: &str, duration: String| format!("when at sunset {sign} {duration}");
    let older = |duration: String| format!("when http trigger if last_fired(\"a\") older than {duration}");
    let mut texts: Vec<String> = ["ms", "s", "m", "h"].iter().map(|unit| every(format!("1000.{}{unit}", zeros(20)))).collect();
    texts.extend([
        every(format!("1.{}s", zeros(19))),
        every(format!("1.{}s 0.{}s", zeros(300), zeros(39))),
        every(format!("1.{}s", zeros(1_000))),
        every(format!("60.{}s", zeros(1_200))),
        every(format!("1.{}x", zeros(20))),
        every(format!("1.{}sec", zeros(39))),
        every(format!("1.{}", zeros(20))),
        every(format!("1.{}.{}s", zeros(20), zeros(20))),
        every(format!("0.{}s", zeros(20))),
        every(format!("999.{}ms", zeros(20))),
        every(format!("0.{}1s", zeros(28))),
        every(format!("1.{}1000000000s", zeros(20))),
        every(format!("1.{}1000000001s", zeros(20))),
        every(format!("1193.{}h if sun is up", zeros(10))),
        every(format!("1194.{}h", zeros(10))),
        every(format!("1000000000.{}ms", zeros(16))),
        every(format!("1000000001.{}ms", zeros(20))),
        every(format!("4294967.{}s", zeros(20))),
        every(format!("4294968.{}s", zeros(20))),
        solar("-", format!("2147483.{}s", zeros(20))),
        solar("+", format!("2147484.{}s", zeros(20))),
        solar("-", format!("597.{}h", zeros(40))),
        solar("-", format!("35791.{}m on mon", zeros(64))),
        older(format!("0.{}h", zeros(20))),
        older(format!("71582.{}m", zeros(257))),
        older(format!("71583.{}m", zeros(257))),
        format!("when http trigger if time in sunrise + 1.{}h..sunset - 596.{}h", zeros(20), zeros(21)),
        format!("1.{}s @", zeros(20)),
        format!("@ 1.{}s", zeros(20)),
    ]);
    texts.extend([
        "1.500000000s", "1.5000000000s", "1.1000000001s", "1.1000000000s", "4294967.295000000s", "4294967.2951s", "4294967.296s",
        "71582.788250000m", "71582.78826m", "71582.7883m", "1193.046472500h", "1193.046475000h", "1000000000.000000001h",
        "1000000000.00001h", "1000000000.0000h", "0.0000025h", "0.00001000000000h", "0.000001000000000h", "1844.0000000000000000s",
        "1845.0000000000000000s", "18446744.073709552s",
    ].map(|duration| older(duration.to_string())));
    texts.into_iter().map(|text| case(FORMER_LEAST_WORDS, text)).collect()
}

/// §5: buffers around the least one and around the former, all of it in use, and places as far as they go.
fn records() -> Vec<Case> {
    let good = "when controller starts";
    let sizes = [LEAST_WORDS - 1, LEAST_WORDS, LEAST_WORDS + 1, FORMER_LEAST_WORDS - 1, FORMER_LEAST_WORDS, MOST_WORDS];
    let texts = [good, "if sun is up"];
    let mut cases: Vec<Case> = sizes.iter().flat_map(|&words| texts.map(|text| case(words, text.to_string()))).collect();
    let full = format!("when http trigger when input({}dev=1,inst=2) is press", "dev=9,".repeat(252));
    cases.extend([
        Case { sheet: b"primary".to_vec(), ..case(LEAST_WORDS - 1, good.to_string()) },
        case(LEAST_WORDS, full),
        case(LEAST_WORDS, "(".repeat(MOST_TOKENS + 1)),
    ]);
    // A line or column past 255, and both; then the last ones there are, of a token and of the end.
    let at = |lines: usize, spaces: usize, text: &str| format!("{}{}{text}", "\n".repeat(lines), " ".repeat(spaces));
    cases.extend([
        at(255, 0, "when http trigger"), at(256, 255, good), at(0, 255, "when"), at(300, 400, "when lamp(\"\u{e9}\") turns on"),
        at(16_383, 0, "("), at(0, 16_383, "("), at(16_384, 0, ""), at(0, 16_384, ""),
    ].map(|text| case(LEAST_WORDS, text)));
    cases
}

/// A sheet with an input device's name on one adapter, on two, and twice on one.
const INPUTS: &[u8] = b"primary,2\nadapter,2\nadapter,3\ninput,3,9,one\ninput,2,1,two\ninput,3,2,two\ninput,2,4,twice\n\
input,2,5,twice\n";

/// Arguments that repeat one, and some beside them.
const REPEATS: &[&str] = &[
    // Each of the five, with another value and with the same.
    "dev=3, dev=5, inst=0", "dev=1, dev=1, inst=2", "dev=1, inst=2, inst=3", "group=1, group=2", "group=1, group=1, type=3",
    "group=1, type=2, type=light", "type=light, group=1, type=light", "group=1, adapter=3, adapter=2",
    "adapter=3, dev=\"two\", inst=1, adapter=3",
    // Unnamed ones among them, up to the third.
    "1, dev=3, inst=2", "dev=1, 3, inst=2", "dev=1, \"one\", inst=2", "inst=2, dev=\"one\", \"two\"", "1, 2, inst=3", "1, inst=3, 2",
    "inst=3, 1, 2", "inst=3, 1, 7:05", "dev=1, inst=2, 3", "1, 2, 3", "1, 2, 3, dev=4", "1, 2, 3, type=1, type=1",
    "1, 2, foo, inst=4, inst=5", "1, 2, dev=3, 4", "inst=1, 2, inst=3, 4, 5", "1, 2, dev=",
    // A comma before `)`, and what is no key.
    "1,", "inst=1,", "group=1,", "dev=1,", "1, inst=2,", "1, 2,", "dev=1,,inst=2", "1, inst=2,,", "dev=1, inst", "dev=1, dev 2",
    "dev=1, dev==2", "dev=1, foo", "dev=1, foo=2", "foo=1, foo=2", "dev=1, =2",
    // A wrong value behind the repeat.
    "dev=1, dev=", "dev=1, dev=\"\"", "dev=1, \"\"", "inst=1, inst=99", "inst=1, inst=\"a\"", "type=1, type=foo", "type=1, type=32",
    "group=1, group=32", "adapter=2, adapter=77", "adapter=3, adapter=256", "adapter=2, adapter=0", "inst=1, dev=1, inst=2, type=foo",
    "type=1, type=foo, dev=1, inst=2", "dev=1, inst=2, dev=\"\"",
    // And before it.
    "dev=, dev=1", "inst=\"\", dev=1, dev=1", "inst=\"a\", inst=1", "dev=\"\", dev=1", "dev=\"\", inst=1, dev=\"\"", "inst=99, inst=1",
    "group=32, group=1", "type=foo, type=1", "foo=1, dev=1, dev=1", "adapter=77, adapter=2", "adapter=0, dev=1, dev=2, inst=3",
    // What the archive call asks behind `)`.
    "dev=64, dev=63, inst=1", "dev=63, dev=64, inst=1", "64, 1, inst=1", "group=1, dev=1, dev=2", "dev=1, inst=2, group=1, group=1",
    "inst=1, inst=2", "type=1, inst=2, type=1", "dev=1, dev=2", "1, dev=2", "dev=\"no\", inst=1, inst=2", "dev=1, inst=1, dev=\"no\"",
    "dev=\"one\", inst=1, adapter=2, adapter=2", "dev=1, dev=\"one\", inst=1, adapter=2", "dev=\"two\", inst=1, inst=1",
    "\"two\", 1, type=1, type=1", "dev=\"two\", inst=1, adapter=2, adapter=3", "dev=\"twice\", inst=1, inst=1",
    "\"twice\", 1, adapter=2, adapter=2",
];

/// Whole texts: the end, several parentheses, other forms than events, and references, where nothing can repeat.
const TEXTS_WITH_REPEATS: &[&str] = &[
    "when input(dev=1,", "when input(dev=1, # \u{e9}", "when input(1, inst=2,\n\n ", "when input(1,2,", "when input(1,",
    "when input(dev=1, dev", "when input(dev=1, dev=", "when input(dev=1, dev=2 @",
    "when input(1, 2) is press when input(1, 2) is press",
    "when input(dev=1, inst=2) is press if input(dev=1, inst=2) is occupied", "when input(group=1, group=2) becomes occupied",
    "when input(group=1, type=2, type=2).light crosses above 5", "when input(1, 2, dev=3) becomes vacant when",
    "when input(1, dev=3, inst=2) is foo", "when input(1, dev=3, inst=2) is press then",
    "when input(1, dev=3, inst=2) is press when every 999ms", "when input(1, 2, type=3, type=3).position changes",
    "when http trigger if input(1, 2, dev=3) is occupied",
    "when http trigger if sun is up and input(dev=1, inst=2, inst=3).light below 5",
    "when http trigger if var(\"v\") == input(1, 2, inst=3).light",
    "when http trigger if lamp(1).level > input(\"one\", 2, adapter=3, adapter=3).position + 5",
    "when lamp(1, adapter=2, adapter=2) turns on", "when input device(5, adapter=2, adapter=2) power cycled",
    "when scene(5, adapter=2, adapter=2) recalled", "when input device(dev=5, dev=5) power cycled",
];

/// §11: repeats of every argument, and what stands beside them, each as the default call and as the archive call.
fn repeats() -> Vec<Case> {
    let long = "a".repeat(49);
    let names = [
        format!("dev=1, dev=\"{long}\""), format!("dev=1, \"{long}\""), format!("dev=\"{long}\", dev=1"), format!("1, 2, dev=\"{long}\""),
        format!("dev=\"{long}\", inst=1, inst=1"),
    ];
    let arguments = REPEATS.iter().map(|arguments| arguments.to_string()).chain(names);
    let events = arguments.map(|arguments| format!("when input({arguments}) is press"));
    let texts = events.chain(TEXTS_WITH_REPEATS.iter().map(|text| text.to_string()));
    let call = |habit: Habit, text: &str| {
        Case { settings: Some(Settings::plain(habit, INPUTS)), ..Case::new(0, LEAST_WORDS, text, INPUTS) }
    };
    texts.flat_map(|text| [Habit::Rule, Habit::Archive].map(|habit| call(habit, &text))).collect()
}

/// The grocer's adapters 0, 2, 4 and 5, and the baker's, party 7: 1 and 3. Names on one side, on both, on one adapter and on two;
/// a row above the party row of its adapter, a party row of party 0, and one of an adapter that nothing else names.
const SHARED: &[u8] = b"primary,0\nadapter,0\nlamp,1,7,Till\nadapter,1\nadapter,2\nadapter,3\nparty,1,7\nparty,3,7\nparty,4,0\n\
party,9,7\nlamp,0,8,Till\nlamp,1,9,Oven\nlamp,1,10,Bread\nlamp,1,11,Bread\nlamp,1,12,Ovens\nlamp,3,13,Ovens\nlamp,1,3,Twice\n\
lamp,0,1,Twice\nlamp,0,2,Twice\nlamp,3,5,Wide\nlamp,0,4,Wide\nlamp,2,6,Wide\ngroup,2,6,Wide\ninput,1,6,Door\ninput,0,7,Door\n";

/// Calls on that sheet: of both, with primaries of their own, and with others (53).
const OWN_PRIMARIES: &[(u8, u8)] = &[(0, 0), (7, 1)];
const OTHER_PRIMARIES: &[(u8, u8)] = &[(0, 1), (0, 9), (7, 0), (7, 4), (7, 255), (3, 0), (255, 200)];

/// References to lamps: what each party has, has not, has once or more often, with each adapter.
const LAMPS: &[&str] = &[
    "\"Till\"", "\"Till\", adapter=0", "\"Till\", adapter=1", "\"Till\", adapter=2", "\"Till\", adapter=3", "\"Oven\"",
    "\"Oven\", adapter=1", "\"Oven\", adapter=2", "\"Bread\"", "\"Bread\", adapter=1", "\"Ovens\"", "\"Ovens\", adapter=3",
    "\"Twice\"", "\"Twice\", adapter=0", "\"Twice\", adapter=2", "\"Wide\"", "\"Wide\", adapter=2", "\"Wide\", adapter=3",
    "\"Nobody\", adapter=1", "3", "3, adapter=1", "3, adapter=3", "64, adapter=1", "64, adapter=0", "3, adapter=4",
    "3, adapter=5", "3, adapter=9", "3, adapter=256", "64",
];

/// Texts that name no adapter, for the primary of each call.
const WITHOUT_ADAPTERS: &[&str] = &[
    "when scene(3) recalled when lamp(5) turns on", "when input(group=4) is press when input(5, 6) is press",
    "when input(group=4, type=light) is any_event if device(8) is online", "when hcl override clears for broadcast",
    "when device(63) goes offline if hcl is enabled for broadcast",
    "when input device(5) power cycled if var(\"v\") == lamp(9).level",
    "when group(7) becomes all_off if lamp(1) is on and lamp(2).cct < input(3, 4).light + 5", "when input(\"Door\", 2) is press",
];

/// Texts with adapters and names of either party, in other places than a first trigger's lamp, and with a fault behind them.
const OTHER_PLACES: &[&str] = &[
    "when scene(3, adapter=1) recalled", "when scene(16, adapter=1) recalled", "when input(group=3, adapter=1) is press",
    "when input(adapter=1, dev=64, inst=1) is press", "when input(\"Door\", 2, adapter=1) is press",
    "when input(\"Door\", 2, adapter=0) is press", "when input device(\"Door\", adapter=3) power cycled",
    "when group(\"Wide\") becomes any_on", "when hcl override starts for group(\"Wide\", adapter=1)",
    "when lamp(3, adapter=1) turns up", "when lamp(\"Oven\", adapter=1) turns on when every 5ms",
    "when http trigger if lamp(\"Bread\") is on", "when http trigger if sun is up and lamp(\"Ovens\") is on",
    "when http trigger if var(\"v\") == lamp(\"Wide\").level", "when lamp(\"Till\") turns on then",
];

/// Texts beside 53: good, refused by the lexer, and refused later.
const BESIDE_53: &[&str] = &["when http trigger", "when @", "when lamp(\"Nobody\") turns on"];

/// Rows behind `primary,0`, with the party and the primary of a call on them.
const PARTY_SHEETS: &[(&str, u8, u8)] = &[
    // The primary: without any row, of a party row alone, of others.
    ("", 0, 200), ("", 0, 255), ("", 3, 0), ("", 3, 200), ("party,9,3\n", 3, 9), ("party,9,3\n", 0, 9), ("party,9,3", 3, 0),
    ("party,0,3\n", 0, 0), ("party,0,3\n", 0, 1), ("party,0,3\n", 3, 0), ("party,255,255\n", 255, 255),
    ("party,0,255\nadapter,0\nlamp,0,5,b\n", 255, 0), ("party,0,0\n", 0, 0),
    // What a second row for an adapter says, where it stands, and what is bad before it.
    ("party,1,7\nparty,1,7\n", 0, 0), ("party,1,0\nlamp,1,1,b\nparty,1,0", 0, 0), ("party,1,7\nparty,1,8\n", 7, 1),
    ("party,1,0\nparty,2,7\nparty,1,7\n", 0, 0), ("party,1,7\nparty,1,0\n", 0, 0),
    ("party,0,255\nadapter,1\nparty,0,0\n", 255, 0), ("party,1,7\nparty,1,\nparty,1,7\n", 0, 0),
    ("party,1,7\nparty,11,7\nparty,7,1\n", 0, 0),
    // What the numbers of a row may be.
    ("party,1,01\n", 0, 0), ("party,1,256\n", 0, 0), ("party,256,1\n", 0, 0), ("party,01,1\n", 0, 0), ("party,1,\n", 0, 0),
    ("party,1\n", 0, 0), ("party,1,2,3\n", 0, 0), ("party,1,-1\n", 0, 0), ("party,1,10\n", 10, 1), ("Party,1,2\n", 0, 0),
    ("party,1,7\nadapter,256\n", 7, 1),
    // Names and adapters on either side of a party row.
    ("lamp,1,7,b\nparty,1,7\n", 0, 0), ("lamp,1,7,b\nparty,1,7\n", 7, 1),
    ("lamp,1,7,b\nadapter,1\nparty,1,7\nlamp,1,8,b\nlamp,0,9,b\n", 7, 1),
    ("lamp,1,7,b\nadapter,1\nparty,1,7\nlamp,1,8,b\nlamp,0,9,b\n", 0, 0),
];

/// §6: party rows, calls of both parties and of neither, and primaries of their own, of others and of nobody.
fn parties() -> Vec<Case> {
    let on = |sheet: &[u8], (party, primary): (u8, u8), text: &str| {
        Case::new(0, LEAST_WORDS, text, sheet).with_habit(Habit::Rule).with_party(party, primary)
    };
    let lamps = LAMPS.iter().map(|lamp| format!("when lamp({lamp}) turns on"));
    let texts = lamps.chain([WITHOUT_ADAPTERS, OTHER_PLACES].concat().into_iter().map(String::from));
    let mut cases: Vec<Case> = texts.flat_map(|text| OWN_PRIMARIES.iter().map(move |&call| on(SHARED, call, &text))).collect();
    cases.extend(WITHOUT_ADAPTERS.iter().flat_map(|text| [(0, 2), (7, 3)].map(|call| on(SHARED, call, text))));
    cases.extend(BESIDE_53.iter().flat_map(|text| OTHER_PRIMARIES.iter().map(|&call| on(SHARED, call, text))));
    for (rows, party, primary) in PARTY_SHEETS {
        cases.push(on(format!("primary,0\n{rows}").as_bytes(), (*party, *primary), "when lamp(\"b\") turns on when scene(3) recalled"));
    }
    cases.extend(unlisted_primaries());
    cases.extend(first_questions());
    cases.extend(most_party_rows());
    // A `case` line has party 0 and the sheet's own primary, here of others and of party 0.
    let sheets = [
        "primary,0\nparty,0,3", "primary,1\nparty,1,7\n", "primary,2\nparty,1,7\n",
        "primary,4\nparty,1,7\nparty,4,0\nlamp,4,7,b\nlamp,1,7,b\n",
    ];
    cases.extend(sheets.map(|sheet| Case::new(0, LEAST_WORDS, "when lamp(\"b\") turns on", sheet)));
    cases
}

/// A primary is not thereby listed.
fn unlisted_primaries() -> [Case; 3] {
    [(0, 1), (0, 200), (7, 2)].map(|(party, primary)| {
        let text = format!("when lamp(3, adapter={primary}) turns on");
        Case::new(0, LEAST_WORDS, text, b"primary,0\nparty,2,7\n".as_slice()).with_habit(Habit::Rule).with_party(party, primary)
    })
}

/// Questions 1 to 4 come before 53.
fn first_questions() -> Vec<Case> {
    let case = |words: usize, text: &[u8], sheet: &[u8]| Case::new(0, words, text, sheet).with_habit(Habit::Rule).with_party(0, 1);
    vec![
        case(LEAST_WORDS, &[b' '; 16_385], SHARED), case(0, b"when", SHARED), case(LEAST_WORDS - 1, b"\xff", SHARED),
        case(LEAST_WORDS, b"when \xff", SHARED), case(LEAST_WORDS, b"\xc3", b"primary,0\nparty,1,7"),
        case(LEAST_WORDS, b"\xff", b"primary,0\nparty,1,7\n\n"),
    ]
}

/// A party row for each adapter, with 512 rows in all and with one more.
fn most_party_rows() -> Vec<Case> {
    let parties: String = (0..256).map(|adapter| format!("party,{adapter},{}\n", adapter % 3)).collect();
    let listed: String = (0..255).map(|adapter| format!("adapter,{adapter}\n")).collect();
    let sheet = |rows: [&str; 3]| format!("primary,0\n{}", rows.concat());
    let last = "lamp,1,5,b\n";
    let call = |sheet: String, party: u8, text: &str| {
        Case::new(0, LEAST_WORDS, text, sheet).with_habit(Habit::Rule).with_party(party, party)
    };
    vec![
        call(sheet([&parties, &listed, last]), 1, "when lamp(\"b\", adapter=1) turns on"),
        call(sheet([&listed, last, &parties]), 2, "when lamp(\"b\", adapter=254) turns on"),
        call(sheet([&listed, last, &(parties.clone() + "party,3,0\n")]), 0, "when http trigger"),
        call(sheet([&parties, &listed, &(last.to_string() + "party,3,9")]), 0, "when http trigger"),
    ]
}

/// So many lent topics: `1`, `2` and so on, one a line.
fn numbered(count: usize) -> String {
    (1..=count).map(|topic| topic.to_string()).collect::<Vec<_>>().join("\n")
}

fn lending(lent: &[u8], text: &str) -> Case {
    Case::new(0, LEAST_WORDS, text, SHEET).with_habit(Habit::Rule).with_topics(lent)
}

/// §12: topics of every kind, what follows them, and their count with lent ones.
fn topics() -> Vec<Case> {
    let mut cases = single_topics();
    cases.extend(behind_topics());
    cases.extend(counted_topics());
    cases.extend(lent_lines());
    cases.extend(topics_of_other_calls());
    cases
}

/// One topic: each class's ends and what stands beside them, the ends of all planes, and lengths around 48 bytes.
fn single_topics() -> Vec<Case> {
    let mut topics: Vec<String> = [
        "", "a", "shop/till 4/closing", "+", "#", "a+", "+/b", "a/#", "\u{0}", "a\u{0}", "\t", "\r", "a\r", "\u{1f}", "a\u{1f}", "\u{7f}",
        "\u{7f}a", "\u{80}", "\u{85}", "\u{9f}", "a\u{9f}", "\u{fdd0}", "a\u{fdd0}", "\u{fdde}", "\u{fdef}", "\u{fdef}b", "\u{fddf}/", " ", "a ",
        "~", "a~", "\u{a0}", "\u{a0}b", "\u{ad}", "\u{2028}", "\u{feff}", "\u{fdcf}", "a\u{fdcf}", "\u{fdf0}", "\u{fdf0}a", "\u{fffd}", "b\u{fffd}",
        "\u{10000}", "\u{1fdd0}", "\u{ff0b}", "+#", "$SYS", "*", "\u{e9}",
    ].map(String::from).to_vec();
    let plane = |plane: u32, offset: u32| char::from_u32(plane * 0x1_0000 + offset).map(String::from);
    topics.extend((0..17).flat_map(|n| [plane(n, 0xFFFE), plane(n, 0xFFFF)]).flatten());
    topics.extend((1..17).filter_map(|n| plane(n, if n % 2 == 0 { 0 } else { 0xFFFD })));
    let (a, wide) = (|count: usize| "a".repeat(count), "\u{e9}".repeat(24));
    topics.extend([
        a(47), a(48), a(49), a(50), a(300), wide.clone(), format!("{wide}x"), format!("x{wide}"), "\u{1f4a1}".repeat(12),
        "\u{1f4a1}".repeat(12) + "x", "\u{65e5}".repeat(16), a(60) + "+", format!("#{}", a(48)), a(47) + "+", a(48) + "\u{fffe}",
    ]);
    topics.iter().map(|topic| lending(b"", &format!("when mqtt \"{topic}\""))).collect()
}

/// What stands in the place of a topic and behind one, without lent topics and with eight.
fn behind_topics() -> Vec<Case> {
    let long = "a".repeat(49);
    let long = [format!("mqtt \"{long}\" is \"b\""), format!("mqtt \"{long}\" is"), format!("mqtt \"{long}\"")];
    let texts = [
        "mqtt", "mqtt # \"a\"", "mqtt a", "mqtt when", "mqtt is", "mqtt is \"a\"", "mqtt 5", "mqtt(\"a\")", "mqtt 7:05", "mqtt . \"a\"", "Mqtt \"a\"",
        "mqtt \"a", "mqtt \"a\" is", "mqtt \"a\" is \"b\"", "mqtt \"a\" is \"\"", "mqtt \"a\" is foo", "mqtt \"a\" is 5", "mqtt \"a\"\n is # c",
        "mqtt \"1\" is \"b\"", "mqtt \"1\" is", "mqtt \"\" is", "mqtt \"a+\" is \"b\"", "mqtt \"\"", "mqtt \"+\" foo", "mqtt \"a\" foo", "mqtt \"1\" foo",
        "mqtt \"a\" \"b\"", "mqtt \"a\" is @", "mqtt \"a\" if lamp(", "mqtt \"1\" if lamp(", "mqtt \"a\" if sun is up", "mqtt \"1\" if sun is up",
        "mqtt \"1\" when mqtt \"a\" is \"b\"", "mqtt \"a\" when mqtt \"b\" is \"c\"", "mqtt \"a\" when mqtt \"\"", "mqtt \"a\" when every 5ms",
        "every 5ms when mqtt \"a\"", "http trigger if mqtt \"a\"", "http trigger when http trigger when http trigger when mqtt \"a\"",
        "http trigger when http trigger when http trigger when http trigger when mqtt \"a\"", "http trigger if mqtt", "mqtt \"a\" mqtt \"b\"",
    ];
    let texts = texts.iter().map(|text| text.to_string()).chain(long);
    texts.flat_map(|text| ["".to_string(), numbered(8)].map(|lent| lending(lent.as_bytes(), &format!("when {text}")))).collect()
}

/// The topics of up to four triggers, with five to ten lent ones and with none; the letters are not lent, digits are.
fn counted_topics() -> Vec<Case> {
    let texts = [
        "a", "1", "1 a", "a b", "a a b", "a b a", "a a a a", "a b c d", "d c b a", "1 a b c", "a 1 2 3", "1 2 3 a", "1 2 3 4", "a b c c",
    ];
    let written = |topics: &str| topics.split(' ').map(|topic| format!("when mqtt \"{topic}\"")).collect::<Vec<_>>().join(" ");
    let lent = |count: usize| texts.map(|topics| lending(numbered(count).as_bytes(), &written(topics)));
    [0, 5, 6, 7, 8, 9, 10].into_iter().flat_map(lent).collect()
}

/// Lent bytes with repeats, empty lines, a last LF, CR, and lines that no text could name.
fn lent_lines() -> Vec<Case> {
    let long = "x".repeat(60);
    let seven = numbered(7);
    let mut lists: Vec<Vec<u8>> = [
        "", "\n", "\n\n\n", "1\n2\n3\n4\n5\n6\n7\n", "\n1\n2\n3\n4\n5\n6\n7", "1\n\n2\n\n3\n4\n5\n6\n7", "1\n2\n3\n4\n5\n6\n7\n\n\n",
        "1\n1\n2\n3\n4\n5\n6\n7", "1\n2\n3\n4\n5\n6\n7\n1\n2\n3\n4\n5\n6\n7\n", "1\n2\n3\n4\n5\n6\n7\n8\n8\n", "1\n2\n3\n4\n5\n6\n7\n1\n7\n",
        "a\n2\n3\n4\n5\n6\n7\n8\n9", "1\r\n2\r\n3\r\n4\r\n5\r\n6\r\n7\r\n8\r\n", "1\r\n2\r\n3\r\n4\r\n5\r\n6\r\n7\r\n", "\r\n\r\n1\n2\n3\n4\n5\n6",
        "11\n12\n13\n14\n15\n16\n17\n18", "A\n2\n3\n4\n5\n6\n7\n8",
    ].map(|lent| lent.as_bytes().to_vec()).to_vec();
    let odd: [&[u8]; 14] = [
        b"\r", b"a\r", b"1\r", b"+", b"a#", b" ", b"\0", "\u{85}".as_bytes(), "\u{10ffff}".as_bytes(), long.as_bytes(), b"\xff", b"a\xc3",
        b"\"a\"", b"\xed\xa0\x80",
    ];
    lists.extend(odd.iter().flat_map(|&line| [[seven.as_bytes(), b"\n", line].concat(), [line, b"\n", seven.as_bytes(), b"\n"].concat()]));
    lists.push(numbered(400).into_bytes());
    let texts = ["when mqtt \"a\"", "when mqtt \"1\" when mqtt \"a\" when mqtt \"a\" when mqtt \"b\""];
    let mut cases: Vec<Case> = lists.iter().flat_map(|lent| texts.map(|text| lending(lent, text))).collect();
    cases.extend(["+", "a\r", "\u{fdd0}", &long].map(|topic| {
        lending(format!("{topic}\n1\n2").as_bytes(), &format!("when mqtt \"{topic}\""))
    }));
    cases.extend([9, 10, 11].map(|count| lending(numbered(count).as_bytes(), "when http trigger")));
    let raw: [(&[u8], &str); 3] = [(b"\xff\n1\n\x80\n2", "1"), (b"\xc3\xa9\n\xc3", "\u{e9}"), (b"\xc3\n\xa9", "\u{e9}")];
    cases.extend(raw.map(|(lent, topic)| lending(lent, &format!("when mqtt \"{topic}\""))));
    // As many bytes as a call of the replay format lends, of eight topics.
    let most: Vec<u8> = numbered(8).into_bytes().into_iter().chain(*b"\n").cycle().take(cases::MOST_BYTES).collect();
    cases.push(lending(&most, "when mqtt \"8\" when mqtt \"a\""));
    cases
}

/// Topics do not hang on the habit, the party or the primary, and the first questions come before them.
fn topics_of_other_calls() -> Vec<Case> {
    let texts = [
        "when mqtt \"a\"", "when mqtt \"7\" when mqtt \"a\" foo", "when mqtt \"7\"", "when mqtt \"\"", "when mqtt \"a\" is \"b\"",
        "when mqtt \"7\" when input(dev=1, dev=2, inst=3) is press", "when input(dev=1, dev=2, inst=3) is press when mqtt \"a\"",
    ];
    let call = |text: &str, sheet: &[u8]| Case::new(0, LEAST_WORDS, text, sheet).with_topics(numbered(8));
    let mut cases: Vec<Case> = texts.iter().flat_map(|text| [call(text, SHEET), call(text, SHARED).with_habit(Habit::Rule).with_party(7, 1)]).collect();
    cases.extend([
        call("when mqtt \"a\"", SHARED).with_party(0, 1), call("when mqtt \"a\"", b"primary"), Case { words: 0, ..call("when mqtt \"a\"", SHEET) },
        Case { text: b"when mqtt \"a\xff\"".to_vec(), ..call("", SHEET) },
    ]);
    // A `case` line lends none.
    cases.extend(["when mqtt \"a\" when mqtt \"b\"", "when mqtt \"a\" is", "when mqtt \"a+\"", "when mqtt"].map(|text| case(LEAST_WORDS, text.to_string())));
    cases
}
