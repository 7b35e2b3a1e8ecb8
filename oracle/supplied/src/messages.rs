//! The one table that turns the supplied Rust's messages into document 01's numbers and details.
//!
//! A row holds a message as the source writes it, and the words that the source puts in for `{what}`, `{kw}` or
//! `{hint}`; the other gaps are open. Every message that the two sections or `lex` can give fits just one row, from
//! end to end. Messages of the forms outside the domain, and those that are never met, have no row: they stop the run.

use crate::lexer::Pos;
use crate::parser::action::RULE;
use crate::Refusal;
use dali2rust_rules_model::CompileError;
use std::sync::OnceLock;

struct Row {
    number: u32,
    /// The message as the source writes it. The value in its gap `{}` is the detail.
    message: &'static str,
    /// What the source puts into the gap `{what}` or `{kw}`; one empty word where there is no such gap.
    words: &'static [&'static str],
    /// What the source puts into the gap `{hint}`.
    hint: &'static str,
}

const fn plain(number: u32, message: &'static str) -> Row {
    Row { number, message, words: &[""], hint: "" }
}

const fn filled(number: u32, message: &'static str, words: &'static [&'static str]) -> Row {
    Row { number, message, words, hint: "" }
}

const NAMED_KINDS: &[&str] = &["lamp", "group", "device", "input device"];
const QUOTED_KINDS: &[&str] = &["timer name", "rule name", "var name"];
const AMBIGUOUS: &str = "ambiguous {what} \"{name}\": {} targets share the name{hint}";

const ROWS: &[Row] = &[
    plain(10, "unexpected character '{c}'"),
    plain(11, "unterminated string"),
    plain(12, "number too large"),
    plain(13, "invalid time, expected HH:MM"),
    plain(15, "more than 4 decimal places"),
    plain(16, "unknown duration unit \"{unit}\""),
    plain(17, "duration too large"),
    plain(18, "duration finer than 1 ms"),
    filled(20, "expected {what}", SIGNS),
    filled(20, "expected {what}", WORDS_AND_NUMBERS),
    filled(20, "expected `{kw}`", KEYWORDS),
    filled(20, "expected quoted {what}", QUOTED_KINDS),
    filled(20, "expected quoted {what}", &["mqtt topic"]),
    filled(20, "expected {what} name or id", NAMED_KINDS),
    filled(20, "expected {what} duration (e.g. 500ms, 0.7s, 5m)", &["every period", "solar offset", "age"]),
    plain(20, "expected instance type"),
    plain(20, "expected `is`, `becomes` or a property after input(…)"),
    plain(20, "expected `power cycled` or `manual config changed`"),
    plain(20, "expected lamp(…), group(…) or broadcast"),
    plain(20, "expected a number or a value"),
    plain(20, "expected a comparison (==, !=, >=, <=, >, <)"),
    plain(21, "unknown trigger \"{word}\""),
    plain(21, "unknown condition \"{word}\""),
    plain(21, "unknown input event \"{word}\""),
    plain(21, "unknown input argument \"{key}\""),
    plain(21, "unknown instance type \"{word}\""),
    plain(21, "unknown input trigger property \"{prop}\""),
    plain(21, "unknown lamp property \"{prop}\" in a condition"),
    plain(21, "unknown lamp property \"{prop}\""),
    plain(21, "unknown group property \"{prop}\""),
    plain(21, "unknown input property \"{prop}\""),
    plain(21, "unknown time property \"{prop}\""),
    plain(21, "unknown sun property \"{prop}\""),
    plain(21, "unknown event property \"{prop}\""),
    plain(21, "expected HH:MM, sunrise or sunset, got \"{word}\""),
    plain(21, "expected on or off, got \"{word}\""),
    plain(21, "expected up or down, got \"{word}\""),
    plain(21, "expected occupied or vacant, got \"{word}\""),
    plain(21, "expected above or below, got \"{word}\""),
    plain(21, "expected any_on or all_off, got \"{word}\""),
    plain(21, "expected starts or clears, got \"{word}\""),
    plain(21, "expected enabled or overridden, got \"{word}\""),
    filled(22, "{what} must be {min}..={max}, got {value}", RANGED),
    filled(22, "{what} {id} out of range 0..={max}", &["lamp id", "group id"]),
    plain(22, "short address {id} out of range 0..=63"),
    plain(22, "device short address {id} out of range 0..=63"),
    filled(23, "{what} must not be empty", NAMED_KINDS),
    filled(23, "{what} must not be empty", QUOTED_KINDS),
    filled(24, "{what} exceeds {MAX_NAME_BYTES} bytes", NAMED_KINDS),
    filled(24, "{what} exceeds {MAX_NAME_BYTES} bytes", QUOTED_KINDS),
    plain(24, "var text exceeds {MAX_VAR_TEXT_BYTES} bytes"),
    plain(25, "unknown adapter {value}"),
    plain(26, "too many positional input arguments"),
    plain(27, "group addressing excludes dev/inst"),
    plain(28, "expected dev=… or group=…"),
    plain(29, "expected inst=…"),
    plain(30, "instance-group addressing is only for `input(…) is <event>` triggers — use dev=…, inst=…"),
    plain(
        30,
        "this form addresses one instance — use dev=…, inst=… (group addressing is only for `is <event>`)",
    ),
    filled(31, "unknown {what} \"{name}\"", NAMED_KINDS),
    filled(32, "{what} \"{name}\" is on adapter {}, not {adapter}", NAMED_KINDS),
    Row { number: 33, message: AMBIGUOUS, words: NAMED_KINDS, hint: "; rename them apart" },
    Row { number: 34, message: AMBIGUOUS, words: NAMED_KINDS, hint: "; rename them apart or add adapter=N" },
    plain(35, "every period must be at least 1s"),
    plain(36, "solar offset too large"),
    plain(37, "rule \"{rule}\" has more than {MAX_TRIGGERS_PER_RULE} `when` triggers"),
    plain(38, "rule \"{rule}\" needs a `when` trigger"),
    plain(39, "rule \"{rule}\" has more than {MAX_CONDITIONS_PER_RULE} conditions"),
    plain(64, "an mqtt topic is one exact topic: not empty, no `+`, `#`, control character or Unicode noncharacter"),
    plain(65, "mqtt topic exceeds {MAX_MQTT_TOPIC_BYTES} bytes"),
    plain(66, "a document names at most {MAX_MQTT_TRIGGER_TOPICS} mqtt trigger topics"),
];

const SIGNS: &[&str] = &[
    "`(`",
    "`(` after lamp",
    "`(` after group",
    "`(` after device",
    "`(` after input",
    "`(` after scene",
    "`(` after event",
    "`(` after var",
    "`)`",
    "`=` after adapter",
    "`=` after dev",
    "`=` after data",
    "`turns` or `.level`",
    "`..` between time bounds",
    "`is` or a lamp property",
    "`is` or `.light`",
    "`.` and a lamp property",
    "`.` and a group property",
    "`.` and an input property",
    "`.` and a time property",
    "`.` and a sun property",
    "`.` and an event property",
];

const WORDS_AND_NUMBERS: &[&str] = &[
    "a trigger",
    "a condition",
    "an input event",
    "light or position",
    "level or cct",
    "HH:MM, sunrise or sunset",
    "on or off",
    "up or down",
    "occupied or vacant",
    "above or below",
    "any_on or all_off",
    "starts or clears",
    "enabled or overridden",
    "lamp property",
    "group property",
    "input property",
    "time property",
    "sun property",
    "event property",
    "number",
    "offset literal",
    "adapter",
    "inst",
    "group",
    "scene",
    "event data",
    "level threshold",
    "light threshold",
];

const KEYWORDS: &[&str] = &[
    "active", "adapter", "becomes", "changed", "changes", "comes", "config", "crosses", "cycled", "data", "enabled",
    "fails", "fires", "for", "in", "is", "level", "light", "offline", "older", "online", "override", "recalled",
    "running", "than", "trigger",
];

const RANGED: &[&str] =
    &["adapter", "inst", "group", "instance type", "scene", "event data", "level threshold", "light threshold"];

/// A row with its words put in: the number, and the message with only open gaps left.
fn messages() -> &'static [(u32, String)] {
    static MESSAGES: OnceLock<Vec<(u32, String)>> = OnceLock::new();
    MESSAGES.get_or_init(|| ROWS.iter().flat_map(put_in).collect())
}

fn put_in(row: &Row) -> impl Iterator<Item = (u32, String)> + '_ {
    row.words.iter().map(|word| {
        let message = row.message.replace("{what}", word).replace("{kw}", word);
        (row.number, message.replace("{hint}", row.hint).replace("{rule}", RULE))
    })
}

/// The refusal that a message stands for. A message that fits no row, or more than one, stops the run.
pub fn refusal(error: &CompileError) -> Refusal {
    let fitting: Vec<(u32, u32)> = messages()
        .iter()
        .filter_map(|(number, message)| Some((*number, fits(message, &error.message)?)))
        .collect();
    let [(number, detail)] = fitting[..] else {
        panic!("{} rows of the table of messages fit {error:?}", fitting.len());
    };
    Refusal { detail, ..Refusal::at(number, Pos { line: error.line, column: error.column }) }
}

/// Whether the message is one of this number.
pub fn is(number: u32, error: &CompileError) -> bool {
    let fits = |(of, message): &(u32, String)| *of == number && fits(message, &error.message).is_some();
    messages().iter().any(fits)
}

/// If the text is the message with its gaps filled, the detail: the number in the gap `{}`, or 0.
fn fits(message: &str, text: &str) -> Option<u32> {
    let (mut message, mut text, mut detail) = (message, text, 0);
    while let Some((before, rest)) = message.split_once('{') {
        let (gap, after) = rest.split_once('}')?;
        let filling = text.strip_prefix(before)?;
        let length = filled_length(gap, filling);
        if length == 0 {
            return None;
        }
        if gap.is_empty() {
            detail = filling[..length].parse().ok()?;
        }
        (message, text) = (after, &filling[length..]);
    }
    (message == text).then_some(detail)
}

/// How much of the text fills a gap: one character for `{c}`, else as many as can stand there.
fn filled_length(gap: &str, text: &str) -> usize {
    match gap {
        "c" => text.chars().next().map_or(0, char::len_utf8),
        _ => text.find(|c| !belongs(gap, c)).unwrap_or(text.len()),
    }
}

/// Whether a character can stand in a gap: names are free up to the quote, words are words, the rest are numbers.
fn belongs(gap: &str, c: char) -> bool {
    match gap {
        "name" => c != '"',
        "word" | "prop" | "key" | "unit" => c.is_ascii_alphanumeric() || c == '_',
        "" | "adapter" | "id" | "max" | "min" | "value" => c.is_ascii_digit(),
        _ if gap.starts_with("MAX_") => c.is_ascii_digit(),
        _ => panic!("no rule says what stands in the gap {gap:?}"),
    }
}

/// The rows' messages that none of these texts is, for a test.
#[cfg(test)]
pub fn unmet(said: &std::collections::BTreeSet<String>) -> Vec<&'static str> {
    let met = |message: &str| said.iter().any(|text| fits(message, text).is_some());
    messages().iter().map(|(_, message)| message.as_str()).filter(|message| !met(message)).collect()
}

#[cfg(test)]
mod tests {
    use super::*;
    use crate::SOURCES;

    /// Messages of the sources without a row, and why none can be met.
    const NEVER_MET: &[(&str, &str)] = &[
        ("digits expected after decimal point", "a point joins a number only when a digit follows"),
        ("offset {value} out of range", "an integer token is at most 1,000,000,000"),
        ("expected HH:MM", "time_of_day is called only at a time"),
        ("expected a value, got \"{family}\"", "reading is called only at one of its words"),
        ("unknown day \"{word}\"", "outside the domain: days"),
        ("mqtt payload exceeds {MAX_MQTT_PAYLOAD_BYTES} bytes", "outside the domain: payloads"),
        ("duplicate {what} \"{name}\"", "whole rules are not read"),
        ("block \"{name}\" has no actions", "whole rules are not read"),
        ("expected true or false, got \"{word}\"", "whole rules are not read"),
        ("expected `rule` or `def`", "whole rules are not read"),
        ("rule \"{rule}\" has more than {MAX_ACTIONS_PER_RULE} actions", "whole rules are not read"),
        ("rule \"{rule}\" needs at least one action", "whole rules are not read"),
        ("unknown adapter {adapter}", "met, and fits the row of `unknown adapter {value}`"),
    ];

    fn quoted(text: &str) -> String {
        format!("\"{}\"", text.replace('"', "\\\""))
    }

    fn occurs(text: &str) -> bool {
        SOURCES.iter().any(|(_, source)| source.contains(text))
    }

    #[test]
    fn each_message_occurs_in_the_sources() {
        for row in ROWS {
            assert!(occurs(&quoted(row.message)), "{}", row.message);
            let keyword = row.message.contains("{kw}");
            for word in row.words.iter().filter(|word| !word.is_empty()) {
                let call = if keyword { format!("kw({})", quoted(word)) } else { quoted(word) };
                assert!(occurs(&call), "{word}");
            }
            assert!(row.hint.is_empty() || occurs(&quoted(row.hint)), "{}", row.hint);
        }
        assert!(NEVER_MET.iter().all(|(message, _)| occurs(&quoted(message))));
    }

    /// The string literal that the source starts with, behind white space, if it does.
    fn literal(source: &str) -> Option<String> {
        let inside = source.trim_start().strip_prefix('"')?;
        let end = inside.match_indices('"').map(|(i, _)| i).find(|&i| !inside[..i].ends_with('\\'))?;
        Some(inside[..end].replace("\\\"", "\""))
    }

    #[test]
    fn each_message_of_the_sources_has_a_row_or_is_never_met() {
        let mut seen = 0;
        for (_, source) in SOURCES {
            let calls = ["err(", "err_here(", "format!("];
            let behind = |call: &'static str| source.match_indices(call).map(move |(i, _)| &source[i + call.len()..]);
            for message in calls.into_iter().flat_map(behind).filter_map(literal) {
                let known = ROWS.iter().any(|row| row.message == message);
                assert_ne!(known, NEVER_MET.iter().any(|(m, _)| *m == message), "{message}");
                seen += 1;
            }
        }
        assert!(seen > 60, "only {seen} messages were found");
    }

    fn sample(message: &str) -> String {
        let gaps = [("{}", "2"), ("{c}", "'"), ("{name}", "A b: 2"), ("{word}", "on"), ("{prop}", "level")];
        let more = [("{key}", "dev"), ("{unit}", "x"), ("{id}", "64"), ("{min}", "0"), ("{max}", "31")];
        let last = [("{value}", "99"), ("{adapter}", "1"), ("{MAX_NAME_BYTES}", "48"), ("{MAX_VAR_TEXT_BYTES}", "16")];
        let fixed = [("{MAX_TRIGGERS_PER_RULE}", "4"), ("{MAX_CONDITIONS_PER_RULE}", "4")];
        let topics = [("{MAX_MQTT_TOPIC_BYTES}", "48"), ("{MAX_MQTT_TRIGGER_TOPICS}", "8")];
        let all = gaps.into_iter().chain(more).chain(last).chain(fixed).chain(topics);
        all.fold(message.to_owned(), |text, (gap, filling)| text.replace(gap, filling))
    }

    #[test]
    fn each_message_fits_only_its_own_row() {
        for (number, message) in messages() {
            let error = CompileError::at(3, 4, sample(message));
            let detail = if message.contains("{}") { 2 } else { 0 };
            assert_eq!(refusal(&error), Refusal { number: *number, line: 3, column: 4, detail }, "{message}");
        }
    }

    #[test]
    #[should_panic(expected = "0 rows of the table of messages fit")]
    fn a_message_without_a_row_stops_the_run() {
        refusal(&CompileError::at(1, 1, "expected HH:MM"));
    }
}
