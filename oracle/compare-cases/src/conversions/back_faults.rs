//! Readers with a seeded fault against document 02 §10, lists to rows: what a hurried port may do. Each is the right way but for one step.

use super::asked::Given;
use super::back::{named_lines, picks, Ask, Entry, Line, Said, Way, RIGHT};
use crate::parties::whose;
use cases::{own_primary, Conversion};
use Ask::{Count, Entries, Names, Primary, Room, Sheet};

/// Whether the line is about the reference, with its words changed first.
fn about_changed(entry: &Entry, line: &Line, change: fn(Entry) -> Entry) -> bool {
    (RIGHT.is_about)(&change(*entry), line)
}

/// Whether the adapter of a line is the party's, and whether it is listed.
fn of(given: &Given, line: &Line) -> (bool, bool) {
    whose(&given.conversion.sheet, given.conversion.party, &String::from_utf8_lossy(line.adapter))
}

/// How many lines of the sheet are like this one.
fn like(given: &Given, line: &Line, is: impl Fn(&Line, &Line) -> bool) -> usize {
    named_lines(&given.conversion.sheet).iter().filter(|other| is(other, line)).count()
}

fn same_name(one: &Line, other: &Line) -> bool {
    one.kind == other.kind && one.name == other.name
}

fn same(one: &Line, other: &Line) -> bool {
    same_name(one, other) && one.adapter == other.adapter
}

fn right_line(given: &Given, entry: &Entry, line: &Line) -> bool {
    (RIGHT.is_written)(given, entry, line)
}

/// What is right but for its name, which is the only one on its adapter.
fn alone(given: &Given, line: &Line) -> bool {
    !line.name.contains(&b',') && like(given, line, same) == 1
}

/// The right row with another field.
fn with_field(given: &Given, entry: &Entry, line: &Line, at: usize, field: impl Into<Vec<u8>>) -> Vec<u8> {
    let row = (RIGHT.row)(given, entry, line);
    let mut fields: Vec<Vec<u8>> = row[..row.len() - 1].split(|&byte| byte == b',').map(<[u8]>::to_vec).collect();
    fields[at] = field.into();
    [&fields.join(&b',')[..], b"\n"].concat()
}

fn without_adapter_if(is: bool, given: &Given, entry: &Entry, line: &Line) -> Vec<u8> {
    if is { with_field(given, entry, line, 2, "") } else { (RIGHT.row)(given, entry, line) }
}

fn in_order(given: &Given, entry: &Entry, line: &Line, order: [usize; 4]) -> Vec<u8> {
    let row = (RIGHT.row)(given, entry, line);
    let fields: Vec<&[u8]> = row[..row.len() - 1].split(|&byte| byte == b',').collect();
    [&order.map(|at| fields[at]).join(&b',')[..], b"\n"].concat()
}

/// The place of the line that comes first by this.
fn least<T: Ord>(lines: &[Line], by: impl Fn(&Line) -> T) -> usize {
    (0..lines.len()).min_by_key(|&at| by(&lines[at])).unwrap_or(0)
}

/// These without those that stand before them too.
pub fn once<T: PartialEq>(all: Vec<T>) -> Vec<T> {
    all.into_iter().fold(Vec::new(), |mut known, one| { if !known.contains(&one) { known.push(one) } known })
}

/// The right answer with other rows.
fn with_rows(conversion: &Conversion, said: Said, change: impl Fn(Vec<&[u8]>) -> Vec<u8>) -> String {
    match said {
        Ok(rows) => (RIGHT.said)(conversion, Ok(&change(rows.split_inclusive(|&byte| byte == b'\n').collect()))),
        refused => (RIGHT.said)(conversion, refused),
    }
}

/// The right answer with another number and line of a refusal.
fn refused_as(conversion: &Conversion, said: Said, change: impl Fn(u32, usize) -> (u32, usize)) -> String {
    (RIGHT.said)(conversion, said.map_err(|(number, line)| change(number, line)))
}

/// The right answer, in such cases with one part replaced.
fn said_if(conversion: &Conversion, said: Said, is: bool, from: &str, to: &str) -> String {
    let answer = (RIGHT.said)(conversion, said);
    if is { answer.replace(from, to) } else { answer }
}

pub const FAULTS: &[(&str, Way)] = &[
    // The order of the questions.
    ("54 first", Way { order: [Room, Sheet, Primary, Count, Entries, Names], ..RIGHT }),
    ("54 before 53", Way { order: [Sheet, Room, Primary, Count, Entries, Names], ..RIGHT }),
    ("a count before 54", Way { order: [Sheet, Primary, Count, Room, Entries, Names], ..RIGHT }),
    ("61 before 54", Way { order: [Sheet, Primary, Count, Entries, Room, Names], ..RIGHT }),
    ("54 last", Way { order: [Sheet, Primary, Count, Entries, Names, Room], ..RIGHT }),
    ("an entry before the count", Way { order: [Sheet, Primary, Room, Entries, Count, Names], ..RIGHT }),
    ("62 before 61", Way { order: [Sheet, Primary, Room, Count, Names, Entries], ..RIGHT }),
    ("61 and 62 entry by entry", Way { in_turn: true, ..RIGHT }),
    ("the lists first", Way { order: [Count, Entries, Sheet, Primary, Room, Names], ..RIGHT }),
    ("53 behind 61", Way { order: [Sheet, Room, Count, Entries, Primary, Names], ..RIGHT }),
    ("53 not asked", Way { order: [Sheet, Room, Count, Entries, Names, Sheet], ..RIGHT }),
    ("54 not asked", Way { least: 0, ..RIGHT }),
    ("a buffer of 511 is enough", Way { least: 511, ..RIGHT }),
    ("a buffer of 512 is not", Way { least: 513, ..RIGHT }),
    ("a buffer for the longest rows is enough", Way { least: 272, ..RIGHT }),
    ("a buffer as for a text", Way { least: 4_096, ..RIGHT }),
    // The counts.
    ("no triggers are enough", Way { count: |triggers| triggers <= 4, ..RIGHT }),
    ("five triggers are not too many", Way { count: |triggers| (1..=5).contains(&triggers), ..RIGHT }),
    ("four triggers are too many", Way { count: |triggers| (1..=3).contains(&triggers), ..RIGHT }),
    ("the count of triggers not judged", Way { count: |_| true, ..RIGHT }),
    ("the count as a byte", Way { count: |triggers| (1..=4).contains(&(triggers as u8)), ..RIGHT }),
    ("the count with a sign", Way { count: |triggers| triggers != 0 && triggers.cast_signed() <= 4, ..RIGHT }),
    ("conditions left out", Way { conditions: |_| false, ..RIGHT }),
    ("more than four conditions left out", Way { conditions: |conditions| (1..=4).contains(&conditions), ..RIGHT }),
    ("the count of conditions as a byte", Way { conditions: |conditions| conditions as u8 != 0, ..RIGHT }),
    ("entry 0 for conditions", Way { behind: |_, _| 0, ..RIGHT }),
    ("entry 0 for more than four conditions", Way { behind: |triggers, conditions| if conditions > 4 { 0 } else { triggers + 1 }, ..RIGHT }),
    ("entry 1 for conditions", Way { behind: |_, _| 1, ..RIGHT }),
    ("entry 5 for conditions", Way { behind: |_, _| 5, ..RIGHT }),
    ("the last trigger for conditions", Way { behind: |triggers, _| triggers, ..RIGHT }),
    ("the last condition", Way { behind: |triggers, conditions| triggers + (conditions as usize).min(4), ..RIGHT }),
    ("conditions before triggers", Way { conditions_first: true, ..RIGHT }),
    // The words of an entry.
    ("FROM 1 or 2", Way { from: |from| from == 1 || from == 2, ..RIGHT }),
    ("FROM 1 alone", Way { from: |from| from == 1, ..RIGHT }),
    ("FROM not 0", Way { from: |from| from != 0, ..RIGHT }),
    ("the kind as a byte", Way { kind: |kind| (RIGHT.kind)(kind & 0xff), ..RIGHT }),
    ("the kind without its sign", Way { kind: |kind| (RIGHT.kind)(kind & 0x7fff_ffff), ..RIGHT }),
    ("a level as a lamp", Way { kind: |kind| (RIGHT.kind)(if kind == 11 { 10 } else { kind }), rest: |_| true, ..RIGHT }),
    ("a scene as a group", Way { kind: |kind| (RIGHT.kind)(if kind == 13 { 12 } else { kind }), code: |code| (RIGHT.code)(code.max(1)), ..RIGHT }),
    ("a condition's kind for a lamp", Way { kind: |kind| (RIGHT.kind)(if kind == 3 { 10 } else { kind }), ..RIGHT }),
    ("no lamps", Way { kind: |kind| (RIGHT.kind)(kind).filter(|kind| *kind != 0), ..RIGHT }),
    ("no groups", Way { kind: |kind| (RIGHT.kind)(kind).filter(|kind| *kind != 1), ..RIGHT }),
    ("no devices", Way { kind: |kind| (RIGHT.kind)(kind).filter(|kind| *kind != 2), ..RIGHT }),
    ("code 0 is the first", Way { code: |code| (RIGHT.code)(code.max(1)), ..RIGHT }),
    ("code 3 is the second", Way { code: |code| (RIGHT.code)(if code == 3 { 2 } else { code }), ..RIGHT }),
    ("every other code is the second", Way { code: |code| Some(usize::from(code != 1)), ..RIGHT }),
    ("the code as a byte", Way { code: |code| (RIGHT.code)(code & 0xff), ..RIGHT }),
    ("codes from 0 on", Way { code: |code| (RIGHT.code)(code.wrapping_add(1)), ..RIGHT }),
    ("the rest of a row not judged", Way { rest: |_| true, ..RIGHT }),
    ("the word behind the code alone judged", Way { rest: |rest| rest[0] == 0, ..RIGHT }),
    ("the word behind the code not judged", Way { rest: |rest| (RIGHT.rest)(&rest[1..]), ..RIGHT }),
    ("the last word not judged", Way { rest: |rest| (RIGHT.rest)(&rest[..7]), ..RIGHT }),
    ("the bytes of the rest", Way { rest: |rest| rest.iter().all(|word| word & 0xff == 0), ..RIGHT }),
    ("a number past its bound is another trigger", Way { reference: |entry| entry.number <= if entry.kind.word == "group" { 15 } else { 63 }, ..RIGHT }),
    ("a number past 63 is another trigger", Way { reference: |entry| entry.number <= 63, ..RIGHT }),
    ("an adapter past 255 is another trigger", Way { reference: |entry| entry.adapter <= 255, ..RIGHT }),
    // The line of the sheet.
    ("numbers as bytes", Way {
        is_about: |entry, line| about_changed(entry, line, |entry| Entry { number: entry.number & 0xff, ..entry }),
        is_written: |given, entry, line| right_line(given, &Entry { number: entry.number & 0xff, ..*entry }, line),
        ..RIGHT
    }),
    ("adapters as bytes", Way {
        is_about: |entry, line| about_changed(entry, line, |entry| Entry { adapter: entry.adapter & 0xff, ..entry }),
        is_written: |given, entry, line| right_line(given, &Entry { adapter: entry.adapter & 0xff, ..*entry }, line),
        ..RIGHT
    }),
    ("numbers of six bits", Way {
        is_about: |entry, line| about_changed(entry, line, |entry| Entry { number: entry.number & 63, ..entry }),
        is_written: |given, entry, line| right_line(given, &Entry { number: entry.number & 63, ..*entry }, line),
        ..RIGHT
    }),
    ("a line of any adapter", Way {
        is_about: |entry, line| line.kind == entry.kind.word.as_bytes() && line.number == entry.number.to_string().as_bytes(),
        is_written: |given, _, line| alone(given, line) && of(given, line) == (true, true),
        ..RIGHT
    }),
    ("a line of any kind", Way {
        is_about: |entry, line| line.adapter == entry.adapter.to_string().as_bytes() && line.number == entry.number.to_string().as_bytes(),
        is_written: |given, _, line| alone(given, line) && of(given, line) == (true, true),
        ..RIGHT
    }),
    ("a line of any number", Way {
        is_about: |entry, line| line.kind == entry.kind.word.as_bytes() && line.adapter == entry.adapter.to_string().as_bytes(),
        is_written: |given, _, line| alone(given, line) && of(given, line) == (true, true),
        ..RIGHT
    }),
    ("a line of another kind with such a name", Way { is_about: |entry, line| line.adapter == entry.adapter.to_string().as_bytes(), ..RIGHT }),
    ("names with commas", Way { is_written: picks, ..RIGHT }),
    ("commas at the end alone", Way { is_written: |given, entry, line| !line.name.ends_with(b",") && picks(given, entry, line), ..RIGHT }),
    ("a name up to its comma", Way {
        is_written: picks,
        row: |given, entry, line| (RIGHT.row)(given, entry, &Line { name: line.name.split(|&byte| byte == b',').next().unwrap_or_default(), ..*line }),
        ..RIGHT
    }),
    ("repeats too", Way { is_written: |given, _, line| !line.name.contains(&b',') && of(given, line) == (true, true), ..RIGHT }),
    ("repeats with one number too", Way {
        is_written: |given, _, line| {
            let other = like(given, line, |one, line| same(one, line) && one.number != line.number);
            !line.name.contains(&b',') && of(given, line) == (true, true) && other == 0
        },
        ..RIGHT
    }),
    ("the first of repeats", Way {
        is_written: |given, _, line| {
            let before = like(given, line, |one, line| same(one, line) && one.at < line.at);
            !line.name.contains(&b',') && of(given, line) == (true, true) && before == 0
        },
        ..RIGHT
    }),
    ("the last of repeats", Way {
        is_written: |given, _, line| {
            let behind = like(given, line, |one, line| same(one, line) && one.at > line.at);
            !line.name.contains(&b',') && of(given, line) == (true, true) && behind == 0
        },
        ..RIGHT
    }),
    ("repeats on other adapters too", Way { is_written: |given, entry, line| right_line(given, entry, line) && like(given, line, same_name) == 1, ..RIGHT }),
    ("repeats in other kinds too", Way {
        is_written: |given, entry, line| right_line(given, entry, line) && like(given, line, |one, line| one.name == line.name && one.adapter == line.adapter) == 1,
        ..RIGHT
    }),
    ("repeats in any letters", Way {
        is_written: |given, entry, line| {
            let near = like(given, line, |one, line| one.kind == line.kind && one.adapter == line.adapter && one.name.eq_ignore_ascii_case(line.name));
            right_line(given, entry, line) && near == 1
        },
        ..RIGHT
    }),
    ("adapters that are not listed too", Way { is_written: |given, _, line| alone(given, line) && of(given, line).0, ..RIGHT }),
    ("the primary needs no listing", Way {
        is_written: |given, entry, line| right_line(given, entry, line) || entry.adapter == given.conversion.primary.into() && alone(given, line),
        ..RIGHT
    }),
    ("the sheet's primary needs no listing", Way {
        is_written: |given, entry, line| {
            right_line(given, entry, line) || entry.adapter == own_primary(&given.conversion.sheet).into() && of(given, line).0 && alone(given, line)
        },
        ..RIGHT
    }),
    ("another party's adapters too", Way { is_written: |given, _, line| alone(given, line) && of(given, line).1, ..RIGHT }),
    ("any adapter", Way { is_written: |given, _, line| alone(given, line), ..RIGHT }),
    ("names not UTF-8 not", Way { is_written: |given, entry, line| right_line(given, entry, line) && std::str::from_utf8(line.name).is_ok(), ..RIGHT }),
    ("names of 48 bytes not", Way { is_written: |given, entry, line| right_line(given, entry, line) && line.name.len() < 48, ..RIGHT }),
    ("the last line", Way { which: |fit, _| fit.len().wrapping_sub(1), ..RIGHT }),
    ("the first line of the reference alone", Way { which: |fit, about| if fit.first() == about.first() { 0 } else { usize::MAX }, ..RIGHT }),
    ("the first line without a comma alone", Way {
        which: |fit, about| if fit.first() == about.iter().find(|line| !line.name.contains(&b',')) { 0 } else { usize::MAX },
        ..RIGHT
    }),
    ("the shortest name", Way { which: |fit, _| least(fit, |line| line.name.len()), ..RIGHT }),
    ("the least name", Way { which: |fit, _| least(fit, |line| line.name.to_vec()), ..RIGHT }),
    ("a reference with one line alone", Way { which: |_, about| if about.len() == 1 { 0 } else { usize::MAX }, ..RIGHT }),
    // The rows.
    ("A left out for the primary", Way {
        row: |given, entry, line| without_adapter_if(entry.adapter == given.conversion.primary.into(), given, entry, line),
        ..RIGHT
    }),
    ("A left out", Way { row: |given, entry, line| without_adapter_if(true, given, entry, line), ..RIGHT }),
    ("A left out where the name is the only one", Way {
        row: |given, entry, line| without_adapter_if(like(given, line, same_name) == 1, given, entry, line),
        ..RIGHT
    }),
    ("A left out for 0", Way { row: |given, entry, line| without_adapter_if(entry.adapter == 0, given, entry, line), ..RIGHT }),
    ("A is the primary", Way { row: |given, entry, line| with_field(given, entry, line, 2, given.conversion.primary.to_string()), ..RIGHT }),
    ("A of three digits", Way { row: |given, entry, line| with_field(given, entry, line, 2, format!("{:03}", entry.adapter)), ..RIGHT }),
    ("A and the name swapped", Way { row: |given, entry, line| in_order(given, entry, line, [0, 2, 1, 3]), ..RIGHT }),
    ("the word before A", Way { row: |given, entry, line| in_order(given, entry, line, [0, 1, 3, 2]), ..RIGHT }),
    ("the number in the place of the name", Way { row: |given, entry, line| with_field(given, entry, line, 1, entry.number.to_string()), ..RIGHT }),
    ("a name in quotes", Way { row: |given, entry, line| with_field(given, entry, line, 1, [b"\"", line.name, b"\""].concat()), ..RIGHT }),
    ("a name without the blanks around it", Way { row: |given, entry, line| with_field(given, entry, line, 1, line.name.trim_ascii()), ..RIGHT }),
    ("a name up to a NUL", Way {
        row: |given, entry, line| with_field(given, entry, line, 1, line.name.split(|&byte| byte == 0).next().unwrap_or_default()),
        ..RIGHT
    }),
    ("a name with CR", Way {
        row: |given, entry, line| {
            let cr = given.conversion.sheet.split(|&byte| byte == b'\n').nth(line.at - 1).is_some_and(|line| line.ends_with(b"\r"));
            with_field(given, entry, line, 1, if cr { [line.name, b"\r"].concat() } else { line.name.to_vec() })
        },
        ..RIGHT
    }),
    ("names as UTF-8", Way { row: |given, entry, line| with_field(given, entry, line, 1, String::from_utf8_lossy(line.name).as_bytes()), ..RIGHT }),
    ("the other word", Way { row: |given, entry, line| with_field(given, entry, line, 3, entry.kind.words[1 - entry.word]), ..RIGHT }),
    ("a device's other word", Way {
        row: |given, entry, line| with_field(given, entry, line, 3, entry.kind.words[if entry.kind.word == "device" { 1 - entry.word } else { entry.word }]),
        ..RIGHT
    }),
    ("a device's words as in a rule", Way {
        row: |given, entry, line| match entry.kind.word {
            "device" => with_field(given, entry, line, 3, ["goes offline", "comes online"][entry.word]),
            _ => (RIGHT.row)(given, entry, line),
        },
        ..RIGHT
    }),
    ("CR LF", Way {
        said: |conversion, said| with_rows(conversion, said, |rows| rows.iter().flat_map(|row| [&row[..row.len() - 1], b"\r\n"].concat()).collect()),
        ..RIGHT
    }),
    ("no LF at the end", Way { said: |conversion, said| with_rows(conversion, said, |rows| { let mut rows = rows.concat(); rows.pop(); rows }), ..RIGHT }),
    ("an LF more at the end", Way { said: |conversion, said| with_rows(conversion, said, |rows| [&rows.concat()[..], b"\n"].concat()), ..RIGHT }),
    ("rows from the last on", Way {
        said: |conversion, said| with_rows(conversion, said, |rows| rows.into_iter().rev().flatten().copied().collect()),
        ..RIGHT
    }),
    ("equal rows once", Way { said: |conversion, said| with_rows(conversion, said, |rows| once(rows).concat()), ..RIGHT }),
    ("the length in characters", Way {
        said: |conversion, said| {
            let rows = said.unwrap_or_default();
            let [bytes, characters] = [rows.len(), String::from_utf8_lossy(rows).chars().count()].map(|length| format!("written {length} "));
            said_if(conversion, said, true, &bytes, &characters)
        },
        ..RIGHT
    }),
    ("the buffer changed", Way { said: |conversion, said| said_if(conversion, said, said.is_ok(), "kept", "changed"), ..RIGHT }),
    ("the buffer changed on 62", Way { said: |conversion, said| said_if(conversion, said, matches!(said, Err((62, _))), "kept", "changed"), ..RIGHT }),
    ("the buffer changed on 62 behind a row", Way {
        said: |conversion, said| said_if(conversion, said, matches!(said, Err((62, 2..))), "kept", "changed"),
        ..RIGHT
    }),
    // The refusals.
    ("entries from 0 on", Way {
        said: |conversion, said| refused_as(conversion, said, |number, line| (number, if number > 60 { line.saturating_sub(1) } else { line })),
        ..RIGHT
    }),
    ("line 1 for the count", Way {
        said: |conversion, said| refused_as(conversion, said, |number, line| (number, if number == 61 { line.max(1) } else { line })),
        ..RIGHT
    }),
    ("line 0 for an entry", Way {
        said: |conversion, said| refused_as(conversion, said, |number, line| (number, if number > 60 { 0 } else { line })),
        ..RIGHT
    }),
    ("column 1", Way { said: |conversion, said| said_if(conversion, said, matches!(said, Err((61.., _))), " 0 0\n", " 1 0\n"), ..RIGHT }),
    ("62 for 61", Way { said: |conversion, said| refused_as(conversion, said, |number, line| (if number == 61 { 62 } else { number }, line)), ..RIGHT }),
    ("31 for 62", Way { said: |conversion, said| refused_as(conversion, said, |number, line| (if number == 62 { 31 } else { number }, line)), ..RIGHT }),
    ("55 for a count", Way {
        said: |conversion, said| refused_as(conversion, said, |number, line| (if (number, line) == (61, 0) { 55 } else { number }, line)),
        ..RIGHT
    }),
];
