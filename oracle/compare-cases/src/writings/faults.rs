//! Readers with a seeded fault against document 02 §7: what a hurried port may do. Each is the right way but for one step.

use super::way::{number, Ask, Entry, Given, Held, Said, Way, RIGHT};
use cases::{fields, lines, own_primary, List, Writing};
use generate::roles::{Range, Role, Word, EVERY_DAY, MOST_NUMBER, NO_TYPE};
use generate::topics;

/// The role as it is, but with another most.
fn with_most(word: Word, found: u32, most: u32, other: u32) -> bool {
    if word.role == Role::Number(most) { found <= other } else { word.role.fits(found) }
}

/// The role as it is, or this too.
fn or_is(word: Word, found: u32, role: Role, too: u32) -> bool {
    word.role.fits(found) || word.role == role && found == too
}

/// All of a role, but not this.
fn but_not(word: Word, found: u32, role: Role, other: u32) -> bool {
    word.role.fits(found) && (word.role != role || found != other)
}

/// What a part does not name may be anything.
fn anything_in(word: Word, found: u32, part: &str) -> bool {
    word.role.fits(found) || word.role == Role::Unnamed && word.part == part
}

/// The low bits alone.
fn masked(word: Word, found: u32, mask: u32) -> bool {
    word.role.fits(if word.role == Role::Unnamed || word.role == Role::Type { found } else { found & mask })
}

/// What is as it should be, and is so for these bytes too.
fn and_bytes(held: Held, good: impl Fn(&[u8]) -> bool) -> bool {
    held.fits() && held.bytes().is_some_and(good)
}

/// What is as it should be, or a range of this sort with such bytes.
fn or_bytes(held: Held, range: Range, good: impl Fn(&[u8]) -> bool) -> bool {
    held.fits() || held.range == range && held.bytes().is_some_and(good)
}

fn is_utf8(bytes: &[u8]) -> bool {
    std::str::from_utf8(bytes).is_ok()
}

fn unquoted(bytes: &[u8]) -> bool {
    is_utf8(bytes) && !bytes.contains(&b'"') && !bytes.contains(&b'\n')
}

/// Ranges of this sort of so many bytes.
fn with_lengths(held: Held, range: Range, least: usize, most: usize) -> bool {
    let good = |bytes: &[u8]| unquoted(bytes) && (least..=most).contains(&bytes.len());
    if held.range == range { held.bytes().is_some_and(good) } else { held.fits() }
}

/// Whether the sheet lists the adapter, whoever's it is.
fn in_sheet(given: &Given, adapter: u32) -> bool {
    lines(&given.writing.sheet).into_iter().map(fields).any(|row| row[0] == b"adapter" && row[1] == adapter.to_string().as_bytes())
}

fn is_sheets_primary(given: &Given, adapter: u32) -> bool {
    adapter == own_primary(&given.writing.sheet).into()
}

fn right_reach(given: &Given, word: Word, adapter: u32) -> bool {
    (RIGHT.reach)(given, word, adapter)
}

/// The line of an entry, for a condition another one.
fn of_conditions(entry: Entry, other: impl Fn(usize) -> usize) -> usize {
    if entry.list == List::Conditions { other(entry.ordinal) } else { entry.ordinal }
}

/// The right answer with another text.
fn with_text(writing: &Writing, said: Said, change: impl Fn(&str) -> String) -> String {
    match said {
        Ok(text) => (RIGHT.said)(writing, Ok(change(&String::from_utf8_lossy(text)).as_bytes())),
        refused => (RIGHT.said)(writing, refused),
    }
}

/// The right answer with another line of a refusal.
fn with_line(writing: &Writing, said: Said, change: impl Fn(u32, usize) -> usize) -> String {
    (RIGHT.said)(writing, said.map_err(|(number, line)| (number, change(number, line))))
}

/// A duration that is written in seconds.
fn in_seconds(ms: u32, write: impl Fn(u32, u32) -> String) -> String {
    if ms > 1_000_000_000 { write(ms / 1_000, ms % 1_000) } else { format!("{ms}ms") }
}

/// The right answer, in such cases with one part replaced.
fn said_if(writing: &Writing, said: Said, is: bool, from: &str, to: &str) -> String {
    let answer = (RIGHT.said)(writing, said);
    if is { answer.replace(from, to) } else { answer }
}

const TIGHT: &[(&str, &str)] = &[(" ( ", "( "), (" ) ", ") "), (" , ", ", "), (" . ", ". "), (" = ", "="), (" .. ", ".."), ("- ", "-")];

use Ask::{Counts, Entries, Primary, Reach, Room, Sheet};

pub const FAULTS: &[(&str, Way)] = &[
    // The order of the questions.
    ("54 first", Way { order: [Room, Sheet, Primary, Counts, Entries, Reach], ..RIGHT }),
    ("54 before 53", Way { order: [Sheet, Room, Primary, Counts, Entries, Reach], ..RIGHT }),
    ("a count before 54", Way { order: [Sheet, Primary, Counts, Room, Entries, Reach], ..RIGHT }),
    ("54 last", Way { order: [Sheet, Primary, Counts, Entries, Reach, Room], ..RIGHT }),
    ("an entry before a count", Way { order: [Sheet, Primary, Room, Entries, Counts, Reach], ..RIGHT }),
    ("56 before 55", Way { order: [Sheet, Primary, Room, Counts, Reach, Entries], ..RIGHT }),
    ("55 and 56 entry by entry", Way { in_turn: true, ..RIGHT }),
    ("the lists first", Way { order: [Counts, Entries, Sheet, Primary, Room, Reach], ..RIGHT }),
    ("53 behind 55", Way { order: [Sheet, Room, Counts, Entries, Primary, Reach], ..RIGHT }),
    ("53 not asked", Way { order: [Sheet, Room, Counts, Entries, Reach, Sheet], ..RIGHT }),
    ("54 not asked", Way { least: 0, ..RIGHT }),
    ("a buffer of 4095 is enough", Way { least: 4_095, ..RIGHT }),
    ("a buffer of 4096 is not", Way { least: 4_097, ..RIGHT }),
    ("a buffer for the longest text is enough", Way { least: 886, ..RIGHT }),
    // Counts.
    ("no triggers are enough", Way { counts: |[triggers, conditions]| triggers <= 4 && conditions <= 4, ..RIGHT }),
    ("five triggers are not too many", Way { counts: |[triggers, conditions]| (1..=5).contains(&triggers) && conditions <= 4, ..RIGHT }),
    ("five conditions are not too many", Way { counts: |[triggers, conditions]| (1..=4).contains(&triggers) && conditions <= 5, ..RIGHT }),
    ("four triggers are too many", Way { counts: |[triggers, conditions]| (1..=3).contains(&triggers) && conditions <= 4, ..RIGHT }),
    ("four conditions are too many", Way { counts: |[triggers, conditions]| (1..=4).contains(&triggers) && conditions <= 3, ..RIGHT }),
    ("a condition is needed", Way { counts: |[triggers, conditions]| (1..=4).contains(&triggers) && (1..=4).contains(&conditions), ..RIGHT }),
    ("the count of conditions not judged", Way { counts: |[triggers, _]| (1..=4).contains(&triggers), ..RIGHT }),
    ("the count of triggers not judged", Way { counts: |[_, conditions]| conditions <= 4, ..RIGHT }),
    ("counts as bytes", Way { counts: |counts| (RIGHT.counts)(counts.map(|count| count & 0xff)), ..RIGHT }),
    ("counts with a sign", Way { counts: |counts| counts.map(u32::cast_signed).iter().all(|count| *count <= 4) && counts[0] != 0, ..RIGHT }),
    // FROM.
    ("FROM not judged", Way { from: |_| true, ..RIGHT }),
    ("FROM 0 too", Way { from: |from| from <= 2, ..RIGHT }),
    ("FROM 3 too", Way { from: |from| (1..=3).contains(&from), ..RIGHT }),
    ("FROM as a byte", Way { from: |from| [1, 2].contains(&(from & 0xff)), ..RIGHT }),
    ("FROM 2 not", Way { from: |from| from == 1, ..RIGHT }),
    // The bounds of words.
    ("a group to 16", Way { word: |word, found| with_most(word, found, 15, 16), ..RIGHT }),
    ("a group to 14", Way { word: |word, found| with_most(word, found, 15, 14), ..RIGHT }),
    ("a group to 63", Way { word: |word, found| with_most(word, found, 15, 63), ..RIGHT }),
    ("an instance to 32", Way { word: |word, found| with_most(word, found, 31, 32), ..RIGHT }),
    ("an instance to 30", Way { word: |word, found| with_most(word, found, 31, 30), ..RIGHT }),
    ("a lamp to 64", Way { word: |word, found| with_most(word, found, 63, 64), ..RIGHT }),
    ("a lamp to 62", Way { word: |word, found| with_most(word, found, 63, 62), ..RIGHT }),
    ("a level to 255", Way { word: |word, found| with_most(word, found, 254, 255), ..RIGHT }),
    ("a level to 253", Way { word: |word, found| with_most(word, found, 254, 253), ..RIGHT }),
    ("data to 1024", Way { word: |word, found| with_most(word, found, 1_023, 1_024), ..RIGHT }),
    ("data to 1022", Way { word: |word, found| with_most(word, found, 1_023, 1_022), ..RIGHT }),
    ("minutes to 1440", Way { word: |word, found| with_most(word, found, 1_439, 1_440), ..RIGHT }),
    ("minutes to 1438", Way { word: |word, found| with_most(word, found, 1_439, 1_438), ..RIGHT }),
    ("adapter 256 too", Way { word: |word, found| or_is(word, found, Role::Adapter, 256), ..RIGHT }),
    ("adapters not judged", Way { word: |word, found| word.role == Role::Adapter || word.role.fits(found), ..RIGHT }),
    ("adapter 255 not", Way { word: |word, found| but_not(word, found, Role::Adapter, 255), ..RIGHT }),
    ("broadcast's adapter not judged", Way { word: |word, found| word.role == Role::Broadcast || word.role.fits(found), ..RIGHT }),
    ("type 32 too", Way { word: |word, found| or_is(word, found, Role::Type, 32), ..RIGHT }),
    ("type 31 not", Way { word: |word, found| but_not(word, found, Role::Type, 31), ..RIGHT }),
    ("type 0 not", Way { word: |word, found| but_not(word, found, Role::Type, 0), ..RIGHT }),
    ("a type is needed", Way { word: |word, found| but_not(word, found, Role::Type, NO_TYPE), ..RIGHT }),
    ("4294967294 is no type too", Way { word: |word, found| or_is(word, found, Role::Type, NO_TYPE - 1), ..RIGHT }),
    ("no days too", Way { word: |word, found| or_is(word, found, Role::Days, 0), ..RIGHT }),
    ("128 days too", Way { word: |word, found| or_is(word, found, Role::Days, 128), ..RIGHT }),
    ("127 days not", Way { word: |word, found| but_not(word, found, Role::Days, EVERY_DAY), ..RIGHT }),
    ("a period of 999", Way { word: |word, found| or_is(word, found, Role::Period, 999), ..RIGHT }),
    ("a period of 1000 not", Way { word: |word, found| but_not(word, found, Role::Period, 1_000), ..RIGHT }),
    ("any period", Way { word: |word, found| word.role == Role::Period || word.role.fits(found), ..RIGHT }),
    ("an age of at least a second", Way { word: |word, found| word.role.fits(found) && (word.role != Role::Age || found >= 1_000), ..RIGHT }),
    ("an offset within a day", Way {
        word: |word, found| word.role.fits(found) && (word.role != Role::Offset || found.cast_signed().unsigned_abs() < 86_400_000),
        ..RIGHT
    }),
    ("code 0 too", Way { word: |word, found| word.role.fits(found) || matches!(word.role, Role::Code(_)) && found == 0, ..RIGHT }),
    ("one code more", Way { word: |word, found| word.role.fits(found) || matches!(word.role, Role::Code(count) if found == count + 1), ..RIGHT }),
    ("one choice more", Way { word: |word, found| or_is(word, found, Role::Code(2), 3), ..RIGHT }),
    ("a text in any value", Way { word: |word, found| or_is(word, found, Role::Code(3), 4), ..RIGHT }),
    ("words as bytes", Way { word: |word, found| masked(word, found, 0xff), ..RIGHT }),
    ("words of 16 bits", Way { word: |word, found| masked(word, found, 0xffff), ..RIGHT }),
    ("words without their sign", Way { word: |word, found| masked(word, found, 0x7fff_ffff), ..RIGHT }),
    // Words that a row does not name.
    ("words that are not named not judged", Way { word: |word, found| word.role == Role::Unnamed || word.role.fits(found), ..RIGHT }),
    ("the rest of a row not judged", Way { word: |word, found| anything_in(word, found, "rest"), ..RIGHT }),
    ("data of other events not judged", Way { word: |word, found| anything_in(word, found, "no data"), ..RIGHT }),
    ("the third word of a clock not judged", Way { word: |word, found| anything_in(word, found, "clock"), ..RIGHT }),
    ("the third word of broadcast not judged", Way { word: |word, found| anything_in(word, found, "broadcast"), ..RIGHT }),
    ("a reading beside a literal not judged", Way { word: |word, found| anything_in(word, found, "value literal"), ..RIGHT }),
    ("a number beside a reading not judged", Way { word: |word, found| anything_in(word, found, "value not added"), ..RIGHT }),
    ("the third word of a lamp's reading not judged", Way { word: |word, found| anything_in(word, found, "value lamp"), ..RIGHT }),
    ("the third word of a group's reading not judged", Way { word: |word, found| anything_in(word, found, "value group"), ..RIGHT }),
    ("the words of a plain reading not judged", Way { word: |word, found| anything_in(word, found, "value plain"), ..RIGHT }),
    ("the third word of a var not judged", Way { word: |word, found| anything_in(word, found, "value var"), ..RIGHT }),
    ("the words behind a text not judged", Way { word: |word, found| anything_in(word, found, "value text"), ..RIGHT }),
    // Names.
    ("a name's end in 32 bits", Way { range: |held| held.fits() || held.start.wrapping_add(held.length) < held.start, ..RIGHT }),
    ("a name at the end not", Way { range: |held| held.fits() && (held.length == 0 || held.end() < held.text.len() as u64), ..RIGHT }),
    ("a name at the start not", Way { range: |held| held.fits() && (held.length == 0 || held.start > 0), ..RIGHT }),
    ("an empty text at the very end not", Way { range: |held| held.fits() && (held.start as usize) < held.text.len(), ..RIGHT }),
    ("an empty text anywhere", Way { range: |held| held.fits() || held.range == Range::Text && held.length == 0, ..RIGHT }),
    ("an empty text not", Way { range: |held| held.fits() && held.length > 0, ..RIGHT }),
    ("an empty name too", Way { range: |held| with_lengths(held, Range::Name, 0, 48), ..RIGHT }),
    ("a name of 49 bytes", Way { range: |held| with_lengths(held, Range::Name, 1, 49), ..RIGHT }),
    ("a name of 48 bytes not", Way { range: |held| with_lengths(held, Range::Name, 1, 47), ..RIGHT }),
    ("a text of 17 bytes", Way { range: |held| with_lengths(held, Range::Text, 0, 17), ..RIGHT }),
    ("a text of 16 bytes not", Way { range: |held| with_lengths(held, Range::Text, 0, 15), ..RIGHT }),
    ("a text of 48 bytes", Way { range: |held| with_lengths(held, Range::Text, 0, 48), ..RIGHT }),
    ("lengths in characters", Way {
        range: |held| {
            let most = if held.range == Range::Text { 16 } else { 48 };
            or_bytes(held, held.range, |bytes| unquoted(bytes) && (1..=most).contains(&String::from_utf8_lossy(bytes).chars().count()))
        },
        ..RIGHT
    }),
    ("a topic like a name", Way { range: |held| held.fits() || held.range == Range::Topic && Held { range: Range::Name, ..held }.fits(), ..RIGHT }),
    ("a name like a topic", Way { range: |held| held.fits() && (held.range != Range::Name || Held { range: Range::Topic, ..held }.fits()), ..RIGHT }),
    ("a topic of 49 bytes", Way { range: |held| or_bytes(held, Range::Topic, |bytes| bytes.len() == 49 && topics::fits(&bytes[1..])), ..RIGHT }),
    ("an empty topic too", Way { range: |held| or_bytes(held, Range::Topic, <[u8]>::is_empty), ..RIGHT }),
    ("names not UTF-8 too", Way {
        range: |held| or_bytes(held, Range::Name, |bytes| (1..=48).contains(&bytes.len()) && !bytes.contains(&b'"') && !bytes.contains(&b'\n')),
        ..RIGHT
    }),
    ("a quote in a name too", Way {
        range: |held| or_bytes(held, Range::Name, |bytes| (1..=48).contains(&bytes.len()) && is_utf8(bytes) && !bytes.contains(&b'\n')),
        ..RIGHT
    }),
    ("LF in a name too", Way {
        range: |held| or_bytes(held, Range::Name, |bytes| (1..=48).contains(&bytes.len()) && is_utf8(bytes) && !bytes.contains(&b'"')),
        ..RIGHT
    }),
    ("LF in a text too", Way { range: |held| or_bytes(held, Range::Text, |bytes| bytes.len() <= 16 && is_utf8(bytes) && !bytes.contains(&b'"')), ..RIGHT }),
    ("no CR in a name", Way { range: |held| and_bytes(held, |bytes| !bytes.contains(&b'\r')), ..RIGHT }),
    ("no NUL in a name", Way { range: |held| and_bytes(held, |bytes| !bytes.contains(&0)), ..RIGHT }),
    ("no # in a name", Way { range: |held| and_bytes(held, |bytes| !bytes.contains(&b'#')), ..RIGHT }),
    ("the whole text UTF-8", Way { range: |held| held.fits() && is_utf8(held.text), ..RIGHT }),
    ("texts up to 16384 bytes", Way { range: |held| held.fits() && held.text.len() <= 16_384, ..RIGHT }),
    ("names between quotes", Way {
        range: |held| {
            let quote = |at: u64| held.text.get(at as usize) == Some(&b'"');
            held.fits() && held.start > 0 && quote(u64::from(held.start) - 1) && quote(held.end())
        },
        ..RIGHT
    }),
    ("names in the first text", Way { name: |given, _, start, length| (RIGHT.name)(given, 1, start, length), ..RIGHT }),
    ("names in the other text", Way { name: |given, from, start, length| (RIGHT.name)(given, 3 - from, start, length), ..RIGHT }),
    ("a name from its start to its length", Way { name: |given, from, start, length| given.text(from).get(start..length).unwrap_or_default().to_vec(), ..RIGHT }),
    ("a name without the blanks around it", Way {
        name: |given, from, start, length| (RIGHT.name)(given, from, start, length).trim_ascii().to_vec(),
        ..RIGHT
    }),
    ("a name up to a NUL", Way {
        name: |given, from, start, length| (RIGHT.name)(given, from, start, length).into_iter().take_while(|&byte| byte != 0).collect(),
        ..RIGHT
    }),
    // Numbers of 64 bits.
    ("numbers past 1000000000", Way { number: |number| (-MOST_NUMBER..=MOST_NUMBER + 1).contains(&number), ..RIGHT }),
    ("numbers past -1000000000", Way { number: |number| (-MOST_NUMBER - 1..=MOST_NUMBER).contains(&number), ..RIGHT }),
    ("numbers to 999999999", Way { number: |number| (-MOST_NUMBER..MOST_NUMBER).contains(&number), ..RIGHT }),
    ("numbers from -999999999", Way { number: |number| (1 - MOST_NUMBER..=MOST_NUMBER).contains(&number), ..RIGHT }),
    ("numbers of 32 bits", Way { number: |number| i32::try_from(number).is_ok(), ..RIGHT }),
    ("the low word of a number alone", Way { number: |found| [0, u32::MAX].iter().any(|high| (RIGHT.number)(number(found as u32, *high))), ..RIGHT }),
    ("no negative numbers", Way { number: |number| (0..=MOST_NUMBER).contains(&number), ..RIGHT }),
    ("numbers not judged", Way { number: |_| true, ..RIGHT }),
    // What can be written for the call.
    ("56 never", Way { reach: |_, _, _| true, ..RIGHT }),
    ("broadcast on any that is listed", Way { reach: |given, _, adapter| given.is_primary(adapter) || given.is_listed(adapter), ..RIGHT }),
    ("broadcast on any", Way { reach: |given, word, adapter| word.role == Role::Broadcast || right_reach(given, word, adapter), ..RIGHT }),
    ("broadcast on a primary that is listed", Way {
        reach: |given, word, adapter| right_reach(given, word, adapter) && (word.role == Role::Adapter || given.is_listed(adapter)),
        ..RIGHT
    }),
    ("broadcast on the sheet's primary", Way {
        reach: |given, word, adapter| match word.role {
            Role::Broadcast => is_sheets_primary(given, adapter),
            _ => right_reach(given, word, adapter),
        },
        ..RIGHT
    }),
    ("the primary listed too", Way { reach: |given, word, adapter| right_reach(given, word, adapter) && given.is_listed(adapter), ..RIGHT }),
    ("another's adapters too, if listed", Way {
        reach: |given, word, adapter| right_reach(given, word, adapter) || word.role == Role::Adapter && in_sheet(given, adapter),
        ..RIGHT
    }),
    ("adapter 0 needs no listing", Way { reach: |given, word, adapter| right_reach(given, word, adapter) || adapter == 0, ..RIGHT }),
    ("the sheet's primary needs no listing", Way {
        reach: |given, word, adapter| right_reach(given, word, adapter) || word.role == Role::Adapter && is_sheets_primary(given, adapter),
        ..RIGHT
    }),
    ("adapters in values not judged", Way { reach: |given, word, adapter| right_reach(given, word, adapter) || word.part.starts_with("value"), ..RIGHT }),
    ("a scene's adapter not judged", Way { reach: |given, word, adapter| right_reach(given, word, adapter) || word.part == "scene", ..RIGHT }),
    ("an instance group's adapter not judged", Way { reach: |given, word, adapter| right_reach(given, word, adapter) || word.part == "instance group", ..RIGHT }),
    ("a target's adapter not judged", Way { reach: |given, word, adapter| right_reach(given, word, adapter) || ["lamp", "group"].contains(&word.part), ..RIGHT }),
    // The line.
    ("conditions counted by themselves", Way { line: |entry, triggers| of_conditions(entry, |line| line - triggers), ..RIGHT }),
    ("conditions from 5 on", Way { line: |entry, triggers| of_conditions(entry, |line| line - triggers + 4), ..RIGHT }),
    ("entries from 0 on", Way { line: |entry, _| entry.ordinal - 1, ..RIGHT }),
    ("line 1 for a count", Way { said: |writing, said| with_line(writing, said, |number, line| if number == 55 { line.max(1) } else { line }), ..RIGHT }),
    ("line 0 for an entry", Way { said: |writing, said| with_line(writing, said, |number, line| if number > 54 { 0 } else { line }), ..RIGHT }),
    ("column 1", Way { said: |writing, said| said_if(writing, said, matches!(said, Err((55.., _))), " 0 0\n", " 1 0\n"), ..RIGHT }),
    // What is written.
    ("adapters always written", Way { adapter: |_, _| true, ..RIGHT }),
    ("adapters never written", Way { adapter: |_, _| false, ..RIGHT }),
    ("adapters written if they are listed", Way { adapter: |given, adapter| given.is_listed(adapter), ..RIGHT }),
    ("adapters written if they are not the sheet's primary", Way { adapter: |given, adapter| !is_sheets_primary(given, adapter), ..RIGHT }),
    ("adapter 0 left out", Way { adapter: |given, adapter| !given.is_primary(adapter) && adapter != 0, ..RIGHT }),
    ("a reference with a key", Way { reference: RIGHT.device, ..RIGHT }),
    ("`input device` without a key", Way { device: RIGHT.reference, ..RIGHT }),
    ("an instance without keys", Way { instance: |device, instance, adapter| format!("( {device} , {instance}{adapter} )"), ..RIGHT }),
    ("the instance first", Way { instance: |device, instance, adapter| format!("( inst = {instance} , dev = {device}{adapter} )"), ..RIGHT }),
    ("the adapter before the instance", Way { instance: |device, instance, adapter| format!("( dev = {device}{adapter} , inst = {instance} )"), ..RIGHT }),
    ("the type first", Way {
        group: |group, of, adapter| match of {
            NO_TYPE => (RIGHT.group)(group, of, adapter),
            _ => format!("( type = {of} , group = {group}{adapter} )"),
        },
        ..RIGHT
    }),
    ("the adapter before the type", Way {
        group: |group, of, adapter| match of {
            NO_TYPE => (RIGHT.group)(group, of, adapter),
            _ => format!("( group = {group}{adapter} , type = {of} )"),
        },
        ..RIGHT
    }),
    ("no type as 0", Way { group: |group, of, adapter| (RIGHT.group)(group, if of == NO_TYPE { 0 } else { of }, adapter), ..RIGHT }),
    ("type 0 left out", Way { group: |group, of, adapter| (RIGHT.group)(group, if of == 0 { NO_TYPE } else { of }, adapter), ..RIGHT }),
    ("types as words", Way {
        group: |group, of, adapter| {
            let word = ["0", "button", "absolute", "occupancy", "light"].get(of as usize).copied();
            (RIGHT.group)(group, of, adapter).replace(&format!("type = {of}"), &format!("type = {}", word.unwrap_or("31")))
        },
        ..RIGHT
    }),
    ("durations always in ms", Way { milliseconds: |ms| format!("{ms}ms"), ..RIGHT }),
    ("durations always in s", Way { milliseconds: |ms| format!("{}.{:03}s", ms / 1_000, ms % 1_000), ..RIGHT }),
    ("whole seconds in s", Way { milliseconds: |ms| if ms.is_multiple_of(1_000) { format!("{}s", ms / 1_000) } else { (RIGHT.milliseconds)(ms) }, ..RIGHT }),
    ("1000000000 in s", Way { milliseconds: |ms| if ms == 1_000_000_000 { "1000000.000s".to_string() } else { (RIGHT.milliseconds)(ms) }, ..RIGHT }),
    ("1000000001 in ms", Way { milliseconds: |ms| if ms == 1_000_000_001 { format!("{ms}ms") } else { (RIGHT.milliseconds)(ms) }, ..RIGHT }),
    ("places without zeros behind the point", Way { milliseconds: |ms| in_seconds(ms, |whole, part| format!("{whole}.{part}s")), ..RIGHT }),
    ("places without zeros at the end", Way {
        milliseconds: |ms| in_seconds(ms, |whole, part| format!("{whole}.{part:03}").trim_end_matches('0').to_string() + "s"),
        ..RIGHT
    }),
    ("hours without a zero", Way { clock: |minutes| format!("{}:{:02}", minutes / 60, minutes % 60), ..RIGHT }),
    ("minutes without a zero", Way { clock: |minutes| format!("{:02}:{}", minutes / 60, minutes % 60), ..RIGHT }),
    ("a solar offset of 0 written", Way { solar: |offset| if offset < 0 { "-" } else { "+" }, ..RIGHT }),
    ("solar offsets with the other sign", Way { solar: |offset| match offset { 0 => "", 1.. => "-", _ => "+" }, ..RIGHT }),
    ("solar offsets always added", Way { solar: |offset| if offset == 0 { "" } else { "+" }, ..RIGHT }),
    ("days from sun on", Way { days: |days| { let mut days = (RIGHT.days)(days); if days.last() == Some(&6) { days.rotate_right(1) }; days }, ..RIGHT }),
    ("days from the end", Way { days: |days| (RIGHT.days)(days).into_iter().rev().collect(), ..RIGHT }),
    ("the last day left out", Way { days: |days| (RIGHT.days)(days & !64), ..RIGHT }),
    ("`on` always", Way { on: |_| true, ..RIGHT }),
    ("`on` never", Way { on: |_| false, ..RIGHT }),
    ("`on` for at most five days", Way { on: |days| days.count_ones() <= 5, ..RIGHT }),
    ("a literal with +", Way { literal: |number| if number < 0 { "-" } else { "+" }, ..RIGHT }),
    ("a literal without its sign", Way { literal: |_| "", ..RIGHT }),
    ("a literal 0 with -", Way { literal: |number| if number <= 0 { "-" } else { "" }, ..RIGHT }),
    ("an added 0 with -", Way { added: |number| if number <= 0 { "-" } else { "+" }, ..RIGHT }),
    ("an added number always with +", Way { added: |_| "+", ..RIGHT }),
    ("an added 0 left out", Way { said: |writing, said| with_text(writing, said, |text| text.replace(" + 0 and", " and").trim_end_matches(" + 0").to_string()), ..RIGHT }),
    ("`when` once", Way { said: |writing, said| with_text(writing, said, |text| text.replacen("when ", "WHEN ", 1).replace(" when ", " , ").replace("WHEN ", "when ")), ..RIGHT }),
    ("`if` before each condition", Way { before: ["when", "if", "if"], ..RIGHT }),
    ("`and` between triggers", Way { said: |writing, said| with_text(writing, said, |text| text.replace(" when ", " and when ")), ..RIGHT }),
    ("a sign beside its number", Way { said: |writing, said| with_text(writing, said, |text| text.replace("- ", "-")), ..RIGHT }),
    ("no blanks around signs", Way { said: |writing, said| with_text(writing, said, |text| TIGHT.iter().fold(text.to_string(), |text, (from, to)| text.replace(from, to))), ..RIGHT }),
    ("a blank at the end", Way { said: |writing, said| with_text(writing, said, |text| format!("{text} ")), ..RIGHT }),
    ("LF at the end", Way { said: |writing, said| with_text(writing, said, |text| format!("{text}\n")), ..RIGHT }),
    ("a line for each entry", Way { said: |writing, said| with_text(writing, said, |text| text.replace(" when ", "\nwhen ").replace(" if ", "\nif ")), ..RIGHT }),
    ("the buffer changed", Way { said: |writing, said| said_if(writing, said, said.is_ok(), "kept", "changed"), ..RIGHT }),
    ("the buffer changed on refusal", Way { said: |writing, said| said_if(writing, said, matches!(said, Err((56, _))), "kept", "changed"), ..RIGHT }),
    ("the length in characters", Way {
        said: |writing, said| {
            let text = said.unwrap_or_default();
            let [bytes, characters] = [text.len(), String::from_utf8_lossy(text).chars().count()].map(|length| format!("written {length} "));
            said_if(writing, said, true, &bytes, &characters)
        },
        ..RIGHT
    }),
];
