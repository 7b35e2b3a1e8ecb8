//! Readers with a seeded fault against document 02 §10, rows to triggers: what a hurried port may do. Each is the right way but for one step.

use super::asked::{Given, Named, Refused, KINDS};
use super::back::{named_lines, Line};
use super::back_faults::once;
use super::forward::{cut, Ask, Refusal, Said, Way, RIGHT};
use cases::{fields, lines, own_primary, Conversion};
use std::collections::BTreeSet;
use Ask::{Names, Primary, Shape, Sheet};

/// A row without what stands around it.
fn trimmed(row: &[u8], is: fn(&u8) -> bool) -> &[u8] {
    let start = row.iter().position(|byte| !is(byte)).unwrap_or(row.len());
    let end = row.iter().rposition(|byte| !is(byte)).map_or(start, |last| last + 1);
    &row[start..end]
}

fn right_end(row: &[u8]) -> Option<&[u8]> {
    (RIGHT.end)(row)
}

/// The right fields, each with something taken away.
fn with_fields(row: &[u8], change: fn(&[u8]) -> &[u8]) -> Option<[&[u8]; 4]> {
    (RIGHT.fields)(row).map(|fields| fields.map(change))
}

/// The place of the first K of which this is true.
fn kind_with(is: impl Fn(&[u8]) -> bool) -> Option<usize> {
    KINDS.iter().position(|kind| is(kind.word.as_bytes()))
}

/// The place of the first word of which this is true.
fn word_with(kind: usize, is: impl Fn(&[u8]) -> bool) -> Option<usize> {
    KINDS[kind].words.iter().position(|word| is(word.as_bytes()))
}

/// The right word, for one K the other.
fn swapped(kind: usize, word: &[u8], of: usize) -> Option<usize> {
    (RIGHT.word)(kind, word).map(|place| if kind == of { 1 - place } else { place })
}

fn unquoted(name: &[u8]) -> bool {
    !name.contains(&b'"') && !name.contains(&b'\r')
}

/// The number of digits alone.
fn digits(adapter: &[u8]) -> Option<u64> {
    let all = !adapter.is_empty() && adapter.iter().all(u8::is_ascii_digit);
    std::str::from_utf8(adapter).ok().filter(|_| all)?.parse().ok()
}

fn right_adapter(adapter: &[u8]) -> Option<String> {
    (RIGHT.adapter)(adapter)
}

/// What digits come to, if to something, else the right adapter.
fn right_or(adapter: &[u8], other: fn(u64) -> Option<u64>) -> Option<String> {
    digits(adapter).and_then(other).map(|number| number.to_string()).or_else(|| right_adapter(adapter))
}

/// The right meaning with another sheet, of party 0 if it has no parties any more.
fn with_sheet(given: &Given, named: &Named, sheet: Vec<u8>) -> Result<String, Refused> {
    let conversion = Conversion { sheet, ..given.conversion.clone() };
    Given { conversion: &conversion, call: given.call }.meant(named)
}

/// The sheet with only such lines behind the first.
fn filtered(sheet: &[u8], is: impl Fn(&[&[u8]]) -> bool) -> Vec<u8> {
    (0..).zip(lines(sheet)).filter(|(at, line)| *at == 0 || is(&fields(line))).map(|(_, line)| line).collect::<Vec<_>>().join(&b'\n')
}

/// The sheet with this line too, if it has room for it.
fn with_line(sheet: &[u8], line: String) -> Vec<u8> {
    let longer = [&lines(sheet).join(&b'\n')[..], line.as_bytes()].join(&b'\n');
    if lines(sheet).len() > 512 || longer.len() > 16_384 { sheet.to_vec() } else { longer }
}

/// The sheet with the adapter of a row among those listed.
fn with_adapter(given: &Given, named: &Named) -> Vec<u8> {
    let sheet = &given.conversion.sheet;
    if named.adapter.is_empty() { sheet.clone() } else { with_line(sheet, format!("adapter,{}", named.adapter)) }
}

/// Without party rows, for party 0.
fn without_parties(given: &Given, named: &Named) -> Result<String, Refused> {
    let sheet = filtered(&given.conversion.sheet, |fields| fields[0] != b"party");
    let conversion = Conversion { sheet, party: 0, ..given.conversion.clone() };
    Given { conversion: &conversion, call: given.call }.meant(named)
}

/// With the adapters of party 0 that the sheet names given to the party.
fn with_party_0(given: &Given, named: &Named) -> Result<String, Refused> {
    let (sheet, party) = (&given.conversion.sheet, given.conversion.party);
    let kept = filtered(sheet, |fields| fields[0] != b"party" || fields[2] != b"0");
    let owned = |adapter: &[u8]| lines(&kept).into_iter().map(fields).any(|fields| fields[0] == b"party" && fields[1] == adapter);
    let adapters: BTreeSet<&[u8]> = lines(&kept)[1..].iter().map(|line| fields(line)[1]).filter(|adapter| !owned(adapter)).collect();
    let rows = adapters.iter().map(|adapter| [b"party,", *adapter, b",", party.to_string().as_bytes()].concat());
    let all = [kept.clone()].into_iter().chain(rows).collect::<Vec<_>>().join(&b'\n');
    with_sheet(given, named, if all.len() <= 16_384 && lines(&all).len() <= 513 { all } else { sheet.clone() })
}

/// The right meaning, or in the place of some refusals what a line of the sheet gives.
fn or_line(given: &Given, named: &Named, numbers: &[u32], chosen: impl Fn(Vec<Line>) -> Option<Line>) -> Result<String, Refused> {
    given.meant(named).or_else(|refused| {
        let fits = |line: &Line| line.kind == named.kind.word.as_bytes() && (named.adapter.is_empty() || line.adapter == named.adapter.as_bytes());
        let lines = named_lines(&given.conversion.sheet).into_iter().filter(fits).collect();
        let Some(line) = chosen(lines).filter(|_| numbers.contains(&refused.0)) else { return Err(refused) };
        let [adapter, number] = [line.adapter, line.number].map(|field| String::from_utf8_lossy(field).to_string());
        Ok(named.kind.line(&adapter, &number, named.word))
    })
}

/// The same with the first line that has such a name.
fn or_first(given: &Given, named: &Named, numbers: &[u32], is: impl Fn(&[u8]) -> bool) -> Result<String, Refused> {
    or_line(given, named, numbers, |lines| lines.into_iter().find(|line| is(line.name)))
}

/// The right meaning with other refusals.
fn refused_as(given: &Given, named: &Named, other: impl Fn(Refused) -> Refused) -> Result<String, Refused> {
    given.meant(named).map_err(other)
}

/// The right answer with another refusal.
fn said_as(conversion: &Conversion, said: Said, other: impl Fn(Refusal) -> Refusal) -> String {
    (RIGHT.said)(conversion, said.map_err(other))
}

/// The right answer with other triggers.
fn said_with(conversion: &Conversion, said: Said, other: impl Fn(&[String]) -> Vec<String>) -> String {
    (RIGHT.said)(conversion, said.map(&other).as_deref().map_err(|refused| *refused))
}

pub const FAULTS: &[(&str, Way)] = &[
    // The order of the questions.
    ("60 first", Way { order: [Shape, Sheet, Primary, Names], ..RIGHT }),
    ("60 before 53", Way { order: [Sheet, Shape, Primary, Names], ..RIGHT }),
    ("53 last", Way { order: [Sheet, Shape, Names, Primary], ..RIGHT }),
    ("names before 60", Way { order: [Sheet, Primary, Names, Shape], ..RIGHT }),
    ("60 and names row by row", Way { in_turn: true, ..RIGHT }),
    ("60 not asked", Way { order: [Sheet, Primary, Names, Sheet], ..RIGHT }),
    // How many rows.
    ("a fifth row first", Way { count_first: true, ..RIGHT }),
    ("five rows", Way { most: 5, ..RIGHT }),
    ("three rows", Way { most: 3, ..RIGHT }),
    ("any number of rows", Way { most: usize::MAX, ..RIGHT }),
    ("no rows too", Way { none: None, ..RIGHT }),
    ("line 1 for no rows", Way { none: Some(1), ..RIGHT }),
    ("empty rows left out", Way { rows: |rows| cut(rows).into_iter().filter(|row| *row != b"\n").collect(), ..RIGHT }),
    ("an empty row at the end left out", Way { rows: |rows| { let mut rows = cut(rows); if rows.last() == Some(&&b"\n"[..]) { rows.pop(); } rows }, ..RIGHT }),
    ("what is behind the fourth row left out", Way { rows: |rows| { let mut rows = cut(rows); rows.truncate(4); rows }, ..RIGHT }),
    ("a byte behind the fourth row left out", Way {
        rows: |rows| { let mut rows = cut(rows); if rows.len() == 5 && !rows[4].ends_with(b"\n") { rows.pop(); } rows },
        ..RIGHT
    }),
    // The end of a row.
    ("the last row without LF", Way { end: |row| Some(row.strip_suffix(b"\n").unwrap_or(row)), ..RIGHT }),
    ("CR before LF", Way { end: |row| right_end(row).map(|row| row.strip_suffix(b"\r").unwrap_or(row)), ..RIGHT }),
    ("any CR before LF", Way { end: |row| right_end(row).map(|row| trimmed(row, |byte| *byte == b'\r')), ..RIGHT }),
    ("blanks around a row", Way { end: |row| right_end(row).map(|row| trimmed(row, |byte| *byte == b' ')), ..RIGHT }),
    ("a row up to a NUL", Way { end: |row| right_end(row).map(|row| row.split(|&byte| byte == 0).next().unwrap_or(row)), ..RIGHT }),
    // Fields.
    ("a name with commas", Way {
        fields: |row| {
            let commas: Vec<usize> = (0..row.len()).filter(|&at| row[at] == b',').collect();
            let [first, .., two, three] = commas[..] else { return None };
            Some([&row[..first], &row[first + 1..two], &row[two + 1..three], &row[three + 1..]])
        },
        name: |name| (1..=48).contains(&name.len()) && unquoted(name),
        ..RIGHT
    }),
    ("fields behind the fourth left out", Way { fields: |row| row.split(|&byte| byte == b',').collect::<Vec<_>>().first_chunk().copied(), ..RIGHT }),
    ("A left out", Way {
        fields: |row| match row.split(|&byte| byte == b',').collect::<Vec<_>>()[..] {
            [kind, name, word] => Some([kind, name, b"", word]),
            _ => (RIGHT.fields)(row),
        },
        ..RIGHT
    }),
    ("blanks around fields", Way { fields: |row| with_fields(row, |field| trimmed(field, |byte| *byte == b' ')), ..RIGHT }),
    ("quotes around fields", Way {
        fields: |row| with_fields(row, |field| field.strip_prefix(b"\"").and_then(|field| field.strip_suffix(b"\"")).unwrap_or(field)),
        ..RIGHT
    }),
    ("semicolons too", Way {
        fields: |row| match row.split(|byte| b",;".contains(byte)).collect::<Vec<_>>()[..] {
            [kind, name, adapter, word] => Some([kind, name, adapter, word]),
            _ => None,
        },
        ..RIGHT
    }),
    // K and the words.
    ("K in capitals", Way { kind: |kind| kind_with(|known| known.eq_ignore_ascii_case(kind)), ..RIGHT }),
    ("K by its beginning", Way { kind: |kind| kind_with(|known| kind.starts_with(known)), ..RIGHT }),
    ("K by its first letter", Way { kind: |kind| kind_with(|known| kind.first() == known.first()), ..RIGHT }),
    ("input as device", Way { kind: |kind| if kind == b"input" { Some(2) } else { (RIGHT.kind)(kind) }, ..RIGHT }),
    ("no devices", Way { kind: |kind| (RIGHT.kind)(kind).filter(|kind| *kind < 2), ..RIGHT }),
    ("no groups", Way { kind: |kind| (RIGHT.kind)(kind).filter(|kind| *kind != 1), ..RIGHT }),
    ("words in capitals", Way { word: |kind, word| word_with(kind, |known| known.eq_ignore_ascii_case(word)), ..RIGHT }),
    ("words by their beginning", Way { word: |kind, word| word_with(kind, |known| word.starts_with(known)), ..RIGHT }),
    ("words of any K", Way { word: |_, word| (0..3).find_map(|kind| (RIGHT.word)(kind, word)), ..RIGHT }),
    ("every other word is the second", Way { word: |kind, word| Some(usize::from((RIGHT.word)(kind, word) != Some(0))), ..RIGHT }),
    ("a lamp's words swapped", Way { word: |kind, word| swapped(kind, word, 0), ..RIGHT }),
    ("a group's words swapped", Way { word: |kind, word| swapped(kind, word, 1), ..RIGHT }),
    ("a device's words swapped", Way { word: |kind, word| swapped(kind, word, 2), ..RIGHT }),
    ("goes_offline and comes_online too", Way {
        word: |kind, word| (RIGHT.word)(kind, word).or([&b"goes_offline"[..], b"comes_online"].iter().position(|known| kind == 2 && *known == word)),
        ..RIGHT
    }),
    // The name.
    ("an empty name", Way { name: |name| name.is_empty() || (RIGHT.name)(name), ..RIGHT }),
    ("a name of 49 bytes", Way { name: |name| (1..=49).contains(&name.len()) && unquoted(name), ..RIGHT }),
    ("a name of 48 bytes not", Way { name: |name| (RIGHT.name)(name) && name.len() < 48, ..RIGHT }),
    ("a name of 1 byte not", Way { name: |name| (RIGHT.name)(name) && name.len() > 1, ..RIGHT }),
    ("names of any length", Way { name: |name| !name.is_empty() && unquoted(name), ..RIGHT }),
    ("a name's length as a byte", Way { name: |name| (1..=48).contains(&(name.len() as u8)) && unquoted(name), ..RIGHT }),
    ("a name's length in characters", Way { name: |name| (1..=48).contains(&String::from_utf8_lossy(name).chars().count()) && unquoted(name), ..RIGHT }),
    ("a quote in a name", Way { name: |name| (1..=48).contains(&name.len()) && !name.contains(&b'\r'), ..RIGHT }),
    ("CR in a name", Way { name: |name| (1..=48).contains(&name.len()) && !name.contains(&b'"'), ..RIGHT }),
    ("names not UTF-8 not", Way { name: |name| (RIGHT.name)(name) && std::str::from_utf8(name).is_ok(), ..RIGHT }),
    ("ASCII alone", Way { name: |name| (RIGHT.name)(name) && name.is_ascii(), ..RIGHT }),
    ("no NUL in a name", Way { name: |name| (RIGHT.name)(name) && !name.contains(&0), ..RIGHT }),
    ("no # in a name", Way { name: |name| (RIGHT.name)(name) && !name.contains(&b'#'), ..RIGHT }),
    ("no blank at the ends of a name", Way { name: |name| (RIGHT.name)(name) && name.trim_ascii() == name, ..RIGHT }),
    // A.
    ("A 256", Way { adapter: |adapter| if adapter == b"256" { Some("256".into()) } else { right_adapter(adapter) }, ..RIGHT }),
    ("A of any digits", Way { adapter: |adapter| right_or(adapter, Some), ..RIGHT }),
    ("A past 255 not listed", Way { adapter: |adapter| right_or(adapter, |number| (number > 255).then_some(77)), ..RIGHT }),
    ("A as a byte", Way { adapter: |adapter| right_or(adapter, |number| Some(u64::from(number as u8))), ..RIGHT }),
    ("A of 32 bits", Way { adapter: |adapter| right_or(adapter, |number| Some(number as u32).filter(|number| *number <= 255).map(u64::from)), ..RIGHT }),
    ("A with zeros before it", Way { adapter: |adapter| right_or(adapter, |number| Some(number).filter(|number| *number <= 255)), ..RIGHT }),
    ("A 00", Way { adapter: |adapter| if adapter == b"00" { Some("0".into()) } else { right_adapter(adapter) }, ..RIGHT }),
    ("A with a sign", Way { adapter: |adapter| right_adapter(adapter.strip_prefix(b"+").unwrap_or(adapter)), ..RIGHT }),
    ("A with blanks", Way { adapter: |adapter| right_adapter(trimmed(adapter, |byte| *byte == b' ')), ..RIGHT }),
    ("A that is no number is none", Way { adapter: |adapter| right_adapter(adapter).or(Some(String::new())), ..RIGHT }),
    ("A is needed", Way { adapter: |adapter| right_adapter(adapter).filter(|adapter| !adapter.is_empty()), ..RIGHT }),
    ("A 0 is none", Way { adapter: |adapter| right_adapter(adapter).map(|adapter| if adapter == "0" { String::new() } else { adapter }), ..RIGHT }),
    ("A 255 not", Way { adapter: |adapter| right_adapter(adapter).filter(|adapter| adapter != "255"), ..RIGHT }),
    ("A not looked at", Way { adapter: |adapter| right_adapter(adapter).map(|_| String::new()), ..RIGHT }),
    // The name rules.
    ("no A is the primary", Way {
        meaning: |given, named| {
            let primary = given.conversion.primary.to_string();
            given.meant(&Named { adapter: if named.adapter.is_empty() { primary } else { named.adapter.clone() }, ..named.clone() })
        },
        ..RIGHT
    }),
    ("no A is the sheet's primary", Way {
        meaning: |given, named| {
            let primary = own_primary(&given.conversion.sheet).to_string();
            given.meant(&Named { adapter: if named.adapter.is_empty() { primary } else { named.adapter.clone() }, ..named.clone() })
        },
        ..RIGHT
    }),
    ("25 not asked", Way { meaning: |given, named| with_sheet(given, named, with_adapter(given, named)), ..RIGHT }),
    ("25 behind 31", Way {
        meaning: |given, named| match given.meant(&Named { adapter: String::new(), ..named.clone() }) {
            Err((31, detail)) => Err((31, detail)),
            _ => given.meant(named),
        },
        ..RIGHT
    }),
    ("25 behind all name rules", Way {
        meaning: |given, named| with_sheet(given, named, with_adapter(given, named)).and_then(|_| given.meant(named)),
        ..RIGHT
    }),
    ("25 for names alone", Way {
        meaning: |given, named| {
            let line = given.meant(named)?;
            let adapter = line.split(' ').nth(2).unwrap_or_default().to_string();
            given.meant(&Named { adapter, ..named.clone() })
        },
        ..RIGHT
    }),
    ("names on listed adapters alone", Way {
        meaning: |given, named| {
            let sheet = &given.conversion.sheet;
            let listed = |adapter: &[u8]| lines(sheet).into_iter().map(fields).any(|fields| fields[0] == b"adapter" && fields[1] == adapter);
            with_sheet(given, named, filtered(sheet, |fields| fields.len() < 4 || listed(fields[1])))
        },
        ..RIGHT
    }),
    ("another party's rows too", Way { meaning: without_parties, ..RIGHT }),
    ("another party's listed adapters too", Way {
        meaning: |given, named| given.meant(named).or_else(|(number, detail)| if number == 25 { without_parties(given, named) } else { Err((number, detail)) }),
        ..RIGHT
    }),
    ("party 0's rows too", Way { meaning: with_party_0, ..RIGHT }),
    ("the first of several rows", Way { meaning: |given, named| or_first(given, named, &[33, 34], |name| name == named.name), ..RIGHT }),
    ("the last of several rows", Way {
        meaning: |given, named| or_line(given, named, &[33, 34], |lines| lines.into_iter().rfind(|line| line.name == named.name)),
        ..RIGHT
    }),
    ("the first of several adapters", Way { meaning: |given, named| or_first(given, named, &[34], |name| name == named.name), ..RIGHT }),
    ("two rows with one number", Way {
        meaning: |given, named| or_line(given, named, &[33], |lines| {
            let lines: Vec<Line> = lines.into_iter().filter(|line| line.name == named.name).collect();
            lines.iter().all(|line| (line.adapter, line.number) == (lines[0].adapter, lines[0].number)).then(|| lines.first().copied())?
        }),
        ..RIGHT
    }),
    ("names in any letters", Way { meaning: |given, named| or_first(given, named, &[31], |name| name.eq_ignore_ascii_case(named.name)), ..RIGHT }),
    ("names by their beginning", Way { meaning: |given, named| or_first(given, named, &[31], |name| name.starts_with(named.name)), ..RIGHT }),
    ("a name up to a comma", Way {
        meaning: |given, named| or_first(given, named, &[31], |name| name.split(|&byte| byte == b',').next() == Some(named.name)),
        ..RIGHT
    }),
    ("names of any kind", Way {
        meaning: |given, named| {
            let reference = || KINDS.iter().filter_map(|kind| given.meant(&Named { kind, ..named.clone() }).ok()).next();
            given.meant(named).or_else(|refused| match reference() {
                Some(line) if refused.0 == 31 => {
                    let fields: Vec<&str> = line.split(' ').collect();
                    Ok(named.kind.line(fields[2], fields[3], named.word))
                }
                _ => Err(refused),
            })
        },
        ..RIGHT
    }),
    // Refusals.
    ("31 for 32", Way { meaning: |given, named| refused_as(given, named, |(number, detail)| if number == 32 { (31, 0) } else { (number, detail) }), ..RIGHT }),
    ("33 for 34", Way { meaning: |given, named| refused_as(given, named, |(number, detail)| (if number == 34 { 33 } else { number }, detail)), ..RIGHT }),
    ("34 for 33", Way { meaning: |given, named| refused_as(given, named, |(number, detail)| (if number == 33 { 34 } else { number }, detail)), ..RIGHT }),
    ("details as bytes", Way { meaning: |given, named| refused_as(given, named, |(number, detail)| (number, detail & 0xff)), ..RIGHT }),
    ("no detail", Way { meaning: |given, named| refused_as(given, named, |(number, _)| (number, 0)), ..RIGHT }),
    ("the detail of 32 is A", Way {
        meaning: |given, named| refused_as(given, named, |(number, detail)| (number, if number == 32 { named.adapter.parse().unwrap_or(0) } else { detail })),
        ..RIGHT
    }),
    ("the detail of 33 is that of all adapters", Way {
        meaning: |given, named| refused_as(given, named, |(number, detail)| match given.meant(&Named { adapter: String::new(), ..named.clone() }) {
            Err((_, all)) if number == 33 => (number, all),
            _ => (number, detail),
        }),
        ..RIGHT
    }),
    ("rows from 0 on", Way { said: |conversion, said| said_as(conversion, said, |(number, row, detail)| (number, row.saturating_sub(1), detail)), ..RIGHT }),
    ("line 1 for every row", Way { said: |conversion, said| said_as(conversion, said, |(number, row, detail)| (number, row.min(1), detail)), ..RIGHT }),
    ("line 0 for a name", Way {
        said: |conversion, said| said_as(conversion, said, |(number, row, detail)| (number, if (25..60).contains(&number) { 0 } else { row }, detail)),
        ..RIGHT
    }),
    ("column 1", Way { said: |conversion, said| (RIGHT.said)(conversion, said).replace(" 0 0\n", " 1 0\n"), ..RIGHT }),
    ("61 for 60", Way {
        said: |conversion, said| said_as(conversion, said, |(number, row, detail)| (if number == 60 { 61 } else { number }, row, detail)),
        ..RIGHT
    }),
    // What is accepted.
    ("triggers from the last on", Way { said: |conversion, said| said_with(conversion, said, |lines| lines.iter().rev().cloned().collect()), ..RIGHT }),
    ("equal triggers once", Way { said: |conversion, said| said_with(conversion, said, |lines| once(lines.to_vec())), ..RIGHT }),
    ("the first row alone", Way { said: |conversion, said| said_with(conversion, said, |lines| lines[..lines.len().min(1)].to_vec()), ..RIGHT }),
    ("the primary in the place of the adapter", Way {
        said: |conversion, said| said_with(conversion, said, |lines| lines.iter().map(|line| {
            let fields: Vec<&str> = line.split(' ').collect();
            [fields[0], fields[1], &conversion.primary.to_string(), fields[3], fields[4]].join(" ")
        }).collect()),
        ..RIGHT
    }),
];
