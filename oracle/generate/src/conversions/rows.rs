//! Rows of the archives, `K,name,A,word`: good ones, and some that are wrong in a field, in their shape or as a whole.

use super::{Known, KINDS};
use crate::damage;
use crate::joins::Row;
use crate::rng::Rng;
use crate::vocabulary::{LONG_NAMES, NAMES, RAW_NAMES};
use cases::{Direction, MOST_BYTES};

/// K, name, A and word.
type Fields = [Vec<u8>; 4];

const NO_KINDS: &[&[u8]] = &[
    b"", b"Lamp", b"LAMP", b"lam", b"lamps", b" lamp", b"lamp ", b"lamp\0", b"lamp\r", b"input", b"input", b"scene", b"adapter", b"party", b"primary", b"Group",
    b"groups", b"grou", b"group ", b"Device", b"devices", b"devic", b"\tdevice", b"light", b"\xff", b"\xef\xbb\xbflamp", b"lamp\"", b"\"lamp\"", b"lamp,lamp",
];

const NO_NAMES: &[&[u8]] = &[
    b"", b"", b"\"", b"\"a\"", b"a\"", b"a\"b", b"\r", b"a\r", b"\ra", b"a\rb", b"Till\r", b"Aisle 3, cold", b"Aisle, cold, 2", b"a,", b",a", b",", b",,", b"a,1",
    b"1,on",
];

const NO_ADAPTERS: &[&[u8]] = &[
    b"256", b"256", b"257", b"300", b"999", b"1000", b"00", b"01", b"01", b"001", b"010", b"0255", b"+1", b"-1", b"-0", b" 1", b"1 ", b" ", b"x", b"1x", b"0x1",
    b"1e1", b"1.0", b"4294967295", b"4294967296", b"4294967297", b"18446744073709551616", b"18446744073709551617", b"\xd9\xa1", b"\xff", b"1\0", b"\0", b"1\r",
    b"\r", b"\"1\"", b"adapter=1", b"1,1", b"25 5",
];

const NO_WORDS: &[&[u8]] = &[
    b"", b"on ", b" on", b"On", b"ON", b"o", b"onn", b"of", b"on\r", b"off\r", b"on\r\r", b"turns on", b"any_on ", b"Any_on", b"any on", b"any_o", b"anyon",
    b"all_off\r", b"alloff", b"becomes any_on", b"goes_offline", b"comes_online", b"goes offline", b"Offline", b"offlin", b"onlin", b"online ", b"online\r", b"on\0",
    b"on,", b"on,on", b"\"on\"", b"1", b"\xff", b"any_event", b"on#", b"off-line", b"in",
];

/// All of the rows.
const ODD: &[&[u8]] = &[
    b"", b"", b"", b"\n", b"\n", b"\n\n", b"\n\n\n\n\n", b"\r\n", b"\r", b",", b",,,\n", b",,,", b"lamp", b"lamp\n", b"lamp,,,on\n", b"lamp,\n", b"\0", b"\0\n",
    b"K,name,A,word\n", b" \n", b"primary,0\n", b"adapter,0\n", b"lamp,0,4,a\n", b"#\n", b"when lamp(\"a\") turns on\n", b"\xff\n", b"\xef\xbb\xbflamp,a,,on\n",
];

pub fn any(rng: &mut Rng, known: &Known) -> Direction {
    if rng.once_in(40) {
        return Direction::Forward { rows: rng.pick(ODD).to_vec() };
    }
    let mut rows: Vec<Fields> = Vec::new();
    for nth in 0..rng.pick(&[1, 1, 1, 2, 2, 3, 4, 4]) {
        let again = nth > 0 && rng.once_in(10);
        let row = if again { rows[nth - 1].clone() } else { good(rng, known) };
        rows.push(row);
    }
    for _ in 0..rng.pick(&[0, 0, 0, 0, 0, 0, 0, 1, 1, 2]) {
        let at = rng.below(rows.len());
        wrong_field(rng, &mut rows[at]);
    }
    let mut lines: Vec<Vec<u8>> = rows.iter().map(|fields| [&fields.join(&b',')[..], b"\n"].concat()).collect();
    if rng.once_in(16) {
        let at = rng.below(lines.len());
        wrong_shape(rng, &mut lines[at]);
    }
    if rng.once_in(9) {
        wrong_whole(rng, known, &mut lines);
    }
    let mut rows = lines.concat();
    if rng.once_in(30) {
        damage::bytes(rng, &mut rows);
    }
    Direction::Forward { rows }
}

/// Something wrong with any rows.
pub fn spoil(rng: &mut Rng, rows: &mut Vec<u8>) {
    match rng.below(4) {
        0 => rows.clear(),
        1 => drop(rows.pop()),
        2 => *rows = b"\n".to_vec(),
        _ => damage::bytes(rng, rows),
    }
}

/// A row of the right shape, whatever the name rules say to it. Mostly it is about a row of the sheet.
fn good(rng: &mut Rng, known: &Known) -> Fields {
    if let Some(row) = known.shared(rng).filter(|_| rng.once_in(8)) {
        return on_both_sides(rng, known, row);
    }
    let of_sheet = known.row(rng).map(|row| (row.kind, row.name.clone(), row.adapter)).filter(|_| !rng.once_in(20));
    let (kind, name, adapter) = of_sheet.unwrap_or_else(|| (rng.pick(&KINDS).0, rng.pick(NAMES).to_vec(), rng.pick(&known.sheet.adapters)));
    let same = KINDS.into_iter().find(|(known, _)| *known == kind).filter(|_| !rng.once_in(20));
    let (kind, words) = same.unwrap_or_else(|| rng.pick(&KINDS));
    let name = if rng.once_in(16) { near(rng, &name) } else { name };
    // A name with a comma makes a row of five fields.
    let name = if name.contains(&b',') && !rng.once_in(8) { without_commas(rng, known) } else { name };
    [kind.word().into(), name, named_adapter(rng, known, adapter), rng.pick(&words).into()]
}

/// The name of a row that another party has too, with an adapter of the party's, whether the name is on it or not.
fn on_both_sides(rng: &mut Rng, known: &Known, row: &Row) -> Fields {
    let words = KINDS.into_iter().find(|(kind, _)| *kind == row.kind).map_or(["on", "off"], |(_, words)| words);
    let listed = known.listed();
    let adapter = if listed.is_empty() { String::new() } else { rng.pick(&listed).to_string() };
    [row.kind.word().into(), row.name.clone(), adapter.into(), rng.pick(&words).into()]
}

/// A name of the sheet that has none, or another.
fn without_commas(rng: &mut Rng, known: &Known) -> Vec<u8> {
    let names: Vec<&[u8]> = known.rows.iter().map(|row| &row.name[..]).filter(|name| !name.contains(&b',')).collect();
    if names.is_empty() { b"a".to_vec() } else { rng.pick(&names).to_vec() }
}

/// None, or the adapter of the row, or another.
fn named_adapter(rng: &mut Rng, known: &Known, adapter: u8) -> Vec<u8> {
    let other = match rng.below(20) {
        0..=7 => return Vec::new(),
        8..=15 => adapter,
        16 => rng.pick(&known.sheet.adapters),
        17 | 18 => { let listed = known.listed(); if listed.is_empty() { adapter } else { rng.pick(&listed) } }
        _ => rng.below(256) as u8,
    };
    other.to_string().into()
}

/// Another name that is near to this one.
fn near(rng: &mut Rng, name: &[u8]) -> Vec<u8> {
    match rng.below(8) {
        0 => name[..name.len() - 1].to_vec(),
        1 => name[1..].to_vec(),
        2 => [name, b" "].concat(),
        3 => [b" ", name].concat(),
        4 => [name, &[rng.pick(b"abx\0")][..]].concat(),
        5 => name.to_ascii_uppercase(),
        6 => { let mut other = name.to_vec(); let at = rng.below(name.len()); other[at] ^= 1; other }
        _ => rng.pick(RAW_NAMES).to_vec(),
    }
}

/// Names of 48 bytes are good, and these are too long: some by one, some by as much that a byte cannot tell.
fn long_name(rng: &mut Rng) -> Vec<u8> {
    match rng.below(3) {
        0 => rng.pick(LONG_NAMES).into(),
        1 => vec![b'a'; rng.pick(&[49, 50, 64, 255, 256, 257, 304, 1_000])],
        _ => [&[0xff; 48][..], b"a"].concat(),
    }
}

fn wrong_field(rng: &mut Rng, fields: &mut Fields) {
    match rng.below(8) {
        0 => fields[0] = rng.pick(NO_KINDS).to_vec(),
        1 => fields[0] = rng.pick(&["lamp", "group", "device"]).into(),
        2 if rng.once_in(2) => fields[1] = long_name(rng),
        2 | 3 => fields[1] = rng.pick(NO_NAMES).to_vec(),
        4 => fields[2] = rng.pick(NO_ADAPTERS).to_vec(),
        5 if !fields[2].is_empty() => { let at = rng.pick(&[0, fields[2].len()]); fields[2].insert(at, rng.pick(b"00 +\r1")) }
        6 => { let (_, words) = rng.pick(&KINDS); fields[3] = rng.pick(&words).into() }
        _ => fields[3] = rng.pick(NO_WORDS).to_vec(),
    }
}

/// A row with a field more or less, with other signs between them, or with another end.
fn wrong_shape(rng: &mut Rng, line: &mut Vec<u8>) {
    let commas: Vec<usize> = (0..line.len()).filter(|&at| line[at] == b',').collect();
    let comma = if commas.is_empty() { 0 } else { rng.pick(&commas) };
    let end = line.len() - 1;
    match rng.below(10) {
        0 => drop(line.splice(..comma, [])),
        1 => drop(line.splice(comma..end, [])),
        2 => line.insert(rng.pick(&[0, comma, end]), b','),
        3 => drop(line.splice(end..end, rng.pick(&[b",on", b",of", b", 1"]).iter().copied())),
        4 => line[comma] = rng.pick(b";\t .:"),
        5 => drop(line.remove(comma)),
        6 => line.insert(0, b'\n'),
        _ => drop(line.splice(end..end, rng.pick(&[&b"\r"[..], b"\r", b"\r", b"\r\r", b"\0", b" "]).iter().copied())),
    }
}

/// Without the last LF, with CR before each, with a row too many or an empty one, or very long.
fn wrong_whole(rng: &mut Rng, known: &Known, lines: &mut Vec<Vec<u8>>) {
    let more = |rng: &mut Rng, lines: &mut Vec<Vec<u8>>| {
        let mut row = good(rng, known);
        if rng.once_in(6) {
            wrong_field(rng, &mut row);
        }
        lines.push([&row.join(&b',')[..], b"\n"].concat());
    };
    match rng.below(12) {
        0..=2 => drop(lines.last_mut().and_then(Vec::pop)),
        3 => lines.iter_mut().for_each(|line| line.insert(line.len() - 1, b'\r')),
        4 => { let at = rng.within(0, lines.len()); lines.insert(at, b"\n".to_vec()) }
        5 if rng.once_in(6) => *lines = vec![lines[0].clone(); MOST_BYTES / lines[0].len()],
        _ => {
            while lines.len() < 4 {
                more(rng, lines);
            }
            match rng.below(6) {
                0 => lines.push(b"\n".to_vec()),
                1 => lines.push(vec![rng.pick(b"xl,\r\0 ")]),
                2 => { more(rng, lines); lines.last_mut().and_then(Vec::pop); }
                3 => { more(rng, lines); more(rng, lines) }
                _ => more(rng, lines),
            }
        }
    }
}
