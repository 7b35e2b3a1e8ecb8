//! Name sheets: good ones, with what a text can take from them, and broken ones of every kind.

use crate::line_ends::{self, Ends};
use crate::parties::{self, Owned};
use crate::rng::Rng;
use crate::vocabulary::{NAMES, RAW_NAMES};

#[derive(Debug, Clone, Copy, PartialEq, Eq)]
pub enum Kind {
    Lamp,
    Group,
    Device,
    Input,
}

pub const KINDS: [Kind; 4] = [Kind::Lamp, Kind::Group, Kind::Device, Kind::Input];

impl Kind {
    pub fn word(self) -> &'static str {
        match self {
            Kind::Lamp => "lamp",
            Kind::Group => "group",
            Kind::Device => "device",
            Kind::Input => "input",
        }
    }

    /// The highest number that a row or an id of this kind has.
    pub fn last(self) -> usize {
        if self == Kind::Group { 15 } else { 63 }
    }
}

#[derive(Debug, Clone, Copy)]
pub struct Row {
    pub kind: Kind,
    pub adapter: u8,
    pub name: &'static [u8],
}

/// A sheet's bytes, and what it says, for texts that refer to it; with it what else the call gives to which such a text belongs.
#[derive(Debug, Default)]
pub struct Sheet {
    pub bytes: Vec<u8>,
    pub rows: Vec<Row>,
    pub listed: Vec<u8>,
    /// The adapter that the first line names.
    pub primary: u8,
    pub parties: Vec<Owned>,
    /// Some adapter, those that its rows may be about, and those of its party rows.
    pub adapters: Vec<u8>,
    /// The party of the call that texts are for.
    pub party: u8,
    /// Whether that call has the shop profile.
    pub shop: bool,
    /// The topics that the call lends, as far as they can stand in a string.
    pub topics: Vec<Vec<u8>>,
}

/// The bounds of document 01 for a sheet.
pub const MOST_ROWS: usize = 512;
pub const MOST_BYTES: usize = 16_384;

/// A line behind the first.
#[derive(Debug, Clone, Copy)]
enum Line {
    Adapter(u8),
    Party(Owned),
    Named(Row, usize),
}

impl Line {
    /// The line without its end.
    fn bytes(self) -> Vec<u8> {
        match self {
            Line::Adapter(adapter) => format!("adapter,{adapter}").into_bytes(),
            Line::Party((adapter, party)) => format!("party,{adapter},{party}").into_bytes(),
            Line::Named(row, number) => [format!("{},{},{number},", row.kind.word(), row.adapter).as_bytes(), row.name].concat(),
        }
    }
}

impl Sheet {
    fn add(&mut self, line: Line) {
        match line {
            Line::Adapter(adapter) => self.listed.push(adapter),
            Line::Party((adapter, party)) => {
                self.parties.push((adapter, party));
                self.adapters.push(adapter);
            }
            Line::Named(row, _) => self.rows.push(row),
        }
    }

    /// Takes topics that a text may name from what the call lends; of many the last ones.
    pub fn lend(&mut self, topics: &[u8]) {
        let lines = topics.split(|&b| b == b'\n').rev().filter(|line| !line.is_empty() && !line.contains(&b'"'));
        let in_texts = lines.filter(|line| std::str::from_utf8(line).is_ok());
        self.topics = in_texts.take(16).map(<[u8]>::to_vec).collect();
    }

    pub fn party_of(&self, adapter: u8) -> u8 {
        self.parties.iter().find(|row| row.0 == adapter).map_or(0, |row| row.1)
    }

    /// Whether the adapter is the party's that texts are for.
    pub fn is_own(&self, adapter: u8) -> bool {
        self.party_of(adapter) == self.party
    }
}

/// How many rows a good sheet gets: mostly a few, now and then none, many, or as many as there may be.
fn row_count(rng: &mut Rng) -> usize {
    match rng.below(400) {
        0 => MOST_ROWS,
        1 => MOST_ROWS - 1,
        2..=9 => rng.within(20, 80),
        10..=30 => 0,
        31..=230 => rng.within(1, 6),
        _ => rng.within(5, 12),
    }
}

pub fn adapter_number(rng: &mut Rng) -> u8 {
    rng.pick(&[0, 0, 0, 1, 1, 2, 9, 10, 99, 100, 199, 254, 255])
}

/// The few names and adapters that a sheet's rows share, so that names meet on one adapter, on several, and in
/// other kinds.
struct Palette {
    names: [&'static [u8]; 6],
    adapters: [u8; 3],
    /// The numbers of all rows, if these are to be few.
    numbers: Option<[usize; 2]>,
}

impl Palette {
    fn number(&self, rng: &mut Rng, kind: Kind) -> usize {
        match &self.numbers {
            Some(few) => rng.pick(few).min(kind.last()),
            None => rng.within(0, kind.last()),
        }
    }
}

/// The palette for a sheet of `count` rows; many rows have short names, or else the sheet would get too long.
fn palette(rng: &mut Rng, count: usize) -> Palette {
    let longest = if count > 200 { 10 } else { 48 };
    let mut names = [NAMES[0]; 6];
    for name in &mut names {
        let other = if rng.once_in(60) { rng.pick(RAW_NAMES) } else { rng.pick(NAMES) };
        if other.len() <= longest {
            *name = other;
        }
    }
    let adapters = [adapter_number(rng), adapter_number(rng), adapter_number(rng)];
    Palette { names, adapters, numbers: None }
}

fn random_row(rng: &mut Rng, palette: &Palette) -> (Row, usize) {
    let kind = rng.pick(&KINDS);
    let number = match rng.below(4) {
        0 if palette.numbers.is_none() => rng.pick(&[0, 1, kind.last()]),
        _ => palette.number(rng, kind),
    };
    (Row { kind, adapter: rng.pick(&palette.adapters), name: rng.pick(&palette.names) }, number)
}

/// A well-formed sheet, with party rows once in `seldom` times.
pub fn good(rng: &mut Rng, seldom: usize) -> Sheet {
    let shared = rng.once_in(seldom);
    let count = row_count(rng);
    // Party rows are to leave room for as many names as there are without them.
    let more = if shared && (1..MOST_ROWS / 2).contains(&count) { 5 } else { 0 };
    made(rng, count + more, shared)
}

/// A well-formed sheet of exactly `count` rows, if that is at most 512.
pub fn filled(rng: &mut Rng, count: usize) -> Sheet {
    let shared = rng.once_in(2);
    made(rng, count, shared)
}

/// A well-formed sheet in which few lamps, groups and devices have many rows.
pub fn crowded(rng: &mut Rng) -> Sheet {
    let (shared, count) = (rng.once_in(2), rng.within(4, 20));
    let numbers = Some([rng.pick(&[0, 4, 15, 63]), rng.within(0, 63)]);
    let palette = Palette { numbers, ..palette(rng, count) };
    made_of(rng, &palette, count, shared)
}

fn made(rng: &mut Rng, count: usize, shared: bool) -> Sheet {
    let palette = palette(rng, count);
    made_of(rng, &palette, count, shared)
}

fn made_of(rng: &mut Rng, palette: &Palette, count: usize, shared: bool) -> Sheet {
    let listed = palette.adapters.iter().copied().filter(|_| !rng.once_in(8)).map(Line::Adapter).collect();
    let parties = if shared { parties::rows(rng, &palette.adapters, count) } else { Vec::new() };
    let primary = if rng.once_in(8) { adapter_number(rng) } else { palette.adapters[0] };
    let mut sheet = Sheet { adapters: palette.adapters.to_vec(), primary, ..Sheet::default() };
    let mut lines = vec![format!("primary,{primary}").into_bytes()];
    for line in arranged(rng, palette, count, [listed, parties.into_iter().map(Line::Party).collect()]) {
        lines.push(line.bytes());
        sheet.add(line);
    }
    sheet.bytes = Ends::any(rng).join(rng, &lines);
    sheet
}

/// Exactly `count` lines: as many of both lists as fit, and names.
fn arranged(rng: &mut Rng, palette: &Palette, count: usize, lists: [Vec<Line>; 2]) -> Vec<Line> {
    let [mut listed, mut parties] = lists;
    listed.truncate(count);
    parties.truncate(count - listed.len());
    let mut lines = named(rng, palette, count - listed.len() - parties.len());
    put_among(rng, &mut lines, listed);
    put_among(rng, &mut lines, parties);
    lines
}

/// Rows with names; now and then one has the name and kind of the one before it, on its adapter or on another.
fn named(rng: &mut Rng, palette: &Palette, count: usize) -> Vec<Line> {
    let mut last: Option<Row> = None;
    let mut lines = Vec::with_capacity(count);
    for _ in 0..count {
        let (row, number) = match last {
            Some(row) if rng.once_in(12) => (row, palette.number(rng, row.kind)),
            Some(row) if rng.once_in(8) => {
                let adapter = rng.pick(&palette.adapters);
                (Row { adapter, ..row }, palette.number(rng, row.kind))
            }
            _ => random_row(rng, palette),
        };
        lines.push(Line::Named(row, number));
        last = Some(row);
    }
    lines
}

/// Mostly before the other lines, else behind or among them.
fn put_among(rng: &mut Rng, lines: &mut Vec<Line>, more: Vec<Line>) {
    match rng.below(6) {
        0 => lines.extend(more),
        1 | 2 => {
            for line in more {
                lines.insert(rng.within(0, lines.len()), line);
            }
        }
        _ => drop(lines.splice(0..0, more)),
    }
}

/// A sheet with good rows, whose lines have this end, and exactly `length` bytes, which are at least 200.
pub fn of_length(length: usize, end: &str) -> Vec<u8> {
    let mut bytes = format!("primary,0{end}adapter,0{end}").into_bytes();
    let longest = LONGEST_ROW + end.len();
    while length - bytes.len() > 2 * longest {
        long_row(&mut bytes, longest, end);
    }
    let left = length - bytes.len();
    long_row(&mut bytes, left / 2, end);
    long_row(&mut bytes, left - left / 2, end);
    bytes
}

/// The length of a lamp row with a name of 48 bytes, without its end.
const LONGEST_ROW: usize = 58;

fn long_row(bytes: &mut Vec<u8>, length: usize, end: &str) {
    let before_end = bytes.len() + length - end.len();
    bytes.extend_from_slice(b"lamp,0,12,");
    bytes.resize(before_end, b'x');
    bytes.extend_from_slice(end.as_bytes());
}

/// The same with line ends of one sort or of both.
fn long(rng: &mut Rng, length: usize) -> Vec<u8> {
    const MOST_CR: usize = 200;
    match rng.below(3) {
        0 => of_length(length, "\n"),
        1 => of_length(length, "\r\n"),
        _ => { let count = rng.within(1, MOST_CR); line_ends::with_cr(rng, &of_length(length - count, "\n"), count) }
    }
}

/// Rows that no sheet may have, each for one reason.
const BROKEN_ROWS: &[&[u8]] = &[
    b"", b",", b"adapter", b"adapter,", b"adapter,01", b"adapter,00", b"adapter,256", b"adapter,1000",
    b"adapter,4294967296", b"adapter,18446744073709551617", b"adapter,-1", b"adapter,+1", b"adapter, 1", b"adapter,1 ",
    b"adapter,1\r\r", b"adapter,1\r,", b"adapter\r,1", b"adapter,\r1", b"adapter,\r", b"adapter\r", b"adapter,1,\r", b"\r", b"\r\r", b"\radapter,1",
    b"adapter,1,2,3", b"adapter,1,2,3,4", b"adapter,a", b"adapter,1a", b"adapter,1,", b"adapter,1,2", b"Adapter,1", b"adapters,1", b"adapte,1",
    b" adapter,1", b"adapter 1", b"lamp", b"lamp,", b"lamp,0", b"lamp,0,", b"lamp,0,1", b"lamp,0,1,", b"lamp,,1,a",
    b"lamp,0,,a", b"lamp,00,1,a", b"lamp,01,1,a", b"lamp,256,1,a", b"lamp,0,64,a", b"lamp,0,01,a", b"lamp,0,00,a",
    b"lamp,0,100,a", b"lamp,0,4294967297,a", b"lamp,0,-1,a", b"lamp,0,1 ,a", b"lamp,0,x,a", b"lamp,x,1,a",
    b"lamp,0,1,\r", b"lamp,0,1,\r\r", b"lamp,0,1,a\r\r", b"lamp,0,1,a\rb", b"lamp,0,1,\ra", b"lamp,0,1,a,\rb", b"lamp,0,1,a,b\r\r", b"lamp,0,1\r",
    b"lamp,0,1\r,a", b"lamp,0,\r1,a", b"lamp\r,0,1,a", b"lamp,,0,1,a", b"lamp,0,,1,a", b"lamp,0,64,a,b", b"lamp,0,01,a,b", b"lamp,256,1,a,b",
    b"lamp,0,1,a,\"", b"lamp,0,1,\",a", b"lamp,0,1,\"a, b\"", b"lamp,0,1,a\"b", b"lamp,0,1,\"a\"", b"lamp,0,1,\"",
    b"lamp,0,1,aaaaaaaaaaaaaaaaaaaaaaaaaaaaaaaaaaaaaaaaaaaaaaaaa", b"lamp,0,1,aaaaaaaaaaaaaaaaaaaaaaaaaaaaaaaaaaaaaaaaaaaaaaaaa\r",
    b"lamp,0,1,aaaaaaaaaaaaaaaaaaaaaaaaaaaaaaaaaaaaaaaaaaaaaaa,a", b"lamp,0,1,aaaaaaaaaaaaaaaaaaaaaaaaaaaaaaaaaaaaaaaaaaaaaaaa\r\r",
    b"group,0,16,a", b"group,0,20,a", b"group,0,63,a", b"group,256,1,a", b"group,0,1,", b"group,0,01,a",
    b"device,0,64,a", b"device,0,99,a", b"device,300,1,a", b"device,0,1,", b"device,0,64,a,b", b"input,0,64,a",
    b"input,0,256,a", b"input,256,1,a", b"input,0,1,", b"input,0,1,a\"", b"light,0,1,a", b"scene,0,1,a", b",0,1,a",
    b"Lamp,0,1,a", b"lamps,0,1,a", b"lam,0,1,a", b" lamp,0,1,a", b"primary,0", b"primary,1", b"primary", b"\xff",
    b"lamp\0,0,1,a", b"lamp,0\r,1,a", b"#", b"lamp,0,\xd9\xa1,a", b"group,0,1\t,a", b"input,0,1", b"device,0", b"group",
    b"device,,1,a", b"input,0,,a", b"lamp,1e1,1,a", b"lamp,0,0x1,a", b"adapter,0255", b"lamp,0,063,a", b"group,0,015,a",
    b"party", b"party,", b"party,1", b"party,200,", b"party,,1", b"party,,", b"party,200,01", b"party,200,00",
    b"party,01,1", b"party,00,1", b"party,200,256", b"party,256,1", b"party,200,1000", b"party,200,4294967296",
    b"party,4294967296,1", b"party,200,-1", b"party,200,+1", b"party,-1,1", b"party, 200,1", b"party,200, 1",
    b"party,200,1 ", b"party,200,x", b"party,x,1", b"party,200,1,", b"party,200,1,2",
    b"party,200,1\r\r", b"party,200,1\r,", b"party,200\r,1", b"party,200,\r", b"party,200,1,\r", b"party,200,1,2,3",
    b"party,200,\"1\"", b"Party,200,1", b"parties,200,1", b"part,200,1", b" party,200,1", b"party 200,1",
    b"party,200,0255", b"party,200,1\0", b"party,200,\xff",
];

/// First lines that no sheet may have.
const BROKEN_FIRSTS: &[&[u8]] = &[
    b"", b"primary", b"primary,", b"primary,00", b"primary,01", b"primary,256", b"primary,999", b"primary,-1",
    b"primary,a", b"primary, 0", b"primary,0 ", b"primary,0\r\r", b"primary,0\r,", b"primary,\r0", b"primary,\r", b"primary\r", b"\r", b"\rprimary,0",
    b"primary,0,", b"primary,0,1", b"primary,0,1,a", b"Primary,0",
    b" primary,0", b"\xef\xbb\xbfprimary,0", b"adapter,0", b"lamp,0,1,a", b"primary,4294967296", b"primar,0",
    b"primaryy,0", b"primary,\"0\"",
];

/// What can be wrong with a sheet as a whole.
const BROKEN_WHOLES: &[fn(&mut Rng) -> Vec<u8>] = &[
    |_| Vec::new(),
    |_| b"\n".to_vec(),
    |_| b"\n\n".to_vec(),
    |_| b"\r".to_vec(),
    |_| b"\r\n".to_vec(),
    |rng| long(rng, MOST_BYTES + 1),
    |rng| { let length = rng.within(MOST_BYTES + 1, 20_000); long(rng, length) },
    |rng| { let bytes = longest(rng); insert_line(rng, &bytes, b"adapter,256") },
    |rng| filled(rng, MOST_ROWS + 1).bytes,
    |rng| filled(rng, MOST_ROWS + 2).bytes,
    |rng| filled(rng, MOST_ROWS + 40).bytes,
    |rng| many_and(rng, MOST_ROWS, b"lamp,0,64,a"),
    |rng| many_and(rng, MOST_ROWS - 1, b"lamp,0,64,a"),
    |rng| many_and(rng, MOST_ROWS, b""),
    |rng| many_and(rng, MOST_ROWS, b"\r"),
    |rng| many_and(rng, 1, b""),
    |rng| many_and(rng, 3, b"\r"),
    |rng| { let mut bytes = many_and(rng, 3, b"adapter,0"); bytes.push(b'\r'); bytes },
    |rng| { let bytes = filled(rng, MOST_ROWS + 1).bytes; insert_line(rng, &bytes, b"group,0,16,a") },
    |rng| without_first(&filled(rng, 4).bytes),
    |rng| second_party(rng, 8, |rng, _| parties::any(rng)),
    |rng| second_party(rng, 8, |_, first| first),
    |rng| second_party(rng, 8, |_, _| 0),
    |rng| second_party(rng, MOST_ROWS - 1, |_, first| first),
    |rng| second_party(rng, MOST_ROWS, |rng, _| parties::any(rng)),
    |rng| { let bytes = second_party(rng, 8, |_, first| first); insert_line(rng, &bytes, b"party,256,1") },
    |rng| many_and(rng, MOST_ROWS, b"party,200,7"),
];

/// A sheet of `count` rows, and with them a second row for the adapter of a party row.
fn second_party(rng: &mut Rng, count: usize, party: fn(&mut Rng, u8) -> u8) -> Vec<u8> {
    let mut sheet = made(rng, count, true);
    while sheet.parties.is_empty() {
        sheet = made(rng, count, true);
    }
    let (adapter, first) = rng.pick(&sheet.parties);
    let line = format!("party,{adapter},{}", party(rng, first));
    insert_line(rng, &sheet.bytes, line.as_bytes())
}

/// The number of kinds of broken sheet.
pub const BREAKS: usize = BROKEN_ROWS.len() + BROKEN_FIRSTS.len() + BROKEN_WHOLES.len();

fn many_and(rng: &mut Rng, count: usize, last: &[u8]) -> Vec<u8> {
    let mut bytes = filled(rng, count).bytes;
    if bytes.last() != Some(&b'\n') {
        bytes.push(b'\n');
    }
    bytes.extend_from_slice(last);
    bytes.push(b'\n');
    bytes
}

fn without_first(bytes: &[u8]) -> Vec<u8> {
    let end = bytes.iter().position(|&b| b == b'\n').map_or(bytes.len(), |at| at + 1);
    bytes[end..].to_vec()
}

/// `bytes` with `line` as a new line somewhere behind the first.
fn insert_line(rng: &mut Rng, bytes: &[u8], line: &[u8]) -> Vec<u8> {
    let mut lines: Vec<&[u8]> = bytes.split(|&b| b == b'\n').collect();
    if lines.last().is_some_and(|last| last.is_empty()) {
        lines.pop();
    }
    let at = if rng.once_in(3) { lines.len() } else { rng.within(1, lines.len()) };
    lines.insert(at, line);
    let mut out = lines.join(&b'\n');
    if line.is_empty() || rng.once_in(2) {
        out.push(b'\n');
    }
    out
}

/// A sheet broken in the way numbered `which`, below `BREAKS`.
pub fn broken(rng: &mut Rng, which: usize) -> Vec<u8> {
    if let Some(line) = BROKEN_ROWS.get(which) {
        let count = rng.within(0, 6);
        let bytes = filled(rng, count).bytes;
        return insert_line(rng, &bytes, line);
    }
    let which = which - BROKEN_ROWS.len();
    if let Some(line) = BROKEN_FIRSTS.get(which) {
        let mut bytes = line.to_vec();
        let count = rng.within(0, 3);
        let rest = without_first(&filled(rng, count).bytes);
        if !rest.is_empty() || rng.once_in(2) {
            bytes.push(b'\n');
        }
        bytes.extend_from_slice(&rest);
        return bytes;
    }
    BROKEN_WHOLES[which - BROKEN_FIRSTS.len()](rng)
}

/// The longest sheet there may be, good throughout.
pub fn longest(rng: &mut Rng) -> Vec<u8> {
    long(rng, MOST_BYTES)
}
