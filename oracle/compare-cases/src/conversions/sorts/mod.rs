//! What conversions show of document 02 §10: what is refused, at which row or entry and for what, and what is converted.

mod back;
mod forward;

use super::back::{named_lines, Line};
use crate::parties::whose;
use cases::{own_primary, Conversion, Direction};
use std::collections::{BTreeSet, HashMap};
use std::sync::OnceLock;

/// Every sort that there is.
pub fn all() -> &'static [String] {
    static ALL: OnceLock<Vec<String>> = OnceLock::new();
    ALL.get_or_init(|| {
        let forward = forward::all().into_iter().map(|sort| format!("rows: {sort}"));
        forward.chain(back::all().into_iter().map(|sort| format!("back: {sort}"))).collect()
    })
}

/// The place of a sort among all.
pub fn place(sort: &str) -> Option<usize> {
    static PLACES: OnceLock<HashMap<String, usize>> = OnceLock::new();
    PLACES.get_or_init(|| all().iter().cloned().zip(0..).collect()).get(sort).copied()
}

/// The sorts that a conversion with this answer shows, each once.
pub fn sorts(conversion: &Conversion, answer: &str) -> BTreeSet<String> {
    let calls = [
        (conversion.party == 0, "party 0"), (conversion.party != 0, "another party"),
        (conversion.primary != own_primary(&conversion.sheet), "the primary is not the sheet's"),
    ];
    let calls = crate::tokens::shown(&calls);
    let (line, sorts) = match &conversion.direction {
        Direction::Forward { rows } => ("rows", forward::sorts(conversion, rows, answer)),
        Direction::Back { size, lists } => ("back", back::sorts(conversion, *size, lists, answer)),
    };
    sorts.into_iter().chain(calls).map(|sort| format!("{line}: {sort}")).collect()
}

/// Of the calls of both lines.
const CALLS: &[&str] = &["party 0", "another party", "the primary is not the sheet's"];

/// Of the names and the adapters that rows have, in either direction.
const NAMES: &[&str] = &[
    "a name of 1 byte", "a name of 48 bytes", "a name not UTF-8", "a name not ASCII", "a name with NUL", "a name with a blank at an end", "A 0", "A 255",
    "A of 2 digits", "A of 3 digits", "number 0", "number 63", "number 15 of a group", "the last of 512 rows", "a line with CR LF",
];

/// Those that this line of the sheet shows.
fn of_line(sheet: &[u8], line: &Line) -> Vec<String> {
    let Line { name, adapter, number, .. } = line;
    let text = sheet.split(|&b| b == b'\n').nth(line.at - 1).unwrap_or_default();
    let rows = cases::lines(sheet).len() - 1;
    let blank = |byte: Option<&u8>| byte == Some(&b' ');
    crate::tokens::shown(&[
        (name.len() == 1, "a name of 1 byte"), (name.len() == 48, "a name of 48 bytes"), (std::str::from_utf8(name).is_err(), "a name not UTF-8"),
        (!name.is_ascii(), "a name not ASCII"), (name.contains(&0), "a name with NUL"), (blank(name.first()) || blank(name.last()), "a name with a blank at an end"),
        (*adapter == b"0", "A 0"), (*adapter == b"255", "A 255"), (adapter.len() == 2, "A of 2 digits"), (adapter.len() == 3, "A of 3 digits"),
        (*number == b"0", "number 0"), (*number == b"63", "number 63"), (line.kind == b"group" && *number == b"15", "number 15 of a group"),
        (rows == 512 && line.at == 513, "the last of 512 rows"), (text.ends_with(b"\r"), "a line with CR LF"),
    ])
}

/// What a sheet says to the party's call.
struct Facts<'a> {
    conversion: &'a Conversion,
    lines: Vec<Line<'a>>,
}

impl<'a> Facts<'a> {
    fn of(conversion: &'a Conversion) -> Facts<'a> {
        Facts { conversion, lines: named_lines(&conversion.sheet) }
    }

    /// Whether an adapter is the party's, and whether it is listed.
    fn whose(&self, adapter: &[u8]) -> (bool, bool) {
        whose(&self.conversion.sheet, self.conversion.party, &String::from_utf8_lossy(adapter))
    }

    fn is_own(&self, line: &Line) -> bool {
        self.whose(line.adapter).0
    }

    /// The lines with this name, of this kind.
    fn named(&self, kind: &str, name: &[u8]) -> Vec<&Line<'a>> {
        self.lines.iter().filter(|line| line.kind == kind.as_bytes() && line.name == name).collect()
    }
}
