//! Document 02 §10: the previous owners' rows, `K,name,A,word`, converted to triggers and back.

use crate::flat::named_trigger;
use crate::model::{Choice, Ref, Trigger};
use crate::reader::Read;
use crate::references::{listed, picked};
use crate::refusal::{Place, Refusal};
use crate::sheet::{adapter, is_name, Kind, Row, View};
use crate::write::{at_entry, room_for};
use crate::{print, seen, well_formed_sheet};
use cases::{Conversion, Direction, Flat, List};

const MOST_ROWS: usize = 4;
const LEAST_BYTES: usize = 512;

/// The answer to a `rows` or a `back` line, in the replay format. The buffer is "untouched on refusal and past them", the rows.
pub fn convert(conversion: &Conversion) -> String {
    match &conversion.direction {
        Direction::Forward { rows } => print::converted(conversion.id, &triggers(conversion, rows)),
        Direction::Back { size, lists } => print::written(conversion.id, *size, &rows(conversion, *size, lists)),
    }
}

/// What the call sees. "One that reads no rule text gives 3, then 53, first" (§6).
fn view(conversion: &Conversion) -> Read<View<'_>> {
    let sheet = well_formed_sheet(&conversion.sheet)?;
    seen(&sheet, conversion.party, conversion.primary)
}

/// A row that is well formed: "A empty when no adapter is named".
struct Named<'a> {
    kind: Kind,
    name: &'a [u8],
    adapter: Option<u32>,
    word: Choice,
}

/// "Convert one to four rows to triggers through the name rules, row by row (25, then 31 to 34, at the row, column 0)."
fn triggers(conversion: &Conversion, rows: &[u8]) -> Read<Vec<Trigger<'static>>> {
    let view = view(conversion)?;
    let rows = well_formed(rows)?;
    (1..).zip(&rows).map(|(line, row)| trigger(&view, row, Place { line, column: 0 })).collect()
}

/// The rows: 60 for "a malformed or fifth row, or none", "at the first such row (0 for none), before any name is looked up".
fn well_formed(bytes: &[u8]) -> Read<Vec<Named<'_>>> {
    let refused = |row: usize| Refusal::new(60, Place { line: row as u32, column: 0 });
    if bytes.is_empty() {
        return Err(refused(0));
    }
    let lines = bytes.split_inclusive(|&byte| byte == b'\n');
    (1..).zip(lines).map(|(row, line)| named(line).filter(|_| row <= MOST_ROWS).ok_or(refused(row))).collect()
}

/// The row of a line. "A row ends with LF, and its name keeps the sheet's name rule without commas."
fn named(line: &[u8]) -> Option<Named<'_>> {
    let fields: Vec<&[u8]> = line.strip_suffix(b"\n")?.split(|&byte| byte == b',').collect();
    let [kind, name, on, word] = fields[..] else { return None };
    let kind = Kind::of(kind)?;
    let word = *words(kind).iter().find(|known| known.as_bytes() == word)?;
    let adapter = if on.is_empty() { None } else { Some(adapter(on)?) };
    is_name(name).then_some(Named { kind, name, adapter, word })
}

/// "K being lamp (on, off), group (any_on, all_off) or device (offline, online)."
fn words(kind: Kind) -> &'static [Choice] {
    match kind {
        Kind::Lamp => &["on", "off"],
        Kind::Group => &["any_on", "all_off"],
        Kind::Device => &["offline", "online"],
        Kind::Input => &[],
    }
}

fn trigger(view: &View, row: &Named, place: Place) -> Read<Trigger<'static>> {
    if let Some(adapter) = row.adapter {
        listed(view, adapter, place)?;
    }
    let reference = picked(view, row.kind, row.name, row.adapter, place)?;
    Ok(match (row.kind, row.word) {
        (Kind::Lamp, word) => Trigger::LampTurns(reference, word),
        (Kind::Group, word) => Trigger::GroupBecomes(reference, word),
        (_, "offline") => Trigger::DeviceGoesOffline(reference),
        _ => Trigger::DeviceComesOnline(reference),
    })
}

/// "Convert back for lists without conditions into a lent buffer": 54, then 61, then 62.
fn rows(conversion: &Conversion, size: usize, lists: &Flat) -> Read<Vec<u8>> {
    let view = view(conversion)?;
    room_for(LEAST_BYTES, size)?;
    let triggers = named_triggers(lists)?;
    let row = |(ordinal, (kind, reference, word)): (usize, &(Kind, Ref, Choice))| {
        let row = row_for(&view, *kind, reference).ok_or(at_entry(62, ordinal))?;
        Ok([word_of(*kind), b",", row.name, format!(",{},{word}\n", row.adapter).as_bytes()].concat())
    };
    (1..).zip(&triggers).map(row).collect::<Read<Vec<_>>>().map(|rows| rows.concat())
}

/// 61 for "a trigger count other than one to four (entry 0), a condition or another trigger".
fn named_triggers(lists: &Flat) -> Read<Vec<(Kind, Ref, Choice)>> {
    let [triggers, conditions] = lists.counts;
    if !(1..=MOST_ROWS as u32).contains(&triggers) {
        return Err(at_entry(61, 0));
    }
    let entries = (1..).zip(lists.used(List::Triggers)).map(|(ordinal, row)| named_trigger(row).ok_or(at_entry(61, ordinal)));
    let entries: Vec<(Kind, Ref, Choice)> = entries.collect::<Read<_>>()?;
    if conditions > 0 { Err(at_entry(61, entries.len() + 1)) } else { Ok(entries) }
}

/// "The name and A are those of the first sheet row on a listed adapter which, with that adapter named, picks that reference and has no comma."
fn row_for<'a>(view: &View<'a>, kind: Kind, reference: &Ref) -> Option<Row<'a>> {
    let picks = |row: &Row| picked(view, kind, row.name, Some(row.adapter), Place::NONE).is_ok_and(|found| found == *reference);
    let fits = |row: &&Row| row.kind == kind && view.listed.contains(&row.adapter) && picks(row) && !row.name.contains(&b',');
    view.rows.iter().find(fits).copied()
}

fn word_of(kind: Kind) -> &'static [u8] {
    match kind {
        Kind::Lamp => b"lamp",
        Kind::Group => b"group",
        Kind::Device => b"device",
        Kind::Input => b"input",
    }
}
