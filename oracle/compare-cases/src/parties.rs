//! What a case shows of document 02 §6: who is refused with 53 and what else would have been said, which answers another's
//! rows would have changed, and where the call's primary counts.

use crate::profile::full_refusal;
use crate::tokens::{refusal, tokens};
use cases::{fields, lines, own_primary, Case};
use std::collections::BTreeMap;

/// `N for M` is an N where the same call says M if every adapter is the party's: another's rows would have changed it. `N
/// first` is an N though the primary is not the party's. `by` names the line of a 3.
pub const SORTS: &[&str] = &[
    "53 by a row", "53 without a row", "53 of party 0", "53 of another party", "53 on a case line", "53 for a fault of lexing",
    "53 for a fault of parsing", "53 for accepted", "1 first", "2 first", "4 first", "25 for accepted", "25 for 22",
    "25 for a name's refusal", "25 for a later fault", "25 of an own adapter with a party row", "25 of the primary", "31 for accepted",
    "31 for 32", "31 for 33", "31 for 34", "32 for another detail", "33 for 34", "34 for another detail", "accepted for 34",
    "3 by a second row, same party", "3 by a second row, other party", "3 by a second row, party 0", "3 by a party row's numbers",
    "3 by the 513th row, of a party", "512 rows", "every adapter has a party row", "a row above its party row",
    "a party row alone", "a row of party 0", "a case with party rows", "party 0 beside another", "a party beside party 0",
    "party 255", "primary broadcast", "primary scene", "primary id", "primary instance", "primary group",
    "primary without a row",
];

const MOST_ROWS: usize = 512;
const ADAPTERS: usize = 256;

/// What a sheet's party rows say, as far as they are good: the line and the party of each adapter.
type Parties = BTreeMap<u8, (usize, u8)>;

/// A number up to 255 without a leading zero.
fn number(field: &[u8]) -> Option<u8> {
    let plain = field.len() == 1 || field.first() != Some(&b'0');
    let digits = plain && field.iter().all(u8::is_ascii_digit);
    std::str::from_utf8(field).ok().filter(|_| digits)?.parse().ok()
}

fn party_row(line: &[u8]) -> Option<(u8, u8)> {
    match fields(line)[..] {
        [b"party", adapter, party] => Some((number(adapter)?, number(party)?)),
        _ => None,
    }
}

fn parties(lines: &[&[u8]]) -> Parties {
    let rows = lines.iter().enumerate().filter_map(|(at, line)| party_row(line).map(|(adapter, party)| (adapter, (at, party))));
    rows.rev().collect()
}

/// The sorts that a case shows with this answer.
pub fn sorts(case: &Case, answer: &str) -> Vec<&'static str> {
    let lines = lines(&case.sheet);
    let parties = parties(&lines);
    let said = refusal(answer);
    let own = |adapter: u8| parties.get(&adapter).map_or(0, |row| row.1) == case.party();
    let mut sorts = Vec::new();
    match said.map(|(number, _)| number) {
        Some("1") if !own(case.primary()) => sorts.push("1 first"),
        Some("2") if !own(case.primary()) => sorts.push("2 first"),
        Some("3") => sorts.extend(bad_line(&lines, said)),
        Some("4") if !own(case.primary()) => sorts.push("4 first"),
        Some("53") => sorts.extend(primary_refused(case, &parties)),
        Some("1" | "2" | "4") => {}
        _ => {
            sorts.extend(sheets(case, &lines, &parties));
            sorts.extend(changed(case, answer, &parties));
            sorts.extend(own_not_listed(case, answer, &parties));
            sorts.extend(primaries(case, answer, &lines));
        }
    }
    sorts
}

/// Whose an adapter is by a well-formed sheet: whether it is the party's, and whether it is listed.
pub fn whose(sheet: &[u8], party: u8, adapter: &str) -> (bool, bool) {
    let rows: Vec<Vec<&[u8]>> = lines(sheet).into_iter().map(fields).collect();
    let of = rows.iter().find(|row| row[0] == b"party" && row[1] == adapter.as_bytes()).map_or(b"0".as_slice(), |row| row[2]);
    (of == party.to_string().as_bytes(), rows.iter().any(|row| row[0] == b"adapter" && row[1] == adapter.as_bytes()))
}

/// What is said where every adapter is the party's.
pub fn if_all_were_own(case: &Case) -> String {
    let lines = lines(&case.sheet);
    let sheet = lines.into_iter().filter(|line| party_row(line).is_none()).collect::<Vec<_>>().join(&b'\n');
    second::answer(&Case { sheet, ..case.with_party(0, case.primary()) })
}

fn bad_line(lines: &[&[u8]], said: Option<(&str, &str)>) -> Option<&'static str> {
    let at = said?.1.split(' ').next()?.parse::<usize>().ok()?.checked_sub(1)?;
    let line = lines.get(at).filter(|line| line.starts_with(b"party,"))?;
    let Some((adapter, party)) = party_row(line) else { return Some("3 by a party row's numbers") };
    let first = lines[..at].iter().filter_map(|line| party_row(line)).find(|row| row.0 == adapter);
    match first {
        _ if at > MOST_ROWS => Some("3 by the 513th row, of a party"),
        Some((_, same)) if same == party => Some("3 by a second row, same party"),
        Some(_) if party == 0 => Some("3 by a second row, party 0"),
        Some(_) => Some("3 by a second row, other party"),
        None => None,
    }
}

fn primary_refused(case: &Case, parties: &Parties) -> Vec<&'static str> {
    let otherwise = if_all_were_own(case);
    let number = full_refusal(&otherwise).and_then(|(number, _)| number.parse::<u32>().ok());
    let mut sorts = vec![
        if parties.contains_key(&case.primary()) { "53 by a row" } else { "53 without a row" },
        if case.party() == 0 { "53 of party 0" } else { "53 of another party" },
        match number {
            None => "53 for accepted",
            Some(..=19) => "53 for a fault of lexing",
            Some(_) => "53 for a fault of parsing",
        },
    ];
    sorts.extend(case.settings.is_none().then_some("53 on a case line"));
    sorts
}

/// What a sheet with party rows shows whose call gets past 53.
fn sheets(case: &Case, lines: &[&[u8]], parties: &Parties) -> Vec<&'static str> {
    if parties.is_empty() {
        return Vec::new();
    }
    let about = |adapter: u8| lines.iter().position(|line| {
        let fields = fields(line);
        fields[0] != b"party" && fields[0] != b"primary" && fields.get(1).copied().and_then(number) == Some(adapter)
    });
    let above = |(&adapter, &(at, _)): (&u8, &(usize, u8))| about(adapter).is_some_and(|other| other < at);
    let alone = |&adapter: &u8| about(adapter).is_none() && adapter != case.primary();
    let beside = |party: u8| parties.values().any(|row| row.1 != party) || party != 0;
    [
        (lines.len() == MOST_ROWS + 1, "512 rows"),
        (parties.len() == ADAPTERS, "every adapter has a party row"),
        (parties.iter().any(above), "a row above its party row"),
        (parties.keys().any(alone), "a party row alone"),
        (parties.values().any(|row| row.1 == 0), "a row of party 0"),
        (case.settings.is_none(), "a case with party rows"),
        (case.party() == 0 && beside(0), "party 0 beside another"),
        (case.party() != 0, "a party beside party 0"),
        (case.party() == 255, "party 255"),
    ].into_iter().filter(|(shown, _)| *shown).map(|(_, sort)| sort).collect()
}

/// The answers that another's rows would have changed.
fn changed(case: &Case, answer: &str, parties: &Parties) -> Option<&'static str> {
    let said = full_refusal(answer);
    if case.party() == 0 && parties.values().all(|row| row.1 == 0) {
        return None;
    }
    let otherwise = if_all_were_own(case);
    let other = full_refusal(&otherwise);
    if other == said {
        return None;
    }
    match (said.map(|said| said.0), other.map(|other| other.0)) {
        (Some("25"), None) => Some("25 for accepted"),
        (Some("25"), Some("22")) => Some("25 for 22"),
        (Some("25"), Some("31" | "32" | "33" | "34")) => Some("25 for a name's refusal"),
        (Some("25"), Some(_)) => Some("25 for a later fault"),
        (Some("31"), None) => Some("31 for accepted"),
        (Some("31"), Some("32")) => Some("31 for 32"),
        (Some("31"), Some("33")) => Some("31 for 33"),
        (Some("31"), Some("34")) => Some("31 for 34"),
        (Some("32"), Some("32")) => Some("32 for another detail"),
        (Some("33"), Some("34")) => Some("33 for 34"),
        (Some("34"), Some("34")) => Some("34 for another detail"),
        (None, Some("34")) => Some("accepted for 34"),
        _ => None,
    }
}

/// 25 of an adapter that is not listed though it is the party's.
fn own_not_listed(case: &Case, answer: &str, parties: &Parties) -> Option<&'static str> {
    let place = refusal(answer).filter(|said| said.0 == "25")?.1;
    let text = std::str::from_utf8(&case.text).ok()?;
    let token = tokens(text, answer).find(|token| place.strip_suffix(" 0") == Some(token.place))?;
    let adapter = u8::try_from(token.number).ok()?;
    match parties.get(&adapter) {
        Some(row) if row.1 == case.party() => Some("25 of an own adapter with a party row"),
        None if adapter == case.primary() => Some("25 of the primary"),
        _ => None,
    }
}

/// Where the primary of a call that is not the sheet's own shows: in texts without an adapter and without a name.
fn primaries(case: &Case, answer: &str, lines: &[&[u8]]) -> Vec<&'static str> {
    let primary = case.primary();
    let mut sorts = Vec::new();
    if primary == own_primary(&case.sheet) {
        return sorts;
    }
    let named = |line: &&[u8]| fields(line).get(1).copied().and_then(number) == Some(primary);
    sorts.extend((!lines[1..].iter().any(|line| named(line))).then_some("primary without a row"));
    if case.text.contains(&b'"') || case.text.windows(7).any(|part| part == b"adapter") {
        return sorts;
    }
    let primary = primary.to_string();
    let mut shown = |sort, adapter: &str| sorts.extend((adapter == primary).then_some(sort));
    for line in answer.lines() {
        let fields: Vec<&str> = line.split(' ').collect();
        match fields[..] {
            ["T" | "C", "hcl_override" | "hcl_state", "broadcast", adapter, ..] => shown("primary broadcast", adapter),
            ["T", "scene_recalled", adapter, ..] => shown("primary scene", adapter),
            ["T", "input_event", "group", adapter, ..] => shown("primary group", adapter),
            ["T", "input_event", "instance", adapter, ..] => shown("primary instance", adapter),
            ["T" | "C", "lamp_turns" | "lamp_is" | "group_becomes" | "device_online", adapter, ..] => shown("primary id", adapter),
            _ => {}
        }
    }
    sorts
}
