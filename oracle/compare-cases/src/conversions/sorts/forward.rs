//! What rows show.

use super::{of_line, Facts, CALLS, NAMES};
use crate::conversions::asked::{Given, Named, Refused, KINDS};
use crate::conversions::back::Line;
use crate::conversions::forward::{cut, RIGHT};
use crate::tokens::shown;
use cases::Conversion;

const NUMBERS: [&str; 5] = ["25", "31", "32", "33", "34"];

/// `25 for 31` is a 25 of a name that no row of the party's has, and `31, up to a comma` one of what stands before a comma in a name. Others are put together below:
/// `60, 34 before it` is a malformed row behind one that would get 34, and `34 then 25` a 34 with a row behind it that would get 25.
const OTHERS: &[&str] = &[
    "3", "3, no rows too", "3, a bad row too", "53", "53, no rows too", "53, a bad row too", "53, good rows", "60", "60 by LF alone", "60 by an empty row",
    "60 by no LF", "60 by CR before LF", "60 by two CR before LF", "60 by 1 field", "60 by 2 fields", "60 by 3 fields", "60 by 5 fields", "60 by more fields",
    "60 by a comma in the name", "60 by a fifth row that is good", "60 by a fifth row that is not", "60 by an LF behind four", "60 by a byte behind four",
    "60 by a fifth row without LF", "60 at 5, more behind it", "60, another behind it", "60, a name rule behind it", "60 in 19000 bytes", "25, the party's",
    "25, another's that is listed", "25, another's that is not", "25, the name is on it", "25 for 31", "31 with A", "31 without A", "31, another kind's",
    "31, an input's", "31, another party's with A", "31, another party's without A", "31, in other letters", "31, a part of a name", "31, a name and more",
    "31, up to a comma", "31, not UTF-8", "32, on one adapter", "32, on two", "32 with detail 0", "32 with another detail", "32, another party's first", "33 with A",
    "33 without A", "33 of 2", "33 of more", "33 of more than 255", "33, the same number twice", "33 with A, on another adapter too", "33, another party's too",
    "34 of 2", "34 of more", "34 of more than 255", "34, twice on one", "34, another party's too", "accepted", "an adapter that is not listed",
    "with A, on another adapter too", "without A, another party's too", "with A, another party's too", "another kind has the name", "rows that are equal",
    "one reference by two names",
];

/// What can be wrong with a field of one of four.
const FIELDS: &[&str] = &[
    "K: empty", "K: input", "K: capitals", "K: a blank", "K: cut or longer", "K: another row of a sheet", "K: another word", "name: empty", "name: 49 bytes",
    "name: longer", "name: 256 more", "name: a quote", "name: CR", "A: 256", "A: 257 to 999", "A: more digits", "A: past 32 bits", "A: a leading zero", "A: 00",
    "A: a sign", "A: a blank", "A: CR", "A: no digits", "word: empty", "word: of another K, for lamp", "word: of another K, for group",
    "word: of another K, for device", "word: capitals", "word: a blank", "word: cut or longer", "word: of a rule text",
];

pub fn all() -> Vec<String> {
    let mut all: Vec<String> = OTHERS.iter().chain(CALLS).chain(NAMES).map(|sort| sort.to_string()).collect();
    all.extend(FIELDS.iter().map(|fault| format!("60 by {fault}")));
    all.extend((0..=5).map(|row| format!("60 at {row}")).chain((1..=4).map(|count| format!("T {count}"))));
    for number in NUMBERS {
        all.extend([number.to_string(), format!("60, {number} before it")]);
        all.extend((1..=4).map(|row| format!("{number} at {row}")));
        all.extend(NUMBERS.map(|behind| format!("{number} then {behind}")));
        all.extend(KINDS.iter().map(|kind| format!("{number} of a {}", kind.word)));
    }
    all.extend(KINDS.iter().flat_map(|kind| kind.words.map(|word| [format!("{} {word} with A", kind.word), format!("{} {word} without A", kind.word)])).flatten());
    all
}

pub fn sorts(conversion: &Conversion, rows: &[u8], answer: &str) -> Vec<String> {
    let said: Vec<&str> = answer.lines().nth(1).unwrap_or_default().split(' ').collect();
    let lines = cut(rows);
    let bad = lines.iter().any(|row| RIGHT.named(row).is_none()) || lines.len() > 4;
    match said[..] {
        ["refused", number @ ("3" | "53"), ..] => {
            let also = shown(&[(lines.is_empty(), "no rows too"), (bad, "a bad row too"), (number == "53" && !bad && !lines.is_empty(), "good rows")]);
            [number.to_string()].into_iter().chain(also.iter().map(|also| format!("{number}, {also}"))).collect()
        }
        ["refused", "60", row, ..] => misshapen(conversion, rows, &lines, row),
        ["refused", number, row, _, detail] => refused(conversion, &lines, [number, row, detail]),
        ["accepted", count, ..] => accepted(conversion, &lines, count, answer),
        _ => Vec::new(),
    }
}

/// What the name rules say to a row that is well formed.
fn meaning(conversion: &Conversion, row: &[u8]) -> Option<Result<String, Refused>> {
    Some(Given { conversion, call: &second::answer }.meant(&RIGHT.named(row)?))
}

/// The number of the first refusal among these rows.
fn first_refusal(conversion: &Conversion, rows: &[&[u8]]) -> Option<u32> {
    rows.iter().find_map(|row| meaning(conversion, row)?.err()).map(|(number, _)| number)
}

fn misshapen(conversion: &Conversion, rows: &[u8], lines: &[&[u8]], row: &str) -> Vec<String> {
    let mut sorts = vec!["60".to_string(), format!("60 at {row}")];
    let Some(at) = row.parse::<usize>().ok().and_then(|row| row.checked_sub(1)) else { return sorts };
    let (before, behind) = (&lines[..at], lines.get(at + 1..lines.len().min(4)).unwrap_or_default());
    sorts.extend(first_refusal(conversion, before).map(|number| format!("60, {number} before it")));
    sorts.extend(shown(&[
        (rows == b"\n", "60 by LF alone"), (rows.len() >= 19_000, "60 in 19000 bytes"), (at == 4 && lines.len() > 5, "60 at 5, more behind it"),
        (behind.iter().any(|row| RIGHT.named(row).is_none()), "60, another behind it"), (first_refusal(conversion, behind).is_some(), "60, a name rule behind it"),
    ]));
    let faults = if at == 4 { fifth(lines[at]) } else { fault(lines[at]) };
    sorts.extend(faults.iter().map(|fault| format!("60 by {fault}")));
    sorts
}

fn fifth(row: &[u8]) -> Vec<String> {
    let good = |row: &[u8]| RIGHT.named(row).is_some();
    shown(&[
        (good(row), "a fifth row that is good"), (!good(row) && row.ends_with(b"\n") && row.len() > 1, "a fifth row that is not"),
        (row == b"\n", "an LF behind four"), (row.len() == 1 && row != b"\n", "a byte behind four"), (good(&[row, b"\n"].concat()), "a fifth row without LF"),
    ])
}

/// For what single fault a row is malformed.
fn fault(row: &[u8]) -> Vec<String> {
    let good = |row: &[u8]| RIGHT.named(&[row, b"\n"].concat()).is_some();
    let Some(body) = (RIGHT.end)(row) else { return shown(&[(good(row), "no LF")]) };
    let fields: Vec<&[u8]> = body.split(|&b| b == b',').collect();
    let with_commas = |fields: &[&[u8]]| good(&[fields[0], b"a", fields[fields.len() - 2], fields[fields.len() - 1]].join(&b','));
    let mut faults = shown(&[
        (body.is_empty(), "an empty row"), (body.strip_suffix(b"\r").is_some_and(good), "CR before LF"),
        (body.strip_suffix(b"\r\r").is_some_and(good), "two CR before LF"), (fields.len() == 1 && !body.is_empty(), "1 field"), (fields.len() == 2, "2 fields"),
        (fields.len() == 3, "3 fields"), (fields.len() == 5, "5 fields"), (fields.len() > 5, "more fields"),
        (fields.len() > 4 && with_commas(&fields), "a comma in the name"),
    ]);
    if let [kind, name, adapter, word] = fields[..] {
        let known = (RIGHT.kind)(kind);
        let word_fits = (0..3).any(|kind| known.is_none_or(|known| known == kind) && (RIGHT.word)(kind, word).is_some());
        match [known.is_some(), (RIGHT.name)(name), (RIGHT.adapter)(adapter).is_some(), word_fits] {
            [false, true, true, true] => faults.extend(of_kind(kind)),
            [true, false, true, true] => faults.extend(of_name(name)),
            [true, true, false, true] => faults.extend(of_adapter(adapter)),
            [true, true, true, false] => faults.extend(of_word(known.unwrap_or_default(), word)),
            _ => {}
        }
    }
    faults
}

fn is_cut_or_longer(field: &[u8], known: &[u8]) -> bool {
    let plain = !field.is_empty() && !field.contains(&b'\r') && !field.contains(&b' ');
    plain && field.len() != known.len() && (field.starts_with(known) || known.starts_with(field))
}

fn has_blank(field: &[u8], known: &[u8]) -> bool {
    field.trim_ascii() == known && (field.starts_with(b" ") || field.ends_with(b" "))
}

fn of_kind(kind: &[u8]) -> Vec<String> {
    let any = |is: &dyn Fn(&[u8]) -> bool| KINDS.iter().any(|known| is(known.word.as_bytes()));
    let of_sheet = [&b"adapter"[..], b"party", b"primary"].contains(&kind);
    shown(&[
        (kind.is_empty(), "K: empty"), (kind == b"input", "K: input"), (any(&|known| kind.eq_ignore_ascii_case(known)), "K: capitals"),
        (any(&|known| has_blank(kind, known)), "K: a blank"), (any(&|known| is_cut_or_longer(kind, known)), "K: cut or longer"),
        (of_sheet, "K: another row of a sheet"), (!of_sheet && [&b"scene"[..], b"light"].contains(&kind), "K: another word"),
    ])
}

fn of_name(name: &[u8]) -> Vec<String> {
    let has = |byte: u8| name.contains(&byte) && name.len() <= 48;
    shown(&[
        (name.is_empty(), "name: empty"), (name.len() == 49, "name: 49 bytes"), (name.len() > 49, "name: longer"),
        (name.len() > 256 && name.len() % 256 <= 48, "name: 256 more"), (has(b'"'), "name: a quote"), (has(b'\r'), "name: CR"),
    ])
}

fn of_adapter(adapter: &[u8]) -> Vec<String> {
    let digits = adapter.iter().all(u8::is_ascii_digit);
    let number = std::str::from_utf8(adapter).ok().filter(|_| digits).and_then(|digits| digits.parse::<u128>().ok()).unwrap_or(0);
    let zero = adapter.starts_with(b"0");
    let without = |byte: u8| adapter.contains(&byte) && adapter.iter().all(|other| *other == byte || other.is_ascii_digit());
    shown(&[
        (number == 256 && !zero, "A: 256"), ((257..=999).contains(&number) && !zero, "A: 257 to 999"), (number > 999 && !zero, "A: more digits"),
        (number >> 32 > 0 && number as u32 <= 255, "A: past 32 bits"), (digits && zero && number > 0, "A: a leading zero"), (digits && number == 0, "A: 00"),
        (without(b'+') || without(b'-'), "A: a sign"), (without(b' '), "A: a blank"), (without(b'\r'), "A: CR"),
        (adapter.iter().any(u8::is_ascii_alphabetic), "A: no digits"),
    ])
}

fn of_word(kind: usize, word: &[u8]) -> Vec<String> {
    let any = |is: &dyn Fn(&[u8]) -> bool| KINDS[kind].words.iter().any(|known| is(known.as_bytes()));
    let of_another = KINDS.iter().any(|kind| kind.words.iter().any(|known| known.as_bytes() == word));
    let rule = [&b"turns on"[..], b"becomes any_on", b"goes offline", b"goes_offline", b"comes_online"].contains(&word);
    let mut faults = shown(&[
        (word.is_empty(), "word: empty"), (any(&|known| word.eq_ignore_ascii_case(known)), "word: capitals"),
        (any(&|known| has_blank(word, known)), "word: a blank"), (any(&|known| is_cut_or_longer(word, known)), "word: cut or longer"),
        (rule, "word: of a rule text"),
    ]);
    faults.extend(of_another.then(|| format!("word: of another K, for {}", KINDS[kind].word)));
    faults
}

/// What a refusal by the name rules shows.
fn refused(conversion: &Conversion, lines: &[&[u8]], [number, row, detail]: [&str; 3]) -> Vec<String> {
    let mut sorts = vec![number.to_string(), format!("{number} at {row}")];
    let Some(at) = row.parse::<usize>().ok().and_then(|row| row.checked_sub(1)) else { return sorts };
    let Some(named) = lines.get(at).and_then(|row| RIGHT.named(row)) else { return sorts };
    sorts.push(format!("{number} of a {}", named.kind.word));
    sorts.extend(first_refusal(conversion, &lines[at + 1..]).map(|behind| format!("{number} then {behind}")));
    let facts = Facts::of(conversion);
    sorts.extend(match number {
        "25" => not_listed(&facts, &named),
        "31" => no_row(&facts, &named),
        "32" => elsewhere(&facts, &named, detail),
        "33" => twice(&facts, &named, detail),
        _ => on_several(&facts, &named, detail),
    });
    sorts
}

/// The party's lines with the name, and the others'.
fn sides<'f, 'a>(facts: &'f Facts<'a>, named: &Named) -> [Vec<&'f Line<'a>>; 2] {
    let (own, others) = facts.named(named.kind.word, named.name).into_iter().partition(|line| facts.is_own(line));
    [own, others]
}

fn not_listed(facts: &Facts, named: &Named) -> Vec<String> {
    let (own, listed) = facts.whose(named.adapter.as_bytes());
    let [party, others] = sides(facts, named);
    let on_it = party.iter().chain(&others).any(|line| line.adapter == named.adapter.as_bytes());
    shown(&[
        (own, "25, the party's"), (!own && listed, "25, another's that is listed"), (!own && !listed, "25, another's that is not"), (on_it, "25, the name is on it"),
        (party.is_empty(), "25 for 31"),
    ])
}

fn no_row(facts: &Facts, named: &Named) -> Vec<String> {
    let with = !named.adapter.is_empty();
    let own: Vec<&Line> = facts.lines.iter().filter(|line| line.kind == named.kind.word.as_bytes()).filter(|line| facts.is_own(line)).collect();
    let other_kind = |line: &&Line| line.name == named.name && line.kind != named.kind.word.as_bytes() && facts.is_own(line);
    let others: Vec<&Line> = facts.lines.iter().filter(other_kind).collect();
    let anothers = !sides(facts, named)[1].is_empty();
    let any = |is: &dyn Fn(&[u8]) -> bool| own.iter().any(|line| is(line.name));
    let up_to_comma = |name: &[u8]| name.split(|&b| b == b',').next() == Some(named.name);
    shown(&[
        (with, "31 with A"), (!with, "31 without A"), (others.iter().any(|line| line.kind != b"input"), "31, another kind's"),
        (others.iter().any(|line| line.kind == b"input"), "31, an input's"), (anothers && with, "31, another party's with A"),
        (anothers && !with, "31, another party's without A"), (any(&|name| name.eq_ignore_ascii_case(named.name)), "31, in other letters"),
        (any(&|name| name.starts_with(named.name)), "31, a part of a name"), (any(&|name| named.name.starts_with(name)), "31, a name and more"),
        (any(&up_to_comma), "31, up to a comma"), (std::str::from_utf8(named.name).is_err(), "31, not UTF-8"),
    ])
}

fn elsewhere(facts: &Facts, named: &Named, detail: &str) -> Vec<String> {
    let [own, _] = sides(facts, named);
    let first = facts.named(named.kind.word, named.name)[0];
    let one = own.iter().all(|line| line.adapter == own[0].adapter);
    shown(&[
        (one, "32, on one adapter"), (!one, "32, on two"), (detail == "0", "32 with detail 0"), (detail != "0", "32 with another detail"),
        (first.adapter != own[0].adapter, "32, another party's first"),
    ])
}

fn is_past_a_byte(detail: &str) -> bool {
    detail.parse::<u32>().is_ok_and(|detail| detail > 255)
}

fn twice(facts: &Facts, named: &Named, detail: &str) -> Vec<String> {
    let [own, others] = sides(facts, named);
    let with = !named.adapter.is_empty();
    let scope: Vec<&&Line> = own.iter().filter(|line| !with || line.adapter == named.adapter.as_bytes()).collect();
    shown(&[
        (with, "33 with A"), (!with, "33 without A"), (detail == "2", "33 of 2"), (detail != "2", "33 of more"), (is_past_a_byte(detail), "33 of more than 255"),
        (scope.iter().all(|line| line.number == scope[0].number), "33, the same number twice"),
        (with && scope.len() < own.len(), "33 with A, on another adapter too"), (!others.is_empty(), "33, another party's too"),
    ])
}

fn on_several(facts: &Facts, named: &Named, detail: &str) -> Vec<String> {
    let [own, others] = sides(facts, named);
    let again = own.iter().any(|line| own.iter().filter(|other| other.adapter == line.adapter).count() > 1);
    shown(&[
        (detail == "2", "34 of 2"), (detail != "2", "34 of more"), (is_past_a_byte(detail), "34 of more than 255"), (again, "34, twice on one"),
        (!others.is_empty(), "34, another party's too"),
    ])
}

fn accepted(conversion: &Conversion, rows: &[&[u8]], count: &str, answer: &str) -> Vec<String> {
    let mut sorts = vec!["accepted".to_string(), format!("T {count}")];
    let (facts, triggers): (Facts, Vec<&str>) = (Facts::of(conversion), answer.lines().skip(2).collect());
    for (row, trigger) in rows.iter().zip(&triggers) {
        let Some(named) = RIGHT.named(row) else { continue };
        let with = !named.adapter.is_empty();
        let picked: Vec<&str> = trigger.split(' ').skip(2).collect();
        let [own, others] = sides(&facts, &named);
        let is_picked = |line: &&&Line| line.adapter == picked[0].as_bytes() && line.number == picked[1].as_bytes();
        sorts.push(format!("{} {} {}", named.kind.word, named.kind.words[named.word], if with { "with A" } else { "without A" }));
        sorts.extend(own.iter().find(is_picked).iter().flat_map(|line| of_line(&conversion.sheet, line)));
        let other_kind = facts.lines.iter().any(|line| line.name == named.name && line.kind != named.kind.word.as_bytes());
        sorts.extend(shown(&[
            (!facts.whose(picked[0].as_bytes()).1, "an adapter that is not listed"), (with && own.len() > 1, "with A, on another adapter too"),
            (!with && !others.is_empty(), "without A, another party's too"), (with && !others.is_empty(), "with A, another party's too"),
            (other_kind, "another kind has the name"),
        ]));
    }
    let pairs = || (0..rows.len()).flat_map(|one| (0..one).map(move |two| (one, two)));
    let name = |at: usize| RIGHT.named(rows[at]).map(|named| named.name);
    sorts.extend(shown(&[
        (pairs().any(|(one, two)| rows[one] == rows[two]), "rows that are equal"),
        (pairs().any(|(one, two)| triggers[one] == triggers[two] && name(one) != name(two)), "one reference by two names"),
    ]));
    sorts
}
