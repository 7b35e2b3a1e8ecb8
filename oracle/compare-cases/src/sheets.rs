//! What a case shows of document 02 §8: how the lines of its sheet end, for which CR, comma or quote a line is bad, and which names
//! with commas or on lines with CR are looked up.

use crate::profile::reference;
use crate::tokens::{refusal, shown, token_at, tokens, Token, STRING};
use cases::{fields, lines, Case};

/// `3 by` names what makes a line bad: without it the line is good. `31 for` names what a row has that is taken for the name.
pub const SORTS: &[&str] = &[
    "CR LF throughout", "CR LF and LF", "CR at the end", "CR LF at the end", "CR on the first line", "CR on an adapter row", "CR on a party row",
    "CR on a named row", "48 bytes and CR", "48 bytes with a comma", "a comma first", "a comma last", "a comma alone", "several commas",
    "16384 bytes with CR", "512 rows with CR", "the primary of a line with CR", "3 by two CR on the first line", "3 by two CR on an adapter row",
    "3 by two CR on a party row", "3 by two CR on a named row", "3 by two CR at the end", "3 by a CR behind the last LF", "3 by a line of CR",
    "3 by a CR in a name", "3 by a CR in another field", "3 by no name before CR", "3 by 49 bytes before CR", "3 by a quote behind a comma",
    "3 by a comma on the first line", "3 by a comma on an adapter row", "3 by a comma on a party row", "3 by a second party row with CR",
    "3 by bytes of CR", "3 by the 513th row, with CR", "53 by a party row with CR", "a name with a comma found", "a name on a line with CR found",
    "31 for the part before a comma", "31 for the part behind a comma", "31 for that part without its blank", "31 for a name with CR behind it",
    "31 for a name with a comma behind it", "32 with a comma", "33 with a comma", "34 with a comma",
];

const MOST_BYTES: usize = 16_384;
const MOST_ROWS: usize = 512;
const LONGEST: usize = 48;

/// The sorts that a case shows with this answer.
pub fn sorts(case: &Case, answer: &str) -> Vec<String> {
    if !case.sheet.iter().any(|b| b"\r,".contains(b)) {
        return Vec::new();
    }
    let sheet = Sheet::of(&case.sheet);
    match refusal(answer) {
        Some(("1" | "2", _)) => Vec::new(),
        Some(("3", place)) => sheet.bad(case, place),
        Some(("53", _)) => shown(&[(sheet.party_row_with_cr(case.primary()), "53 by a party row with CR")]),
        said => {
            let mut sorts = sheet.ends(case, said.is_none());
            sorts.extend(sheet.names());
            sorts.extend(sheet.looked_up(case, answer));
            sorts
        }
    }
}

/// The lines of a sheet, with a CR at their end if they have one, and without one.
struct Sheet<'a> {
    raw: Vec<&'a [u8]>,
    lines: Vec<&'a [u8]>,
}

fn ends_in_cr(line: &[u8]) -> bool {
    line.ends_with(b"\r")
}

/// What a line is, by its first field.
fn sort_of(line: &[u8]) -> &'static str {
    match fields(line)[0] {
        b"primary" => "the first line",
        b"adapter" => "an adapter row",
        b"party" => "a party row",
        _ => "a named row",
    }
}

/// The line without such bytes.
fn without(line: &[u8], byte: u8) -> Vec<u8> {
    line.iter().copied().filter(|&b| b != byte).collect()
}

/// What makes the name of a line bad, which may have had a CR at its end.
fn bad_name(line: &[u8], cr: bool, good: &dyn Fn(&[u8]) -> bool) -> Vec<String> {
    let fields = fields(line);
    let [_, _, _, name] = fields[..] else { return Vec::new() };
    let quote_behind = name.splitn(2, |&b| b == b',').nth(1).is_some_and(|behind| behind.contains(&b'"'));
    shown(&[
        (cr && name.is_empty() && good(&[line, b"a"].concat()), "3 by no name before CR"),
        (cr && name.len() == LONGEST + 1 && good(&line[..line.len() - 1]), "3 by 49 bytes before CR"),
        (quote_behind && good(&without(line, b'"')), "3 by a quote behind a comma"),
    ])
}

impl<'a> Sheet<'a> {
    fn of(bytes: &'a [u8]) -> Sheet<'a> {
        let raw = bytes.strip_suffix(b"\n").unwrap_or(bytes).split(|&b| b == b'\n').collect();
        Sheet { raw, lines: lines(bytes) }
    }

    /// The names of the rows, each with whether its line has a CR.
    fn named(&self) -> impl Iterator<Item = (&'a [u8], bool)> + '_ {
        let rows = self.lines.iter().zip(&self.raw);
        rows.filter_map(|(line, raw)| fields(line).get(3).map(|name| (*name, ends_in_cr(raw))))
    }

    fn party_row_with_cr(&self, adapter: u8) -> bool {
        let of_adapter = format!("party,{adapter},");
        self.raw.iter().any(|line| line.starts_with(of_adapter.as_bytes()) && ends_in_cr(line))
    }

    /// How the lines of an accepted sheet end.
    fn ends(&self, case: &Case, accepted: bool) -> Vec<String> {
        let with_cr: Vec<&[u8]> = self.raw.iter().copied().filter(|line| ends_in_cr(line)).collect();
        if with_cr.is_empty() {
            return Vec::new();
        }
        let throughout = with_cr.len() == self.raw.len() && self.raw.len() > 1;
        let primary = case.settings.is_none() && case.primary() > 0 && accepted;
        let mut sorts: Vec<String> = with_cr.iter().map(|line| format!("CR on {}", sort_of(line))).collect();
        sorts.extend(shown(&[
            (throughout, "CR LF throughout"),
            (with_cr.len() < self.raw.len(), "CR LF and LF"),
            (case.sheet.ends_with(b"\r"), "CR at the end"),
            (case.sheet.ends_with(b"\r\n"), "CR LF at the end"),
            (self.named().any(|(name, cr)| cr && name.len() == LONGEST), "48 bytes and CR"),
            (case.sheet.len() == MOST_BYTES, "16384 bytes with CR"),
            (self.raw.len() == MOST_ROWS + 1, "512 rows with CR"),
            (primary && ends_in_cr(self.raw[0]), "the primary of a line with CR"),
        ]));
        sorts
    }

    /// Where names have commas.
    fn names(&self) -> Vec<String> {
        let any = |is: &dyn Fn(&[u8]) -> bool| self.named().any(|(name, _)| name.contains(&b',') && is(name));
        shown(&[
            (any(&|name| name.len() == LONGEST), "48 bytes with a comma"),
            (any(&|name| name[0] == b','), "a comma first"),
            (any(&|name| name.ends_with(b",")), "a comma last"),
            (any(&|name| name.len() == 1), "a comma alone"),
            (any(&|name| name.iter().filter(|&&b| b == b',').count() > 1), "several commas"),
        ])
    }

    /// What makes a sheet bad, or a line of it.
    fn bad(&self, case: &Case, place: &str) -> Vec<String> {
        let Some(number) = place.split(' ').next().and_then(|line| line.parse::<usize>().ok()) else { return Vec::new() };
        let Some(at) = number.checked_sub(1) else {
            let of_ends = self.raw.iter().filter(|line| ends_in_cr(line)).count();
            return shown(&[(case.sheet.len() - of_ends <= MOST_BYTES, "3 by bytes of CR")]);
        };
        let last = at + 1 == self.raw.len() && !case.sheet.ends_with(b"\n");
        let raw = self.raw[at];
        match raw {
            _ if at > MOST_ROWS => shown(&[(ends_in_cr(raw), "3 by the 513th row, with CR")]),
            b"\r" => shown(&[(last, "3 by a CR behind the last LF"), (!last, "3 by a line of CR")]),
            _ => self.bad_line(at, last, &|line| self.mended(case, at, line)),
        }
    }

    /// What makes a line bad: `good` says whether it is good in another form.
    fn bad_line(&self, at: usize, last: bool, good: &dyn Fn(&[u8]) -> bool) -> Vec<String> {
        let (raw, line) = (self.raw[at], self.lines[at]);
        let shorter = || good(&line[..line.len() - 1]);
        let mut sorts = Vec::new();
        if ends_in_cr(line) && shorter() {
            sorts.push(format!("3 by two CR on {}", sort_of(line)));
            sorts.extend(shown(&[(last, "3 by two CR at the end")]));
        } else if line.contains(&b'\r') && good(&without(line, b'\r')) {
            let in_name = fields(line).get(3).is_some_and(|name| name.contains(&b'\r'));
            sorts.extend(shown(&[(in_name, "3 by a CR in a name"), (!in_name, "3 by a CR in another field")]));
        } else if line.ends_with(b",") && shorter() {
            sorts.push(format!("3 by a comma on {}", sort_of(line)));
        }
        let same = |before: &&[u8]| before.starts_with(b"party,") && fields(before)[1] == fields(line)[1];
        let second = line.starts_with(b"party,") && self.lines[..at].iter().any(same);
        sorts.extend(shown(&[(second && ends_in_cr(raw), "3 by a second party row with CR")]));
        sorts.extend(bad_name(line, ends_in_cr(raw), good));
        sorts
    }

    /// Whether the line is good if it is this one.
    fn mended(&self, case: &Case, at: usize, line: &[u8]) -> bool {
        let mut lines = self.raw.clone();
        lines[at] = line;
        let answer = second::answer(&Case { sheet: lines.join(&b'\n'), ..case.clone() });
        !matches!(refusal(&answer), Some(("3", place)) if place == format!("{} 0 0", at + 1))
    }

    /// The names that a text has, found or not.
    fn looked_up(&self, case: &Case, answer: &str) -> Vec<String> {
        let Ok(text) = std::str::from_utf8(&case.text) else { return Vec::new() };
        let tokens: Vec<Token> = tokens(text, answer).collect();
        let is_name = |at: &usize| tokens[*at].kind == STRING && reference(&tokens, *at).is_some();
        match refusal(answer) {
            None => (0..tokens.len()).filter(is_name).flat_map(|at| self.found(tokens[at].text.as_bytes())).collect(),
            Some((number @ ("31" | "32" | "33" | "34"), place)) => {
                let name = tokens.get(token_at(&tokens, place)).map_or("", |token| token.text);
                if number == "31" { self.taken_for(name.as_bytes()) } else { shown(&[(name.contains(','), &format!("{number} with a comma"))]) }
            }
            _ => Vec::new(),
        }
    }

    fn found(&self, name: &[u8]) -> Vec<String> {
        let mut rows = self.named().filter(|row| row.0 == name).peekable();
        let cr = rows.peek().is_some() && rows.all(|row| row.1);
        shown(&[(name.contains(&b','), "a name with a comma found"), (cr, "a name on a line with CR found")])
    }

    fn taken_for(&self, name: &[u8]) -> Vec<String> {
        let any = |is: &dyn Fn(&[u8]) -> bool| self.named().any(|(row, _)| is(row));
        let behind = |row: &'_ [u8]| row.iter().rposition(|&b| b == b',').map(|comma| row[comma + 1..].to_vec());
        shown(&[
            (any(&|row| row.iter().position(|&b| b == b',').is_some_and(|comma| &row[..comma] == name)), "31 for the part before a comma"),
            (any(&|row| behind(row).is_some_and(|part| part == name)), "31 for the part behind a comma"),
            (any(&|row| behind(row).is_some_and(|part| part.strip_prefix(b" ") == Some(name))), "31 for that part without its blank"),
            (any(&|row| [row, b"\r"].concat() == name), "31 for a name with CR behind it"),
            (any(&|row| [row, b","].concat() == name), "31 for a name with a comma behind it"),
        ])
    }
}
