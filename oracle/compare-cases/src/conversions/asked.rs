//! What calls on short rule texts say to a name: "through the name rules".

use crate::tokens::refusal;
use cases::{fields, Case, Conversion};

/// K, the kind of trigger in the flat layout, and the words: in a row, in a rule text and in an answer.
#[derive(Debug)]
pub struct Kind {
    pub word: &'static str,
    pub code: u32,
    pub words: [&'static str; 2],
    texts: [&'static str; 2],
    record: &'static str,
    shown: [&'static str; 2],
}

pub const KINDS: [Kind; 3] = [
    Kind { word: "lamp", code: 10, words: ["on", "off"], texts: ["turns on", "turns off"], record: "lamp_turns", shown: ["on", "off"] },
    Kind {
        word: "group",
        code: 12,
        words: ["any_on", "all_off"],
        texts: ["becomes any_on", "becomes all_off"],
        record: "group_becomes",
        shown: ["any_on", "all_off"],
    },
    Kind {
        word: "device",
        code: 14,
        words: ["offline", "online"],
        texts: ["goes offline", "comes online"],
        record: "device_online",
        shown: ["goes_offline", "comes_online"],
    },
];

impl Kind {
    /// The line of an answer for such a trigger.
    pub fn line(&self, adapter: &str, number: &str, word: usize) -> String {
        format!("T {} {adapter} {number} {}", self.record, self.shown[word])
    }
}

/// What is looked up: the name of a row, perhaps with an adapter, and its word by its place.
#[derive(Debug, Clone)]
pub struct Named<'a> {
    pub kind: &'static Kind,
    pub name: &'a [u8],
    /// Empty for none.
    pub adapter: String,
    pub word: usize,
}

/// A number and a detail.
pub type Refused = (u32, u32);

/// A conversion with the calls that can be made for it.
pub struct Given<'a> {
    pub conversion: &'a Conversion,
    pub call: &'a dyn Fn(&Case) -> String,
}

impl Given<'_> {
    /// The refusal of the sheet or of the primary, with its line.
    pub fn refused_first(&self) -> Option<(u32, usize)> {
        let answer = (self.call)(&self.conversion.call("when http trigger"));
        let (number, place) = refusal(&answer)?;
        Some((number.parse().ok()?, place.split(' ').next()?.parse().ok()?))
    }

    /// What the rule text for a name means: the line of its trigger, or the refusal.
    pub fn meant(&self, named: &Named) -> Result<String, Refused> {
        let clause = if named.adapter.is_empty() { String::new() } else { format!(", adapter={}", named.adapter) };
        let (sheet, name) = quotable(&self.conversion.sheet, named.name);
        let text = format!("when {}(\"{name}\"{clause}) {}", named.kind.word, named.kind.texts[named.word]);
        let answer = (self.call)(&Case { sheet, ..self.conversion.call(text) });
        match refusal(&answer) {
            Some((number, place)) => {
                let detail = place.rsplit(' ').next().and_then(|detail| detail.parse().ok());
                Err((number.parse().unwrap_or(0), detail.unwrap_or(0)))
            }
            None => Ok(answer.lines().find(|line| line.starts_with("T ")).unwrap_or_default().to_string()),
        }
    }
}

/// The name as a text can quote it, and the sheet for it. In the place of a name that is not UTF-8 another of as many bytes is put, which no row has.
fn quotable(sheet: &[u8], name: &[u8]) -> (Vec<u8>, String) {
    if let Ok(name) = std::str::from_utf8(name) {
        return (sheet.to_vec(), name.to_string());
    }
    let lines = || sheet.split_inclusive(|&b| b == b'\n');
    let name_of = |line| fields(without_end(line)).get(3).copied().unwrap_or_default();
    let letters = || ('!'..='~').filter(|c| !['"', ','].contains(c)).map(String::from);
    let mut others = letters().flat_map(|first| letters().map(move |last| (first.clone() + &last.repeat(name.len()))[..name.len()].to_string()));
    let other = others.find(|other| lines().all(|line| name_of(line) != other.as_bytes())).expect("no sheet has so many names");
    let renamed = lines().flat_map(|line| {
        if name_of(line) != name {
            return line.to_vec();
        }
        let end = without_end(line).len();
        [&line[..end - name.len()], other.as_bytes(), &line[end..]].concat()
    });
    (renamed.collect(), other)
}

/// A line of the sheet without its end.
fn without_end(line: &[u8]) -> &[u8] {
    let line = line.strip_suffix(b"\n").unwrap_or(line);
    line.strip_suffix(b"\r").unwrap_or(line)
}

#[cfg(test)]
mod tests {
    use super::*;

    #[test]
    fn a_name_that_no_text_can_quote_gets_another() {
        let sheet = b"primary,0\r\nlamp,0,4,\xff\r\nlamp,0,5,!\ngroup,0,5,\xff\xff\nlamp,0,6,a\xff\nlamp,1,6,\xff\r";
        let (other, name) = quotable(sheet, b"\xff");
        assert_eq!(name, "#");
        assert_eq!(other.escape_ascii().to_string(), "primary,0\\r\\nlamp,0,4,#\\r\\nlamp,0,5,!\\ngroup,0,5,\\xff\\xff\\nlamp,0,6,a\\xff\\nlamp,1,6,#\\r");
        assert_eq!(quotable(sheet, b"\xff\xff").1, "!!");
        assert_eq!(quotable(sheet, "\u{e9}".as_bytes()), (sheet.to_vec(), "\u{e9}".to_string()));
    }
}
