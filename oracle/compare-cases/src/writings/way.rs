//! Document 02 §7 in another way: rows are judged by the roles of their words, written by phrases, and what the sheet, party and primary allow is
//! asked of calls on short texts. Each step can be another one, so that tests can seed faults.

use super::phrases::{Part, Phrase, CONDITIONS, EVENTS, READINGS, SUN, TRIGGERS, WEEK};
use cases::{Case, List, Row, Writing, ENTRY};
use generate::roles::{layout, Range, Role, Word, EVERY_DAY, MOST_NUMBER, NO_TYPE};
use generate::topics;

/// What is asked, each with a number.
#[derive(Debug, Clone, Copy, PartialEq, Eq)]
pub enum Ask {
    /// 3.
    Sheet,
    /// 53.
    Primary,
    /// 54.
    Room,
    /// 55, for a count and for an entry.
    Counts,
    Entries,
    /// 56.
    Reach,
}

/// A line with the calls that can be made for it.
pub struct Given<'a> {
    pub writing: &'a Writing,
    pub call: &'a dyn Fn(&Case) -> String,
}

impl Given<'_> {
    fn refusal(&self, text: &str) -> Option<String> {
        let answer = (self.call)(&self.writing.call(text));
        answer.lines().find_map(|line| line.strip_prefix("refused ")).map(str::to_string)
    }

    pub fn is_primary(&self, adapter: u32) -> bool {
        adapter == self.writing.primary.into()
    }

    /// Whether a text may name the adapter.
    pub fn is_listed(&self, adapter: u32) -> bool {
        self.refusal(&format!("when scene(0, adapter={adapter}) recalled")).is_none()
    }

    pub fn text(&self, from: u32) -> &[u8] {
        self.writing.texts.get((from as usize).wrapping_sub(1)).map_or(&[], Vec::as_slice)
    }
}

/// An entry in use, with its place among all from 1 on.
#[derive(Debug, Clone, Copy)]
pub struct Entry<'a> {
    pub list: List,
    pub ordinal: usize,
    pub row: &'a Row,
}

/// The steps.
#[derive(Clone, Copy)]
pub struct Way {
    pub order: [Ask; 6],
    /// Whether 55 and 56 are asked of one entry after the other.
    pub in_turn: bool,
    pub least: usize,
    pub counts: fn([u32; 2]) -> bool,
    pub from: fn(u32) -> bool,
    /// Whether a word is one of its role.
    pub word: fn(Word, u32) -> bool,
    /// Whether a range holds what it may.
    pub range: fn(Held) -> bool,
    pub number: fn(i64) -> bool,
    /// Whether the adapter of a reference, or of broadcast, can be written.
    pub reach: fn(&Given, Word, u32) -> bool,
    /// The line of a refusal of this entry, with so many triggers.
    pub line: fn(Entry, usize) -> usize,
    /// Whether the adapter is written.
    pub adapter: fn(&Given, u32) -> bool,
    pub reference: fn(number: u32, adapter: &str) -> String,
    pub device: fn(number: u32, adapter: &str) -> String,
    pub instance: fn(device: u32, instance: u32, adapter: &str) -> String,
    pub group: fn(group: u32, of: u32, adapter: &str) -> String,
    pub milliseconds: fn(u32) -> String,
    pub clock: fn(u32) -> String,
    pub solar: fn(i32) -> &'static str,
    pub days: fn(u32) -> Vec<usize>,
    pub on: fn(u32) -> bool,
    pub literal: fn(i64) -> &'static str,
    pub added: fn(i64) -> &'static str,
    /// The bytes of a name, by its entry's FROM.
    pub name: fn(&Given, u32, usize, usize) -> Vec<u8>,
    /// What stands before each entry: before a trigger, the first condition and the others.
    pub before: [&'static str; 3],
    /// The whole answer.
    pub said: fn(&Writing, Said) -> String,
}

/// The text, or the number and the line of a refusal.
pub type Said<'a> = Result<&'a [u8], (u32, usize)>;

/// What the words of document 02 say.
pub const RIGHT: Way = Way {
    order: [Ask::Sheet, Ask::Primary, Ask::Room, Ask::Counts, Ask::Entries, Ask::Reach],
    in_turn: false,
    least: 4_096,
    counts: |[triggers, conditions]| (1..=4).contains(&triggers) && conditions <= 4,
    from: |from| from == 1 || from == 2,
    word: |word, found| word.role.fits(found),
    range: |held| held.fits(),
    number: |number| (-MOST_NUMBER..=MOST_NUMBER).contains(&number),
    reach: |given, word, adapter| given.is_primary(adapter) || word.role == Role::Adapter && given.is_listed(adapter),
    line: |entry, _| entry.ordinal,
    adapter: |given, adapter| !given.is_primary(adapter),
    reference: |number, adapter| format!("( {number}{adapter} )"),
    device: |number, adapter| format!("( dev = {number}{adapter} )"),
    instance: |device, instance, adapter| format!("( dev = {device} , inst = {instance}{adapter} )"),
    group: |group, of, adapter| match of {
        NO_TYPE => format!("( group = {group}{adapter} )"),
        _ => format!("( group = {group} , type = {of}{adapter} )"),
    },
    milliseconds: |ms| if ms <= 1_000_000_000 { format!("{ms}ms") } else { format!("{}.{:03}s", ms / 1_000, ms % 1_000) },
    clock: |minutes| format!("{:02}:{:02}", minutes / 60, minutes % 60),
    solar: |offset| match offset {
        0 => "",
        1.. => "+",
        _ => "-",
    },
    days: |days| (0..7).filter(|day| days >> day & 1 == 1).collect(),
    on: |days| days != EVERY_DAY,
    literal: |number| if number < 0 { "-" } else { "" },
    added: |number| if number < 0 { "-" } else { "+" },
    name: |given, from, start, length| given.text(from).get(start..start + length).unwrap_or_default().to_vec(),
    before: ["when", "if", "and"],
    said: |writing, said| {
        let said = match said {
            Ok(text) => format!("written {} {}", text.len(), text.iter().fold("x".to_string(), |hex, byte| format!("{hex}{byte:02x}"))),
            Err((number, line)) => format!("refused {number} {line} 0 0"),
        };
        format!("case {}\nbuffer kept\n{said}\n", writing.id)
    },
};

/// A range of a text.
#[derive(Debug, Clone, Copy)]
pub struct Held<'a> {
    pub range: Range,
    pub text: &'a [u8],
    pub start: u32,
    pub length: u32,
}

impl<'a> Held<'a> {
    /// Where it ends, inside the text or not.
    pub fn end(self) -> u64 {
        u64::from(self.start) + u64::from(self.length)
    }

    /// Its bytes, if it is inside the text.
    pub fn bytes(self) -> Option<&'a [u8]> {
        (self.end() <= self.text.len() as u64).then(|| &self.text[self.start as usize..self.end() as usize])
    }

    /// Whether a name, topic or text can be this.
    pub fn fits(self) -> bool {
        let Some(bytes) = self.bytes() else { return false };
        let in_quotes = std::str::from_utf8(bytes).is_ok() && !bytes.contains(&b'"') && !bytes.contains(&b'\n');
        in_quotes && match self.range {
            Range::Name => (1..=48).contains(&bytes.len()),
            Range::Topic => topics::fits(bytes),
            Range::Text => bytes.len() <= 16,
        }
    }
}

/// The number of two words.
pub fn number(low: u32, high: u32) -> i64 {
    (u64::from(high) << 32 | u64::from(low)).cast_signed()
}

/// The entries in use.
pub fn entries(writing: &Writing) -> Vec<Entry<'_>> {
    let all = List::BOTH.into_iter().flat_map(|list| writing.lists.used(list).iter().map(move |row| (list, row)));
    (1..).zip(all).map(|(ordinal, (list, row))| Entry { list, ordinal, row }).collect()
}

impl Way {
    /// The answer.
    pub fn write(&self, given: &Given) -> String {
        let (writing, entries) = (given.writing, entries(given.writing));
        let of_call = given.refusal("when http trigger").unwrap_or_default();
        for ask in self.order {
            let refused = match ask {
                Ask::Sheet => of_call.strip_prefix("3 ").and_then(|line| line.split(' ').next()).map(|line| (3, line.parse().unwrap_or(0))),
                Ask::Primary => of_call.starts_with("53 ").then_some((53, 0)),
                Ask::Room => (writing.size < self.least).then_some((54, 0)),
                Ask::Counts => (!(self.counts)(writing.lists.counts)).then_some((55, 0)),
                Ask::Entries if self.in_turn => self.first(given, &entries, |entry| self.bad(given, entry).or(self.far(given, entry))),
                Ask::Entries => self.first(given, &entries, |entry| self.bad(given, entry)),
                Ask::Reach => self.first(given, &entries, |entry| self.far(given, entry)),
            };
            if let Some(refused) = refused {
                return (self.said)(writing, Err(refused));
            }
        }
        (self.said)(writing, Ok(&self.text(given, &entries)))
    }

    /// The first refusal of an entry, and its line.
    fn first(&self, given: &Given, entries: &[Entry], refused: impl Fn(&Entry) -> Option<u32>) -> Option<(u32, usize)> {
        let triggers = given.writing.lists.used(List::Triggers).len();
        entries.iter().find_map(|entry| Some((refused(entry)?, (self.line)(*entry, triggers))))
    }

    fn bad(&self, given: &Given, entry: &Entry) -> Option<u32> {
        (!self.is_given(given, entry)).then_some(55)
    }

    fn far(&self, given: &Given, entry: &Entry) -> Option<u32> {
        let words = layout(entry.list, &entry.row.words).into_iter().zip(entry.row.words);
        let mut adapters = words.filter(|(word, _)| matches!(word.role, Role::Adapter | Role::Broadcast));
        adapters.any(|(word, adapter)| !(self.reach)(given, word, adapter)).then_some(56)
    }

    /// Whether a text could give the entry.
    pub fn is_given(&self, given: &Given, entry: &Entry) -> bool {
        let (words, layout) = (&entry.row.words, layout(entry.list, &entry.row.words));
        let fits = |at: usize| match layout[at].role {
            Role::Start(range) => (self.range)(Held { range, text: given.text(entry.row.from), start: words[at], length: words[at + 1] }),
            Role::Low => (self.number)(number(words[at], words[at + 1])),
            Role::Length(_) | Role::High => true,
            _ => (self.word)(layout[at], words[at]),
        };
        (self.from)(entry.row.from) && (0..ENTRY).all(fits)
    }

    fn text(&self, given: &Given, entries: &[Entry]) -> Vec<u8> {
        let mut out: Vec<Vec<u8>> = Vec::new();
        for entry in entries {
            let first = entries.iter().find(|other| other.list == entry.list).is_some_and(|first| first.ordinal == entry.ordinal);
            let (before, phrases): (&str, &[Phrase]) = match entry.list {
                List::Triggers => (self.before[0], &TRIGGERS),
                List::Conditions => (self.before[if first { 1 } else { 2 }], &CONDITIONS),
            };
            out.push(before.into());
            let phrase = phrases.get((entry.row.words[0] as usize).wrapping_sub(1)).copied().unwrap_or_default();
            let mut pen = Pen { way: self, given, row: entry.row, out };
            phrase.iter().for_each(|part| pen.part(*part));
            out = pen.out;
        }
        out.retain(|piece| !piece.is_empty());
        out.join(&b' ')
    }
}

/// One row, as it is written.
struct Pen<'a> {
    way: &'a Way,
    given: &'a Given<'a>,
    row: &'a Row,
    out: Vec<Vec<u8>>,
}

impl Pen<'_> {
    fn word(&self, at: usize) -> u32 {
        self.row.words[at]
    }

    fn say(&mut self, words: impl Into<Vec<u8>>) {
        self.out.push(words.into());
    }

    /// One of a list, from 1 on; nothing past its end.
    fn one_of(&mut self, list: &[&str], code: u32) {
        self.say(list.get((code as usize).wrapping_sub(1)).copied().unwrap_or_default());
    }

    fn clause(&self, at: usize) -> String {
        let adapter = self.word(at);
        if (self.way.adapter)(self.given, adapter) { format!(" , adapter = {adapter}") } else { String::new() }
    }

    fn name(&mut self, at: usize) {
        let bytes = (self.way.name)(self.given, self.row.from, self.word(at) as usize, self.word(at + 1) as usize);
        self.say([b"\"", &bytes[..], b"\""].concat());
    }

    fn part(&mut self, part: Part) {
        let way = self.way;
        match part {
            Part::Say(words) => self.say(words),
            Part::Ref(at) => self.say((way.reference)(self.word(at + 1), &self.clause(at))),
            Part::Dev(at) => self.say((way.device)(self.word(at + 1), &self.clause(at))),
            Part::Input(at) => self.say((way.instance)(self.word(at + 1), self.word(at + 2), &self.clause(at))),
            Part::Selector(at) if self.word(at) == 2 => self.say((way.group)(self.word(at + 2), self.word(at + 3), &self.clause(at + 1))),
            Part::Selector(at) => self.part(Part::Input(at + 1)),
            Part::Event(at) if self.word(at) == 13 => self.say(format!("event ( data = {} )", self.word(at + 1))),
            Part::Event(at) => self.one_of(&EVENTS, self.word(at)),
            Part::Target(at) => {
                self.one_of(&["lamp", "group", "broadcast"], self.word(at));
                if self.word(at) < 3 {
                    self.part(Part::Ref(at + 1));
                }
            }
            Part::Clock(at) => self.say((way.clock)(self.word(at))),
            Part::Solar(at) => {
                self.one_of(SUN, self.word(at));
                let offset = self.word(at + 1).cast_signed();
                let sign = (way.solar)(offset);
                if !sign.is_empty() {
                    self.say(sign);
                    self.say((way.milliseconds)(offset.unsigned_abs()));
                }
            }
            Part::Bound(at) => self.part(if self.word(at) == 2 { Part::Solar(at + 1) } else { Part::Clock(at + 1) }),
            Part::On(at) => {
                if (way.on)(self.word(at)) {
                    self.say("on");
                    self.part(Part::Days(at));
                }
            }
            Part::Days(at) => {
                let days: Vec<&str> = (way.days)(self.word(at)).into_iter().map(|day| WEEK[day]).collect();
                self.say(days.join(" , "));
            }
            Part::Duration(at) => self.say((way.milliseconds)(self.word(at))),
            Part::Number(at) => self.say(self.word(at).to_string()),
            Part::Word(at, list) => self.one_of(list, self.word(at)),
            Part::Name(at) => self.name(at),
            Part::Value(at) => self.value(at),
        }
    }

    fn value(&mut self, at: usize) {
        let number = number(self.word(at + 5), self.word(at + 6));
        match self.word(at) {
            4 => self.name(at + 1),
            1 => self.signed((self.way.literal)(number), number),
            kind => {
                self.reading(at + 1);
                if kind == 3 {
                    self.signed((self.way.added)(number), number);
                }
            }
        }
    }

    fn signed(&mut self, sign: &'static str, number: i64) {
        self.say(sign);
        self.say(number.unsigned_abs().to_string());
    }

    fn reading(&mut self, at: usize) {
        let Some((before, behind)) = READINGS.get((self.word(at) as usize).wrapping_sub(1)) else { return };
        self.say(*before);
        match *before {
            "lamp" | "group" => self.part(Part::Ref(at + 1)),
            "input" => self.part(Part::Input(at + 1)),
            "var (" => self.name(at + 1),
            _ => {}
        }
        self.say(*behind);
    }
}
