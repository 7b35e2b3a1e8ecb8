//! What each word of a row stands for in the flat layout (include/tergyosul.h), by the words before it.

use cases::{List, ENTRY};

/// The kinds of entries, from 1 on.
pub fn kinds(list: List) -> u32 {
    match list {
        List::Triggers => 21,
        List::Conditions => 16,
    }
}

/// A range of the text's bytes.
#[derive(Debug, Clone, Copy, PartialEq, Eq)]
pub enum Range {
    Name,
    Topic,
    /// The text that a var is compared with.
    Text,
}

#[derive(Debug, Clone, Copy, PartialEq, Eq)]
pub enum Role {
    /// One of so many, from 1 on: the kind of an entry, of a part or of a reading, a choice, a comparison, an event.
    Code(u32),
    /// From 0 to this.
    Number(u32),
    /// The adapter of a reference, a scene or an instance group, and that of broadcast.
    Adapter,
    Broadcast,
    /// The type of an instance group, or none.
    Type,
    Days,
    /// Milliseconds: at least a second, any, and with a sign.
    Period,
    Age,
    Offset,
    Start(Range),
    Length(Range),
    /// A number of 64 bits.
    Low,
    High,
    /// The row does not name it.
    Unnamed,
}

pub const HIGHEST_ADAPTER: u32 = 255;
pub const HIGHEST_OF_ARGS: u32 = 31;
pub const NO_TYPE: u32 = u32::MAX;
pub const EVERY_DAY: u32 = 127;
pub const LEAST_PERIOD: u32 = 1_000;
/// A number with a sign is from minus this to this.
pub const MOST_NUMBER: i64 = 1_000_000_000;
const RAW: u32 = 13;

impl Role {
    /// Whether a word is one of this role, apart from ranges and numbers of 64 bits.
    pub fn fits(self, word: u32) -> bool {
        match self {
            Role::Code(count) => (1..=count).contains(&word),
            Role::Number(most) => word <= most,
            Role::Adapter | Role::Broadcast => word <= HIGHEST_ADAPTER,
            Role::Type => word <= HIGHEST_OF_ARGS || word == NO_TYPE,
            Role::Days => (1..=EVERY_DAY).contains(&word),
            Role::Period => word >= LEAST_PERIOD,
            Role::Age | Role::Offset | Role::Start(_) | Role::Length(_) | Role::Low | Role::High => true,
            Role::Unnamed => word == 0,
        }
    }
}

/// A word of a row: what it stands for, and the part of the entry in which it stands. The parts of a value have names of their own.
#[derive(Debug, Clone, Copy, PartialEq, Eq)]
pub struct Word {
    pub role: Role,
    pub part: &'static str,
}

/// What the words of a row are. Behind a word that is no code of its part they are those of the part's first form.
pub fn layout(list: List, words: &[u32; ENTRY]) -> [Word; ENTRY] {
    let mut laid = Laid { words, layout: Vec::with_capacity(ENTRY) };
    laid.put("kind", &[Role::Code(kinds(list))]);
    match list {
        List::Triggers => laid.trigger(words[0]),
        List::Conditions => laid.condition(words[0]),
    }
    laid.layout.resize(ENTRY, Word { role: Role::Unnamed, part: "rest" });
    laid.layout.try_into().expect("no row has more words")
}

/// Their roles alone.
pub fn roles(list: List, words: &[u32; ENTRY]) -> [Role; ENTRY] {
    layout(list, words).map(|word| word.role)
}

struct Laid<'a> {
    words: &'a [u32; ENTRY],
    layout: Vec<Word>,
}

const CHOICE: Role = Role::Code(2);
const COMPARISON: Role = Role::Code(6);

impl Laid<'_> {
    fn put(&mut self, part: &'static str, roles: &[Role]) {
        self.layout.extend(roles.iter().map(|&role| Word { role, part }));
    }

    /// A code, and its word.
    fn code(&mut self, part: &'static str, count: u32) -> u32 {
        let word = self.words[self.layout.len()];
        self.put(part, &[Role::Code(count)]);
        word
    }

    fn choice(&mut self) {
        self.put("choice", &[CHOICE]);
    }

    fn reference(&mut self, part: &'static str, most: u32) {
        self.put(part, &[Role::Adapter, Role::Number(most)]);
    }

    fn input(&mut self, part: &'static str) {
        self.put(part, &[Role::Adapter, Role::Number(63), Role::Number(HIGHEST_OF_ARGS)]);
    }

    fn range(&mut self, part: &'static str, range: Range) {
        self.put(part, &[Role::Start(range), Role::Length(range)]);
    }

    fn name(&mut self) {
        self.range("name", Range::Name);
    }

    fn selector(&mut self) {
        match self.code("selector", 2) {
            2 => self.put("instance group", &[Role::Adapter, Role::Number(HIGHEST_OF_ARGS), Role::Type]),
            _ => self.input("instance"),
        }
    }

    fn event(&mut self) {
        match self.code("event", RAW) {
            RAW => self.put("data", &[Role::Number(1_023)]),
            _ => self.put("no data", &[Role::Unnamed]),
        }
    }

    fn target(&mut self) {
        match self.code("target", 3) {
            3 => self.put("broadcast", &[Role::Broadcast, Role::Unnamed]),
            2 => self.reference("group", 15),
            _ => self.reference("lamp", 63),
        }
    }

    fn clock(&mut self) {
        self.put("clock", &[Role::Number(1_439)]);
    }

    fn solar(&mut self) {
        self.put("solar", &[CHOICE, Role::Offset]);
    }

    fn bound(&mut self) {
        match self.code("bound", 2) {
            2 => self.solar(),
            _ => { self.clock(); self.put("clock", &[Role::Unnamed]) }
        }
    }

    fn reading(&mut self) {
        match self.code("value reading", 23) {
            5..=7 => { self.reference("value group", 15); self.put("value group", &[Role::Unnamed]) }
            8..=11 => self.input("value input"),
            12..=22 => self.put("value plain", &[Role::Unnamed; 3]),
            23 => { self.range("value var", Range::Name); self.put("value var", &[Role::Unnamed]) }
            _ => { self.reference("value lamp", 63); self.put("value lamp", &[Role::Unnamed]) }
        }
    }

    /// A value; one of four kinds where it may be a text.
    fn value(&mut self, kinds: u32) {
        match self.code(if kinds == 4 { "value or text" } else { "value" }, kinds) {
            4 if kinds == 4 => { self.range("value text", Range::Text); self.put("value text", &[Role::Unnamed; 4]) }
            3 => { self.reading(); self.put("value added", &[Role::Low, Role::High]) }
            2 => { self.reading(); self.put("value not added", &[Role::Unnamed; 2]) }
            _ => { self.put("value literal", &[Role::Unnamed; 4]); self.put("value literal", &[Role::Low, Role::High]) }
        }
    }

    fn trigger(&mut self, kind: u32) {
        match kind {
            1 => { self.selector(); self.event() }
            2 => { self.input("input"); self.choice() }
            3 => { self.input("input"); self.choice(); self.put("threshold", &[Role::Number(1_023)]) }
            4 => self.input("input"),
            5 | 6 => self.reference("input device", 63),
            7 => { self.clock(); self.put("days", &[Role::Days]) }
            8 => { self.solar(); self.put("days", &[Role::Days]) }
            9 => self.put("period", &[Role::Period]),
            10 => { self.reference("lamp", 63); self.choice() }
            11 => { self.reference("lamp", 63); self.choice(); self.put("threshold", &[Role::Number(254)]) }
            12 => { self.reference("group", 15); self.choice() }
            13 => self.reference("scene", 15),
            14 => { self.reference("device", 63); self.choice() }
            15 => { self.target(); self.choice() }
            16 | 19 => self.name(),
            21 => self.range("topic", Range::Topic),
            _ => {}
        }
    }

    fn condition(&mut self, kind: u32) {
        match kind {
            1 => { self.bound(); self.bound() }
            2 => self.choice(),
            3 => { self.reference("lamp", 63); self.choice() }
            4 | 5 => { self.reference("lamp", 63); self.put("comparison", &[COMPARISON]); self.value(3) }
            6 => { self.reference("group", 15); self.choice() }
            7 => { self.input("input"); self.choice() }
            8 => { self.input("input"); self.choice(); self.value(3) }
            9 => { self.target(); self.choice() }
            10 => self.reference("device", 63),
            11 | 13 => self.name(),
            12 => { self.name(); self.put("age", &[Role::Age]) }
            15 => { self.name(); self.put("comparison", &[COMPARISON]); self.value(4) }
            16 => self.put("days", &[Role::Days]),
            _ => {}
        }
    }
}

#[cfg(test)]
mod tests {
    use super::*;

    fn named(list: List, words: &[u32]) -> usize {
        let mut row = [0; ENTRY];
        row[..words.len()].copy_from_slice(words);
        ENTRY - roles(list, &row).iter().rev().take_while(|role| **role == Role::Unnamed).count()
    }

    /// How many words of each row are named, as the header's tables have it.
    #[test]
    fn every_kind_has_its_words() {
        let triggers = [6, 5, 6, 4, 3, 3, 3, 4, 2, 4, 5, 4, 3, 4, 5, 3, 1, 1, 3, 1, 3];
        assert_eq!((1..=21).map(|kind| named(List::Triggers, &[kind])).collect::<Vec<_>>(), triggers);
        let conditions = [6, 2, 4, 11, 11, 4, 5, 12, 5, 3, 3, 4, 3, 1, 11, 2];
        assert_eq!((1..=16).map(|kind| named(List::Conditions, &[kind])).collect::<Vec<_>>(), conditions);
        assert_eq!([0, 22, u32::MAX].map(|kind| named(List::Triggers, &[kind])), [1; 3]);
        let others = [
            (&[15, 0, 1, 1, 4][..], 7), (&[15, 0, 1, 1, 2, 12], 6), (&[15, 0, 1, 1, 2, 9], 9), (&[15, 0, 1, 1, 3, 12], 11), (&[1, 2, 1, 0, 2], 7),
        ];
        assert!(others.iter().all(|(words, count)| named(List::Conditions, words) == *count));
        assert_eq!((named(List::Triggers, &[1, 1, 0, 0, 0, 13]), named(List::Triggers, &[15, 3])), (7, 5));
    }
}
