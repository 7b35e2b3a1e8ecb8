//! Document 02 §12: topics of texts and lent ones, at and around every bound.

use crate::damage;
use crate::grammar::{quoted, Walk};
use crate::rng::Rng;
use crate::vocabulary::{BESIDE_FORBIDDEN, FORBIDDEN, LENT_ODDITIES, LONG_NAMES, TOPICS};
use cases::MOST_BYTES;

const LONGEST: usize = 48;
const PLANES: usize = 17;

/// Any code point of a plane but the first.
fn of_another_plane(rng: &mut Rng, offsets: &[usize]) -> char {
    let code = rng.within(1, PLANES - 1) * 0x1_0000 + rng.pick(offsets);
    u32::try_from(code).ok().and_then(char::from_u32).expect("no surrogate is past the first plane")
}

/// A character that no topic has.
fn forbidden(rng: &mut Rng) -> char {
    match rng.below(8) {
        0..=2 => of_another_plane(rng, &[0xFFFE, 0xFFFF]),
        3 => rng.pick(&['+', '#']),
        _ => rng.pick(FORBIDDEN),
    }
}

/// A character that a topic may have, mostly just beside one that none has.
fn beside_forbidden(rng: &mut Rng) -> char {
    if rng.once_in(4) { of_another_plane(rng, &[0, 0xFFFD, 0xFDD0, 0xFDEF]) } else { rng.pick(BESIDE_FORBIDDEN) }
}

/// The character alone, or first, last or inside.
fn with(rng: &mut Rng, c: char) -> String {
    match rng.below(5) {
        0 | 1 => c.to_string(),
        2 => format!("{c}a"),
        3 => format!("a/{c}"),
        _ => format!("a{c}b"),
    }
}

/// A topic of exactly so many bytes, of narrow or of wide characters.
fn of_length(rng: &mut Rng, length: usize) -> String {
    let unit = rng.pick(&["a", "a", "a", "\u{e9}", "\u{e9}", "\u{65e5}", "\u{1f4a1}"]);
    let wide = unit.repeat(length / unit.len());
    let narrow = "x".repeat(length - wide.len());
    if rng.once_in(2) { wide + &narrow } else { narrow + &wide }
}

/// A topic that a text may have.
fn fitting(rng: &mut Rng) -> String {
    match rng.below(16) {
        0 | 1 => { let c = beside_forbidden(rng); with(rng, c) }
        2 => { let length = rng.pick(&[1, 2, 47, 48, 48, 48]); of_length(rng, length) }
        _ => rng.pick(TOPICS).to_string(),
    }
}

/// One that no text may have: empty, forbidden, too long, or both of these.
fn wrong(rng: &mut Rng) -> String {
    match rng.below(12) {
        0 => String::new(),
        1 => { let length = rng.pick(&[49, 50, 64, 200]); of_length(rng, length) }
        2 | 3 => of_length(rng, LONGEST + 1),
        4 => {
            let length = rng.pick(&[46, 47, 48, 60]);
            of_length(rng, length) + &forbidden(rng).to_string()
        }
        5 => rng.pick(LONG_NAMES).to_string(),
        _ => { let c = forbidden(rng); with(rng, c) }
    }
}

/// A topic of any kind.
pub fn any(rng: &mut Rng) -> Vec<u8> {
    if rng.once_in(2) { fitting(rng).into_bytes() } else { wrong(rng).into_bytes() }
}

/// Whether a text may have the topic.
pub fn fits(topic: &[u8]) -> bool {
    let noncharacter = |c: char| (0xFDD0..=0xFDEF).contains(&u32::from(c)) || u32::from(c) & 0xFFFE == 0xFFFE;
    let is_forbidden = |c: char| matches!(c, '+' | '#' | '"') || c.is_control() || noncharacter(c);
    let text = std::str::from_utf8(topic);
    (1..=LONGEST).contains(&topic.len()) && text.is_ok_and(|text| !text.chars().any(is_forbidden))
}

/// The topics that a caller lends: often none, else mostly about eight different ones, often with repeats, empty lines, a last
/// LF or lines that no text could name.
pub fn lent(rng: &mut Rng) -> Vec<u8> {
    match rng.below(400) {
        0..=159 => return Vec::new(),
        160..=165 => return many(rng),
        _ => {}
    }
    let mut lines = different(rng);
    if rng.once_in(3) {
        for _ in 0..rng.within(1, 4) {
            let again = lines[rng.below(lines.len())].clone();
            insert(rng, &mut lines, again);
        }
    }
    if rng.once_in(4) {
        for _ in 0..rng.within(1, 3) {
            insert(rng, &mut lines, Vec::new());
        }
    }
    let mut bytes = lines.join(if rng.once_in(24) { &b"\r\n"[..] } else { &b"\n"[..] });
    if rng.once_in(2) {
        bytes.extend_from_slice(rng.pick(&["\n", "\n", "\n", "\n\n", "\r\n", "\r"]).as_bytes());
    }
    match rng.below(40) {
        0 => damage::bytes(rng, &mut bytes),
        1 => damage::lines(rng, &mut bytes),
        _ => {}
    }
    bytes
}

fn insert(rng: &mut Rng, lines: &mut Vec<Vec<u8>>, line: Vec<u8>) {
    let at = rng.within(0, lines.len());
    lines.insert(at, line);
}

/// Different topics; some that no text could name.
fn different(rng: &mut Rng) -> Vec<Vec<u8>> {
    let count = rng.pick(&[1, 2, 3, 4, 5, 5, 5, 6, 6, 6, 7, 7, 7, 7, 8, 8, 8, 8, 8, 9, 9, 10, 10, 10]);
    let mut lines: Vec<Vec<u8>> = Vec::new();
    while lines.len() < count {
        let line = match rng.below(60) {
            0..=2 => rng.pick(LENT_ODDITIES).to_vec(),
            3 => any(rng),
            4..=8 => fitting(rng).into_bytes(),
            _ => rng.pick(TOPICS).as_bytes().to_vec(),
        };
        if !line.is_empty() && !line.contains(&b'\n') && !lines.contains(&line) {
            lines.push(line);
        }
    }
    lines
}

/// Some hundred bytes, or as many as the replay format allows: a few different topics, before or behind so many repeats, further ones,
/// empty lines, or one long line.
fn many(rng: &mut Rng) -> Vec<u8> {
    let length = rng.pick(&[300, 300, 1_000, 1_000, MOST_BYTES]);
    let few = different(rng).join(&b'\n');
    let (topic, sort) = (rng.pick(TOPICS), rng.below(4));
    let line = |nth: usize| match sort {
        0 => format!("{nth}\n"),
        1 => format!("{topic}\n"),
        2 => "\n".to_string(),
        _ => topic.to_string(),
    };
    let filling: Vec<u8> = (0..length).flat_map(|nth| line(nth).into_bytes()).take(length.saturating_sub(few.len() + 1)).collect();
    let parts = if rng.once_in(3) { [few, filling] } else { [filling, few] };
    parts.join(&b'\n')
}

impl Walk<'_> {
    /// `mqtt` and a topic; in a slip something else behind it, or what is left out.
    pub(crate) fn mqtt(&mut self) {
        if self.slip() && self.rng.once_in(3) {
            let odd = self.rng.pick(&["mqtt is", "mqtt t", "mqtt 5", "mqtt ( \"t\" )", "mqtt when", "mqtt is \"t\""]);
            return self.say(odd);
        }
        let topic = self.topic();
        self.mqtt_with(&topic);
        if self.slip() {
            let behind = self.rng.pick(&["is", "is \"p\"", "is \"p\"", "is 5", "is \"\"", "\"p\"", "on"]);
            self.say(behind);
        }
    }

    /// `mqtt` and a topic that a text may have or may not.
    pub(crate) fn any_mqtt(&mut self) {
        let topic = any(self.rng);
        self.mqtt_with(&topic);
    }

    fn mqtt_with(&mut self, topic: &[u8]) {
        self.say("mqtt");
        self.out.push(quoted(topic));
    }

    /// One that is lent, one that the text has already, or any that it may have; in a slip one that it may not.
    fn topic(&mut self) -> Vec<u8> {
        let slip = self.slip();
        let lent = &self.sheet.topics;
        match self.rng.below(8) {
            0..=2 if !lent.is_empty() => {
                let topic = &lent[self.rng.below(lent.len())];
                if slip || fits(topic) { topic.clone() } else { fitting(self.rng).into_bytes() }
            }
            3 => self.topic_again(),
            _ if slip => wrong(self.rng).into_bytes(),
            _ => fitting(self.rng).into_bytes(),
        }
    }

    /// A topic of this text, if it has one.
    fn topic_again(&mut self) -> Vec<u8> {
        let behind = self.out.windows(2).filter(|two| *two[0] == *b"mqtt" && two[1].starts_with(b"\""));
        let topics: Vec<&[u8]> = behind.map(|two| &two[1][1..two[1].len() - 1]).filter(|topic| fits(topic)).collect();
        if topics.is_empty() { fitting(self.rng).into_bytes() } else { self.rng.pick(&topics).to_vec() }
    }

    /// A topic that is neither lent nor in this text.
    fn topic_anew(&mut self) -> Vec<u8> {
        loop {
            let topic = fitting(self.rng).into_bytes();
            if !self.sheet.topics.contains(&topic) && !self.out.contains(&quoted(&topic)) {
                return topic;
            }
        }
    }

    /// A text whose triggers are mostly `mqtt`, so that the topics come to about eight; in some of them most topics are new.
    pub fn topics_text(&mut self) {
        let anew = self.rng.once_in(2);
        for _ in 0..self.rng.pick(&[1, 1, 2, 2, 3, 3, 4, 4, 4, 4, 4, 5]) {
            self.say("when");
            match self.rng.below(12) {
                0 => self.trigger(),
                1 if anew => { let topic = self.topic_again(); self.mqtt_with(&topic) }
                2..=10 if anew => { let topic = self.topic_anew(); self.mqtt_with(&topic) }
                _ => self.mqtt(),
            }
        }
        match self.rng.below(8) {
            0 => { self.say("if"); self.condition() }
            1 => {
                let behind = self.rng.pick(&["foo", "if lamp (", "is", "is \"p\"", "mqtt", "when", "when every 5ms", "and", "@"]);
                self.say(behind)
            }
            _ => {}
        }
    }

    /// A text with one topic, right or wrong, lent or not.
    pub fn topic_text(&mut self) {
        if self.rng.once_in(4) {
            self.say("when http trigger");
        }
        self.say("when");
        let lent = &self.sheet.topics;
        let topic = if lent.is_empty() || !self.rng.once_in(4) { any(self.rng) } else { lent[self.rng.below(lent.len())].clone() };
        self.mqtt_with(&topic);
        if self.rng.once_in(4) {
            let behind = self.rng.pick(&["is", "is \"p\"", "foo", "if sun is up", "when mqtt \"a\""]);
            self.say(behind);
        }
    }
}
