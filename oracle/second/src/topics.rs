//! The topics of `mqtt` triggers, document 02 §12: what one may be, and how many different ones may stand named.

use crate::reader::Read;
use crate::refusal::{Place, Refusal};
use std::collections::BTreeSet;

const MOST_BYTES: usize = 48;
const MOST_DIFFERENT: usize = 8;

/// The different topics that stand named: those that the caller lends, and those of the triggers before.
#[derive(Debug)]
pub struct Topics<'a> {
    named: BTreeSet<&'a [u8]>,
}

impl<'a> Topics<'a> {
    /// "The caller lends the topics of earlier rules, one a line, LF between, taken as they come, empty lines aside; lent topics
    /// alone break no limit."
    pub fn lent(bytes: &'a [u8]) -> Topics<'a> {
        Topics { named: bytes.split(|&b| b == b'\n').filter(|line| !line.is_empty()).collect() }
    }

    /// "Joining (the first text's topics count as earlier for the second)."
    pub fn and_earlier(mut self, topics: impl Iterator<Item = &'a [u8]>) -> Topics<'a> {
        self.named.extend(topics);
        self
    }

    /// 66, at the word `mqtt`: "a new topic when eight or more others stand named".
    pub fn name(&mut self, topic: &'a [u8], mqtt: Place) -> Read<()> {
        if self.named.len() >= MOST_DIFFERENT && !self.named.contains(topic) {
            return Err(Refusal::new(66, mqtt));
        }
        self.named.insert(topic);
        Ok(())
    }
}

/// "It refuses an empty or forbidden topic with 64, then one over 48 bytes with 65, both at the string."
pub fn judge(topic: &str, string: Place) -> Read<()> {
    if topic.is_empty() || topic.chars().any(is_forbidden) {
        return Err(Refusal::new(64, string));
    }
    if topic.len() > MOST_BYTES {
        return Err(Refusal::new(65, string));
    }
    Ok(())
}

/// "No `+`, `#`, control character or Unicode noncharacter."
fn is_forbidden(c: char) -> bool {
    matches!(c, '+' | '#') || is_control(c) || is_noncharacter(c)
}

/// The 65 characters of the category Cc.
fn is_control(c: char) -> bool {
    matches!(c, '\0'..='\u{1F}' | '\u{7F}'..='\u{9F}')
}

/// The 66 noncharacters: U+FDD0 to U+FDEF, and the last two of each of the 17 planes.
fn is_noncharacter(c: char) -> bool {
    matches!(c, '\u{FDD0}'..='\u{FDEF}') || matches!(u32::from(c) % 0x1_0000, 0xFFFE | 0xFFFF)
}

#[cfg(test)]
mod tests {
    use super::*;

    #[test]
    fn the_forbidden_characters() {
        let every = || (0..=0x10_FFFF).filter_map(char::from_u32);
        assert_eq!(every().filter(|&c| is_control(c)).count(), 65);
        assert!(every().all(|c| is_control(c) == c.is_control()));
        assert_eq!(every().filter(|&c| is_noncharacter(c)).count(), 66);
        assert_eq!(every().filter(|&c| is_forbidden(c)).count(), 2 + 65 + 66);
    }
}
