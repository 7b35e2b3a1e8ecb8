//! What a `call` line gives beside the buffer, the text and the sheet (docs/REPLAY.md).

use crate::lines;

/// How a call takes repeated input arguments, and which forms it takes.
#[derive(Debug, Clone, Copy, PartialEq, Eq, Hash, PartialOrd, Ord)]
pub enum Habit {
    /// The default call: a repeat is refused (document 02 §11).
    Rule,
    /// The archive loader's call: a repeat replaces the earlier one.
    Archive,
    /// The shop profile over the default call (document 02 §9).
    Shop,
}

impl Habit {
    pub const ALL: [Habit; 3] = [Habit::Rule, Habit::Archive, Habit::Shop];

    pub fn word(self) -> &'static str {
        match self {
            Habit::Rule => "rule",
            Habit::Archive => "archive",
            Habit::Shop => "shop",
        }
    }

    pub fn of(word: &str) -> Option<Habit> {
        Habit::ALL.into_iter().find(|habit| habit.word() == word)
    }
}

/// The settings of a call.
#[derive(Debug, Clone, PartialEq, Eq)]
pub struct Settings {
    pub habit: Habit,
    pub party: u8,
    pub primary: u8,
    /// The topics of earlier rules, one a line, as the caller lends them (document 02 §12).
    pub topics: Vec<u8>,
}

impl Settings {
    /// What a `case` line stands for, but with this habit: party 0, the sheet's own primary, no topics.
    pub fn plain(habit: Habit, sheet: &[u8]) -> Settings {
        Settings { habit, party: 0, primary: own_primary(sheet), topics: Vec::new() }
    }
}

/// The primary that the first line of a sheet gives, 0 if it gives none.
pub fn own_primary(sheet: &[u8]) -> u8 {
    let digits = lines(sheet)[0].strip_prefix(b"primary,").and_then(|digits| std::str::from_utf8(digits).ok());
    let plain = digits.filter(|digits| digits.bytes().all(|b| b.is_ascii_digit()) && (digits.len() == 1 || !digits.starts_with('0')));
    plain.and_then(|digits| digits.parse().ok()).unwrap_or(0)
}

#[cfg(test)]
mod tests {
    use super::*;

    #[test]
    fn a_sheets_own_primary() {
        for (sheet, primary) in [
            ("primary,0", 0), ("primary,7\nadapter,1\n", 7), ("primary,255\n", 255), ("primary,256\n", 0), ("primary,07\n", 0),
            ("primary,\n", 0), ("primary,+7\n", 0), ("primary,7,\n", 0), ("adapter,7\n", 0), ("", 0), ("primary,7\r\n", 7),
            ("primary,7\r", 7), ("primary,7\r\nadapter,1", 7), ("primary,7\r\r\n", 0), ("primary,\r7", 0), ("\r\nprimary,7", 0),
        ] {
            assert_eq!(own_primary(sheet.as_bytes()), primary, "{sheet:?}");
        }
    }

    #[test]
    fn habits_have_their_words() {
        assert!(Habit::ALL.iter().all(|&habit| Habit::of(habit.word()) == Some(habit)));
        assert_eq!(Habit::of("Rule"), None);
    }
}
