//! Sets of days, document 02 §1. "A day set is days or ranges parted by commas; days are mon, tue, wed, thu, fri, sat, sun, and
//! `..` joins a range."

use crate::lexer::Kind as TokenKind;
use crate::reader::{Read, Reader};
use crate::refusal::Refusal;

const WEEK: usize = 7;
const NAMES: [&str; WEEK] = ["mon", "tue", "wed", "thu", "fri", "sat", "sun"];

/// Which of the seven days are in a set, from mon on.
#[derive(Debug, Clone, Copy, PartialEq, Eq)]
pub struct Days([bool; WEEK]);

impl Days {
    const NONE: Days = Days([false; WEEK]);
    /// "Without `on`, all seven count."
    pub const ALL: Days = Days([true; WEEK]);

    /// "A range runs forward and may pass the end of the week: `fri..mon` is four days, `mon..mon` one." A day alone is the range
    /// from it to itself.
    fn add_range(&mut self, from: usize, to: usize) {
        let mut day = from;
        self.0[day] = true;
        while day != to {
            day = (day + 1) % WEEK;
            self.0[day] = true;
        }
    }

    /// DAYS of the flat layout: "the sum of 1 for mon, 2 for tue, 4 for wed, 8 for thu, 16 for fri, 32 for sat and 64 for sun; never 0".
    pub fn of_sum(sum: u32) -> Option<Days> {
        let all = (1 << WEEK) - 1;
        (1..=all).contains(&sum).then(|| Days(std::array::from_fn(|day| sum >> day & 1 == 1)))
    }

    pub fn sum(&self) -> u32 {
        (0..).zip(self.0).map(|(day, is_in)| u32::from(is_in) << day).sum()
    }

    /// The names of the days in the set, from mon on.
    pub fn names(&self) -> impl Iterator<Item = &'static str> {
        NAMES.into_iter().zip(self.0).filter(|(_, is_in)| *is_in).map(|(name, _)| name)
    }

    /// DAYS of the replay format: "the digits of the days in the set, 1 for mon to 7 for sun, ascending".
    pub fn digits(&self) -> String {
        (1..).zip(self.0).filter(|(_, is_in)| *is_in).map(|(digit, _): (u8, bool)| digit.to_string()).collect()
    }
}

impl Reader<'_> {
    /// A whole set: as long as a comma follows, a day or a range is due behind it.
    pub fn days(&mut self) -> Read<Days> {
        let mut days = Days::NONE;
        loop {
            let from = self.day()?;
            let to = if self.take_kind(TokenKind::Points) { self.day()? } else { from };
            days.add_range(from, to);
            if !self.take_kind(TokenKind::Comma) {
                return Ok(days);
            }
        }
    }

    /// A day, by its place in the week. "It refuses a word that is no day with 50, at the word, when that word is read."
    fn day(&mut self) -> Read<usize> {
        let (word, place) = self.any_word()?;
        NAMES.iter().position(|name| name.as_bytes() == word).ok_or(Refusal::new(50, place))
    }
}

#[cfg(test)]
mod tests {
    use super::*;

    fn range(from: usize, to: usize) -> String {
        let mut days = Days::NONE;
        days.add_range(from, to);
        days.digits()
    }

    #[test]
    fn a_range_runs_forward() {
        assert_eq!([range(0, 6), range(4, 0), range(6, 0), range(0, 0), range(1, 0), range(6, 5)], ["1234567", "1567", "17", "1", "1234567", "1234567"]);
        for (from, to) in (0..WEEK).flat_map(|from| (0..WEEK).map(move |to| (from, to))) {
            assert_eq!(range(from, to).len(), (to + WEEK - from) % WEEK + 1);
        }
        assert_eq!((Days::NONE.digits(), Days::ALL.digits()), (String::new(), "1234567".to_string()));
    }

    #[test]
    fn a_set_and_its_sum() {
        let sums: Vec<u32> = (0..300).chain([u32::MAX]).filter_map(Days::of_sum).map(|days| days.sum()).collect();
        assert_eq!(sums, (1..=127).collect::<Vec<_>>());
        let names = |sum: u32| Days::of_sum(sum).unwrap().names().collect::<Vec<_>>().join(" ");
        assert_eq!((names(1), names(127), names(64 + 8 + 1)), ("mon".into(), "mon tue wed thu fri sat sun".into(), "mon thu sun".into()));
    }
}
