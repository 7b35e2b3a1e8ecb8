//! Days of the week, and sets of them.

use core::fmt;

/// A day of the week. It is shown as its word in a rule's text.
#[derive(Debug, Clone, Copy, PartialEq, Eq, PartialOrd, Ord, Hash)]
#[allow(missing_docs)]
pub enum Day {
    Mon,
    Tue,
    Wed,
    Thu,
    Fri,
    Sat,
    Sun,
}

impl Day {
    /// All seven, from Monday on.
    pub const ALL: [Day; 7] = [Day::Mon, Day::Tue, Day::Wed, Day::Thu, Day::Fri, Day::Sat, Day::Sun];

    /// The day's word in a rule's text.
    pub const fn word(self) -> &'static str {
        match self {
            Day::Mon => "mon",
            Day::Tue => "tue",
            Day::Wed => "wed",
            Day::Thu => "thu",
            Day::Fri => "fri",
            Day::Sat => "sat",
            Day::Sun => "sun",
        }
    }

    /// What the day adds to the sum of a set.
    const fn bit(self) -> u8 {
        1 << self as u8
    }
}

impl fmt::Display for Day {
    fn fmt(&self, f: &mut fmt::Formatter<'_>) -> fmt::Result {
        f.pad(self.word())
    }
}

/// A set of days. In a rule it has one at least. It is shown as it may stand in a rule's text behind `on` and `day in`: each day
/// by itself, from `mon` on.
///
/// ```
/// use tergyosul::{Condition, Day, Days, Party, Trigger};
///
/// let text = b"when at 7:05 on mon..fri when at 9:00 if day in fri..mon";
/// let sheet = b"primary,0\n";
/// let mut words = [0; tergyosul::TOKEN_WORDS];
///
/// let rule = tergyosul::read(text, sheet, Party::of_sheet(sheet), &mut words)?;
/// let [Trigger::AtTime(425, days), Trigger::AtTime(540, Days::EVERY_DAY)] = rule.triggers() else { panic!("two times") };
/// assert!(days.contains(Day::Fri) && !days.contains(Day::Sat));
/// assert_eq!(days.to_string(), "mon, tue, wed, thu, fri");
///
/// let weekend = [Day::Fri, Day::Sat, Day::Sun, Day::Mon].into_iter().collect();
/// assert_eq!(rule.conditions(), [Condition::DayIn(weekend)]);
/// # Ok::<(), tergyosul::Refusal>(())
/// ```
#[derive(Clone, Copy, PartialEq, Eq, Hash)]
pub struct Days {
    // The sum of the bits of its days.
    sum: u8,
}

impl Days {
    /// All seven: those of a time without `on`.
    pub const EVERY_DAY: Days = Days { sum: 127 };

    /// The set with this sum of 1 for Monday, 2 for Tuesday, and so on to 64 for Sunday. There is none for 0, and none above 127.
    pub(crate) fn of_sum(sum: u32) -> Option<Days> {
        let sum = u8::try_from(sum).ok()?;
        (1..=Days::EVERY_DAY.sum).contains(&sum).then_some(Days { sum })
    }

    /// Is the day in the set?
    pub const fn contains(self, day: Day) -> bool {
        self.sum & day.bit() != 0
    }

    /// The days of the set, from Monday on.
    pub fn iter(self) -> impl Iterator<Item = Day> {
        Day::ALL.into_iter().filter(move |day| self.contains(*day))
    }
}

/// The set of these days, in whatever order and however often they come.
impl FromIterator<Day> for Days {
    fn from_iter<I: IntoIterator<Item = Day>>(days: I) -> Days {
        Days { sum: days.into_iter().fold(0, |sum, day| sum | day.bit()) }
    }
}

impl fmt::Display for Days {
    fn fmt(&self, f: &mut fmt::Formatter<'_>) -> fmt::Result {
        self.iter().enumerate().try_for_each(|(i, day)| {
            let comma = if i == 0 { "" } else { ", " };
            write!(f, "{comma}{day}")
        })
    }
}

impl fmt::Debug for Days {
    fn fmt(&self, f: &mut fmt::Formatter<'_>) -> fmt::Result {
        write!(f, "Days({self})")
    }
}
