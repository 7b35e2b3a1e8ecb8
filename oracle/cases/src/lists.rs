//! LISTS of the replay format: two lists in the flat layout of include/tergyosul.h, on `write` and on `back` lines.

use crate::number;
use std::io::{self, BufRead, Write};

/// Words of an entry in the flat layout.
pub const ENTRY: usize = 12;
/// Rows for triggers, and for conditions behind them.
pub const ROWS: usize = 4;
/// Numbers of LISTS.
const NUMBERS: usize = 2 + 2 * ROWS * (1 + ENTRY);

/// An entry: "the text in which the entry's names stand", and its words.
#[derive(Debug, Clone, Copy, PartialEq, Eq, Default)]
pub struct Row {
    pub from: u32,
    pub words: [u32; ENTRY],
}

impl Row {
    /// With these words, and zeros behind them.
    pub fn new(from: u32, words: &[u32]) -> Row {
        let mut row = Row { from, ..Row::default() };
        row.words[..words.len()].copy_from_slice(words);
        row
    }
}

/// LISTS: the two counts, and the rows of the triggers and of the conditions. "Rows past a count are not looked at."
#[derive(Debug, Clone, Copy, PartialEq, Eq, Default)]
pub struct Flat {
    pub counts: [u32; 2],
    pub triggers: [Row; ROWS],
    pub conditions: [Row; ROWS],
}

/// One of the two.
#[derive(Debug, Clone, Copy, PartialEq, Eq)]
pub enum List {
    Triggers,
    Conditions,
}

impl List {
    pub const BOTH: [List; 2] = [List::Triggers, List::Conditions];
}

impl Flat {
    /// Lists of these entries, at most four of each.
    pub fn new(triggers: &[Row], conditions: &[Row]) -> Flat {
        let mut lists = Flat { counts: [triggers.len() as u32, conditions.len() as u32], ..Flat::default() };
        lists.triggers[..triggers.len()].copy_from_slice(triggers);
        lists.conditions[..conditions.len()].copy_from_slice(conditions);
        lists
    }

    pub fn rows(&self, list: List) -> &[Row; ROWS] {
        match list {
            List::Triggers => &self.triggers,
            List::Conditions => &self.conditions,
        }
    }

    pub fn rows_mut(&mut self, list: List) -> &mut [Row; ROWS] {
        match list {
            List::Triggers => &mut self.triggers,
            List::Conditions => &mut self.conditions,
        }
    }

    /// The rows up to the count, as far as there are so many.
    pub fn used(&self, list: List) -> &[Row] {
        let count = self.counts[list as usize] as usize;
        &self.rows(list)[..count.min(ROWS)]
    }

    fn numbers(&self) -> Vec<u32> {
        let rows = self.triggers.iter().chain(&self.conditions);
        self.counts.into_iter().chain(rows.flat_map(|row| [row.from].into_iter().chain(row.words))).collect()
    }

    fn of(numbers: &[u32]) -> Option<Flat> {
        let (counts, rows) = numbers.split_first_chunk::<2>().filter(|_| numbers.len() == NUMBERS)?;
        let rows: Vec<Row> = rows.chunks(1 + ENTRY).map(|row| Row { from: row[0], words: row[1..].try_into().expect("an entry's words") }).collect();
        let (triggers, conditions) = rows.split_at(ROWS);
        Some(Flat { counts: *counts, triggers: triggers.try_into().ok()?, conditions: conditions.try_into().ok()? })
    }
}

/// LISTS, without its LF: "one line of 106 decimal numbers of at most 4294967295", parted by one space.
fn lists(line: &[u8]) -> Option<Flat> {
    let fields = std::str::from_utf8(line).ok()?.split(' ');
    let numbers: Option<Vec<u32>> = fields.map(|field| u32::try_from(number(field)?).ok()).collect();
    Flat::of(&numbers?)
}

/// The line of LISTS that stands here, if it is one.
pub(crate) fn read(input: &mut impl BufRead) -> io::Result<Option<Flat>> {
    let mut line = Vec::new();
    input.read_until(b'\n', &mut line)?;
    Ok(line.strip_suffix(b"\n").and_then(lists))
}

pub(crate) fn write(out: &mut impl Write, lists: &Flat) -> io::Result<()> {
    let numbers: Vec<String> = lists.numbers().iter().map(u32::to_string).collect();
    writeln!(out, "{}", numbers.join(" "))
}

#[cfg(test)]
mod tests {
    use super::*;

    /// The order of the numbers: counts, then a row after the other, FROM first.
    #[test]
    fn the_order_of_the_numbers() {
        let row = |from: u32, first: u32| Row { from, words: std::array::from_fn(|at| first + at as u32) };
        let [triggers, conditions] = [0, 4].map(|list| std::array::from_fn(|at| row(at as u32, (list + at as u32) * 100)));
        let numbers = Flat { counts: [1, u32::MAX], triggers, conditions }.numbers();
        assert_eq!((numbers.len(), &numbers[..5], &numbers[13..17]), (106, &[1, u32::MAX, 0, 0, 1][..], &[10, 11, 1, 100][..]));
        assert_eq!((&numbers[54..56], numbers[105]), (&[0, 400][..], 711));
    }

    #[test]
    fn what_is_no_line_of_lists_is_none() {
        let good = vec!["0"; NUMBERS].join(" ") + "\n";
        let read = |line: &str| read(&mut line.as_bytes()).unwrap();
        assert_eq!(read(&good), Some(Flat::default()));
        let with = |first: &str| format!("{first}{}", &good[1..]);
        for bad in [
            "".to_string(), "\n".to_string(), with(""), with("4294967296"), with("-1"), with("x"), with("0 "), with("0 0"), format!(" {good}"),
            good[2..].to_string(), good.trim_end().to_string(), good.replace('\n', " \n"), good.replace('\n', "\r\n"),
        ] {
            assert_eq!(read(&bad), None, "{bad:?}");
        }
        assert_eq!(read(&with("4294967295")).map(|lists| lists.counts), Some([u32::MAX, 0]));
    }
}
