//! How often each sort of a list came up.

use std::collections::BTreeSet;
use std::io::{self, Write};

#[derive(Debug, Clone)]
pub struct Tally {
    sorts: &'static [String],
    counts: Vec<u64>,
}

impl Tally {
    pub fn of(sorts: &'static [String]) -> Tally {
        Tally { sorts, counts: vec![0; sorts.len()] }
    }

    /// Counts these; `place` says where a sort stands in the list, if it does.
    pub fn add(&mut self, shown: &BTreeSet<String>, place: impl Fn(&str) -> Option<usize>) {
        shown.iter().filter_map(|sort| place(sort)).for_each(|at| self.counts[at] += 1);
    }

    pub fn merge(&mut self, other: &Tally) {
        self.counts.iter_mut().zip(&other.counts).for_each(|(a, b)| *a += b);
    }

    /// The sorts that never came up.
    pub fn zeros(&self) -> impl Iterator<Item = &String> {
        self.sorts.iter().zip(&self.counts).filter(|(_, count)| **count == 0).map(|(sort, _)| sort)
    }

    pub fn print(&self, out: &mut impl Write, name: &str) -> io::Result<()> {
        write!(out, "{name}:")?;
        for (sort, count) in self.sorts.iter().zip(&self.counts) {
            write!(out, " {sort}={count}")?;
        }
        writeln!(out)
    }
}
