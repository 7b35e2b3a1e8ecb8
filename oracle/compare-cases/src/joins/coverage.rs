//! How many joins showed each sort.

use super::sorts;
use crate::batches::Counts;
use crate::tally::Tally;
use cases::Join;
use std::io::{self, Write};

#[derive(Debug, Clone)]
pub struct Coverage {
    sorts: Tally,
    pub joins: u64,
    pub accepted: u64,
    /// Joins that were compared with the same join on a sheet beside theirs.
    pub beside: u64,
}

impl Default for Coverage {
    fn default() -> Coverage {
        Coverage { sorts: Tally::of(sorts::all()), joins: 0, accepted: 0, beside: 0 }
    }
}

impl Counts for Coverage {
    fn merge(&mut self, other: &Coverage) {
        self.sorts.merge(&other.sorts);
        self.joins += other.joins;
        self.accepted += other.accepted;
        self.beside += other.beside;
    }
}

impl Coverage {
    pub fn add(&mut self, join: &Join, answer: &str) {
        self.sorts.add(&sorts::sorts(join, answer), sorts::place);
        self.joins += 1;
        self.accepted += u64::from(answer.contains("\naccepted "));
    }

    /// The sorts that no join showed.
    pub fn zeros(&self) -> Vec<String> {
        let zeros = self.sorts.zeros().map(|sort| format!("join {sort}"));
        zeros.chain((self.beside == 0).then(|| "a join on a sheet beside".to_string())).collect()
    }

    pub fn print(&self, out: &mut impl Write) -> io::Result<()> {
        self.sorts.print(out, "join")?;
        let Coverage { joins, accepted, beside, .. } = self;
        writeln!(out, "{joins} joins: {accepted} accepted, {} refused", joins - accepted)?;
        writeln!(out, "{beside} of them compared with the same join on a sheet beside theirs")
    }
}
