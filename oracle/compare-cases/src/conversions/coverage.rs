//! How many conversions showed each sort.

use super::sorts;
use crate::batches::Counts;
use crate::tally::Tally;
use cases::{Conversion, Direction};
use std::io::{self, Write};

#[derive(Debug, Clone)]
pub struct Coverage {
    sorts: Tally,
    pub forward: u64,
    pub accepted: u64,
    pub back: u64,
    pub written: u64,
    /// Those that were compared with a sheet beside theirs.
    pub beside: u64,
}

impl Default for Coverage {
    fn default() -> Coverage {
        Coverage { sorts: Tally::of(sorts::all()), forward: 0, accepted: 0, back: 0, written: 0, beside: 0 }
    }
}

impl Counts for Coverage {
    fn merge(&mut self, other: &Coverage) {
        self.sorts.merge(&other.sorts);
        self.forward += other.forward;
        self.accepted += other.accepted;
        self.back += other.back;
        self.written += other.written;
        self.beside += other.beside;
    }
}

impl Coverage {
    pub fn add(&mut self, conversion: &Conversion, answer: &str) {
        self.sorts.add(&sorts::sorts(conversion, answer), sorts::place);
        let is_forward = matches!(conversion.direction, Direction::Forward { .. });
        self.forward += u64::from(is_forward);
        self.accepted += u64::from(answer.contains("\naccepted "));
        self.back += u64::from(!is_forward);
        self.written += u64::from(answer.contains("\nwritten "));
    }

    pub fn conversions(&self) -> u64 {
        self.forward + self.back
    }

    /// The sorts that none showed.
    pub fn zeros(&self) -> Vec<String> {
        self.sorts.zeros().cloned().chain((self.beside == 0).then(|| "a conversion with a sheet beside".to_string())).collect()
    }

    pub fn print(&self, out: &mut impl Write) -> io::Result<()> {
        self.sorts.print(out, "conversion")?;
        let Coverage { forward, accepted, back, written, beside, .. } = self;
        writeln!(out, "{forward} conversions of rows: {accepted} accepted, {} refused", forward - accepted)?;
        writeln!(out, "{back} conversions back: {written} written, and converted again, {} refused", back - written)?;
        writeln!(out, "{beside} of both compared with the same conversion and a sheet beside")
    }
}
