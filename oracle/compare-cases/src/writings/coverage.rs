//! How many lists to be written showed each sort.

use super::sorts;
use crate::batches::Counts;
use crate::tally::Tally;
use cases::Writing;
use std::io::{self, Write};

#[derive(Debug, Clone)]
pub struct Coverage {
    sorts: Tally,
    pub writings: u64,
    pub written: u64,
    /// Those whose text the supplied Rust read too.
    pub in_domain: u64,
    /// Those that were compared with a sheet beside theirs.
    pub beside: u64,
}

impl Default for Coverage {
    fn default() -> Coverage {
        Coverage { sorts: Tally::of(sorts::all()), writings: 0, written: 0, in_domain: 0, beside: 0 }
    }
}

impl Counts for Coverage {
    fn merge(&mut self, other: &Coverage) {
        self.sorts.merge(&other.sorts);
        self.writings += other.writings;
        self.written += other.written;
        self.in_domain += other.in_domain;
        self.beside += other.beside;
    }
}

impl Coverage {
    pub fn add(&mut self, writing: &Writing, answer: &str) {
        self.sorts.add(&sorts::sorts(writing, answer), sorts::place);
        self.writings += 1;
        self.written += u64::from(answer.contains("\nwritten "));
    }

    /// The sorts that none showed.
    pub fn zeros(&self) -> Vec<String> {
        let zeros = self.sorts.zeros().map(|sort| format!("write {sort}"));
        let others = [(self.in_domain, "lists whose text the supplied Rust reads"), (self.beside, "lists with a sheet beside")];
        zeros.chain(others.into_iter().filter(|(count, _)| *count == 0).map(|(_, name)| name.to_string())).collect()
    }

    pub fn print(&self, out: &mut impl Write) -> io::Result<()> {
        self.sorts.print(out, "write")?;
        let Coverage { writings, written, in_domain, beside, .. } = self;
        writeln!(out, "{writings} lists to be written: {written} written, and read back, {} refused", writings - written)?;
        writeln!(out, "{in_domain} of the written texts read by the supplied Rust too")?;
        writeln!(out, "{beside} of the lists compared with the same lists and a sheet beside theirs")
    }
}
