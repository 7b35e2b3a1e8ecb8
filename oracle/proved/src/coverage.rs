//! What the cases covered.

use crate::agree::Agreed;
use std::io::{self, Write};

/// The refusals that lexing gives.
const REFUSALS: [u32; 12] = [1, 2, 4, 10, 11, 12, 13, 15, 16, 17, 18, 19];
/// The kinds of tokens are 1 to this.
const LAST_KIND: usize = 22;

/// How many cases ended in each way, and how many tokens of each kind were read.
#[derive(Debug, Default)]
pub struct Coverage {
    cases: u64,
    in_domain: u64,
    accepted: u64,
    refused: [u64; REFUSALS.len()],
    kinds: [u64; LAST_KIND],
}

impl Coverage {
    pub fn add(&mut self, agreed: &Agreed) {
        self.cases += 1;
        self.in_domain += u64::from(agreed.in_domain);
        match REFUSALS.iter().position(|&number| number == agreed.lexing.number) {
            Some(at) => self.refused[at] += 1,
            None => self.accepted += 1,
        }
        for record in &agreed.lexing.records {
            self.kinds[record[0] as usize - 1] += 1;
        }
    }

    /// The names of what never came up.
    pub fn zeros(&self) -> Vec<String> {
        let refusals = REFUSALS.iter().zip(&self.refused).filter(|(_, &n)| n == 0).map(|(r, _)| format!("refusal {r}"));
        let kinds = (1..).zip(&self.kinds).filter(|(_, &n)| n == 0).map(|(kind, _)| format!("kind {kind}"));
        refusals.chain(kinds).collect()
    }

    pub fn print(&self, out: &mut impl Write) -> io::Result<()> {
        let Coverage { cases, in_domain, accepted, .. } = self;
        write!(out, "refused:")?;
        REFUSALS.iter().zip(&self.refused).try_for_each(|(number, n)| write!(out, " {number}={n}"))?;
        write!(out, "\ntokens:")?;
        (1..).zip(&self.kinds).try_for_each(|(kind, n): (u32, _)| write!(out, " {kind}={n}"))?;
        writeln!(out, "\n{cases} cases: {accepted} without refusal")?;
        writeln!(out, "{in_domain} of them compared with the supplied Rust too")
    }
}
