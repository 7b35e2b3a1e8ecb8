//! Answers the cases on standard input on standard output, in the replay format.

use std::io::{self, BufWriter, Write};

fn main() -> io::Result<()> {
    let mut out = BufWriter::new(io::stdout().lock());
    cases::replay(&mut io::stdin().lock(), &mut out, second::answer, second::next, second::join, second::write, second::convert)?;
    out.flush()
}
