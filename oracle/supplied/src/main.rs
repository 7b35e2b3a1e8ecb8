//! Answers the cases on standard input, from the supplied Rust.

use std::io::{self, BufWriter, Write};

fn main() -> io::Result<()> {
    let mut out = BufWriter::new(io::stdout().lock());
    let outside = |id: u64| format!("case {id}\noutside the domain\n");
    let no_generator = |start: &cases::Start| outside(start.id);
    let no_join = |join: &cases::Join| outside(join.id);
    let no_writer = |writing: &cases::Writing| outside(writing.id);
    let no_converter = |conversion: &cases::Conversion| outside(conversion.id);
    cases::replay(&mut io::stdin().lock(), &mut out, supplied::answer, no_generator, no_join, no_writer, no_converter)?;
    out.flush()
}
