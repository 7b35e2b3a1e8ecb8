//! Compares the proved lexer with the second reader and the supplied Rust. Exit 0 means that they agree and that
//! everything was covered, 1 that not, 2 that the command line is wrong.

use cases::Case;
use compare_cases::shrink::shrink;
use proved::agree::agree;
use proved::coverage::Coverage;
use proved::{lex_into, short};
use std::io;
use std::process::ExitCode;

const USAGE: &str = "proved [CASES [SEED [PIECES]]]: so many generated cases (default 1000000) of a seed (default 1), then every \
text of up to so many pieces (default 4)";
const PROGRESS: u64 = 250_000;
/// More than making a case small ever takes.
const TRIES: usize = 200_000;

fn main() -> ExitCode {
    let Some([cases, seed, pieces]) = numbers(std::env::args().skip(1).collect()) else {
        eprintln!("{USAGE}");
        return ExitCode::from(2);
    };
    match run(cases, seed, pieces.min(8) as u32) {
        Ok(true) => ExitCode::SUCCESS,
        Ok(false) => ExitCode::from(1),
        Err(error) => {
            eprintln!("proved: {error}");
            ExitCode::from(2)
        }
    }
}

fn numbers(words: Vec<String>) -> Option<[u64; 3]> {
    let mut numbers = [1_000_000, 1, 4];
    if words.len() > numbers.len() {
        return None;
    }
    for (number, word) in numbers.iter_mut().zip(&words) {
        *number = word.parse().ok()?;
    }
    Some(numbers)
}

/// True if nothing differed and nothing was left uncovered.
fn run(cases: u64, seed: u64, pieces: u32) -> io::Result<bool> {
    let mut coverage = Coverage::default();
    let same = part(cases, &|index| generate::case(seed, index), &mut coverage)
        && (0..=pieces).all(|length| part(short::count(length), &|index| short::case(length, index), &mut coverage));
    if !same {
        return Ok(false);
    }
    coverage.print(&mut io::stdout())?;
    let zeros = coverage.zeros();
    if !zeros.is_empty() {
        println!("not covered: {}", zeros.join(", "));
    }
    Ok(zeros.is_empty())
}

/// Compares some cases; at the first difference prints it and gives false.
fn part(count: u64, make: &dyn Fn(u64) -> Case, coverage: &mut Coverage) -> bool {
    for index in 0..count {
        // Lexing is given no sheet.
        let case = Case { sheet: Vec::new(), ..make(index) };
        match agree(&lex_into, &case) {
            Ok(agreed) => coverage.add(&agreed),
            Err(_) => {
                report(&case);
                return false;
            }
        }
        if (index + 1) % PROGRESS == 0 {
            eprintln!("{} of {count}", index + 1);
        }
    }
    true
}

/// The smallest case found that still differs, and what the readers say of it.
fn report(case: &Case) {
    println!("case {} differs; making it smaller", case.id);
    let small = shrink(case, TRIES, &mut |case| agree(&lex_into, case).is_err());
    println!("{} words, {} bytes: {}", small.words, small.text.len(), small.text.escape_ascii());
    println!("{}", agree(&lex_into, &small).err().unwrap_or_default());
}
