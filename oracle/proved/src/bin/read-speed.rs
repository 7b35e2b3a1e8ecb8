//! Whole calls of the proved reader and of the supplied Rust on the same inputs, and calls that write the lists out: their time, or calls
//! for a program that counts instructions.

use proved::inputs::{all, assert_agreed, named, Input, ANSWER, BYTES, WORDS, WRITE_ANSWER};
use proved::Given;
use std::hint::black_box;
use std::process::ExitCode;
use std::time::Instant;

const USAGE: &str = "read-speed list                        names, bytes, tokens, sheets' bytes and rows, the answers, and the bytes that are written
read-speed time                        nanoseconds for a call, the least of many rounds
read-speed count READER INPUT CALLS    only calls; READER is proved, supplied, sheet or write";
/// A round lasts about a millisecond, and there are so many of them.
const ROUNDS: usize = 400;
const ROUND_NANOSECONDS: u128 = 1_000_000;

/// What a caller lends to the proved reader, and for a text to be written.
struct Lent {
    words: Vec<u32>,
    answer: [u32; ANSWER],
    text: Vec<u8>,
    written: [u32; WRITE_ANSWER],
}

impl Lent {
    fn new() -> Lent {
        Lent { words: vec![0; WORDS], answer: [0; ANSWER], text: vec![0; BYTES], written: [0; WRITE_ANSWER] }
    }
}

type Call = fn(&Input, &mut Lent);

/// One archive call of the proved reader. It has a name of its own to be counted by.
#[no_mangle]
#[inline(never)]
fn call_of_the_proved(input: &Input, lent: &mut Lent) {
    let case = &input.case;
    black_box(proved::read_archive(&case.text, Given::of(case), &mut lent.words, &mut lent.answer));
}

/// One call that writes out what the proved reader read last.
fn call_of_the_writer(input: &Input, lent: &mut Lent) {
    let case = &input.case;
    black_box(proved::write(&case.text, Given::of(case), &lent.answer, &mut lent.text, &mut lent.written));
}

/// One whole call of the supplied Rust, with the sheet's tables and the rule set made for it, and the freeing of what it gives.
#[no_mangle]
#[inline(never)]
fn call_of_the_supplied(input: &Input, _: &mut Lent) {
    let _ = black_box(supplied::plain_call(&input.case));
}

/// The part of that call that makes the sheet's tables, and the freeing of them.
#[no_mangle]
#[inline(never)]
fn call_of_the_sheet(input: &Input, _: &mut Lent) {
    let case = &input.case;
    let _ = black_box(supplied::plain_sheet(&case.sheet, case.party(), case.primary()));
}

fn main() -> ExitCode {
    let words: Vec<String> = std::env::args().skip(1).collect();
    let words: Vec<&str> = words.iter().map(String::as_str).collect();
    let done = match words[..] {
        ["list"] => list(),
        ["time"] => time(),
        ["count", reader, input, calls] => count(reader, input, calls),
        _ => None,
    };
    if done.is_none() {
        eprintln!("{USAGE}");
        return ExitCode::from(2);
    }
    ExitCode::SUCCESS
}

fn list() -> Option<()> {
    assert_agreed();
    for input in all() {
        let (said, tokens) = input.proved();
        let said = said.replace(' ', "_");
        let written = input.written().map_or("-".to_string(), |text| text.len().to_string());
        println!("{} {} {tokens} {} {} {said} {written}", input.name, input.case.text.len(), input.case.sheet.len(), input.rows());
    }
    Some(())
}

fn count(reader: &str, input: &str, calls: &str) -> Option<()> {
    let call: Call = match reader {
        "proved" => call_of_the_proved,
        "supplied" => call_of_the_supplied,
        "sheet" => call_of_the_sheet,
        "write" => call_of_the_writer,
        _ => return None,
    };
    let input = named(input)?;
    let mut lent = Lent::new();
    if reader == "write" {
        // Its lists.
        call_of_the_proved(&input, &mut lent);
    }
    for _ in 0..calls.parse().ok()? {
        call(black_box(&input), &mut lent);
    }
    Some(())
}

fn time() -> Option<()> {
    assert_agreed();
    let mut lent = Lent::new();
    for input in all() {
        let repeats = repeats(&input, &mut lent);
        let mut least = [f64::MAX; 2];
        for _ in 0..ROUNDS {
            for (least, call) in least.iter_mut().zip([call_of_the_proved as Call, call_of_the_supplied]) {
                *least = least.min(round(call, &input, &mut lent, repeats));
            }
        }
        let [proved, supplied] = least;
        println!("{}: proved {proved:.0} ns, supplied {supplied:.0} ns, ratio {:.2}", input.name, supplied / proved);
    }
    Some(())
}

/// How many calls make a round.
fn repeats(input: &Input, lent: &mut Lent) -> u32 {
    let mut repeats = 1;
    loop {
        let start = Instant::now();
        (0..repeats).for_each(|_| call_of_the_supplied(black_box(input), lent));
        if start.elapsed().as_nanos() >= ROUND_NANOSECONDS {
            return repeats;
        }
        repeats *= 2;
    }
}

/// Nanoseconds for a call, by one round.
fn round(call: Call, input: &Input, lent: &mut Lent, repeats: u32) -> f64 {
    let start = Instant::now();
    (0..repeats).for_each(|_| call(black_box(input), lent));
    start.elapsed().as_nanos() as f64 / f64::from(repeats)
}
