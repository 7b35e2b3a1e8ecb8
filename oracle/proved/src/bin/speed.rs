//! Both lexers on the same texts: their time, or calls for a program that counts instructions.

use proved::agree::UNTOUCHED;
use proved::texts::{all, named, Text};
use std::hint::black_box;
use std::process::ExitCode;
use std::time::Instant;

const USAGE: &str = "speed list                       names, bytes and tokens of the texts
speed time                       nanoseconds for a call, the least of many rounds
speed count LEXER TEXT CALLS     only calls; LEXER is proved or supplied";
const WORDS: usize = cases::LEAST_WORDS;
/// A round lasts about a millisecond, and there are so many of them.
const ROUNDS: usize = 400;
const ROUND_NANOSECONDS: u128 = 1_000_000;

type Call = fn(&str, &mut [u32]);

/// One call of the proved lexer. It has a name of its own to be counted by.
#[no_mangle]
#[inline(never)]
pub fn call_of_the_proved(text: &str, words: &mut [u32]) {
    black_box(proved::lex(text.as_bytes(), words));
}

/// One call of the supplied `lex`, and the freeing of what it gives.
#[no_mangle]
#[inline(never)]
pub fn call_of_the_supplied(text: &str, _: &mut [u32]) {
    let _ = black_box(supplied::supplied_lex(text));
}

fn main() -> ExitCode {
    let words: Vec<String> = std::env::args().skip(1).collect();
    let words: Vec<&str> = words.iter().map(String::as_str).collect();
    let done = match words[..] {
        ["list"] => list(),
        ["time"] => time(),
        ["count", lexer, text, calls] => count(lexer, text, calls),
        _ => None,
    };
    if done.is_none() {
        eprintln!("{USAGE}");
        return ExitCode::from(2);
    }
    ExitCode::SUCCESS
}

fn list() -> Option<()> {
    let mut words = vec![UNTOUCHED; WORDS];
    for Text { name, text } in all() {
        println!("{name} {} {}", text.len(), proved::lex(text.as_bytes(), &mut words).count);
    }
    Some(())
}

fn count(lexer: &str, text: &str, calls: &str) -> Option<()> {
    let call: Call = match lexer {
        "proved" => call_of_the_proved,
        "supplied" => call_of_the_supplied,
        _ => return None,
    };
    let text = named(text)?;
    let mut words = vec![UNTOUCHED; WORDS];
    for _ in 0..calls.parse().ok()? {
        call(black_box(&text.text), &mut words);
    }
    Some(())
}

fn time() -> Option<()> {
    let mut words = vec![UNTOUCHED; WORDS];
    for Text { name, text } in all() {
        let repeats = repeats(&text, &mut words);
        let mut least = [f64::MAX; 2];
        for _ in 0..ROUNDS {
            for (least, call) in least.iter_mut().zip([call_of_the_proved as Call, call_of_the_supplied]) {
                *least = least.min(round(call, &text, &mut words, repeats));
            }
        }
        let [proved, supplied] = least;
        println!("{name}: proved {proved:.0} ns, supplied {supplied:.0} ns, ratio {:.2}", supplied / proved);
    }
    Some(())
}

/// How many calls make a round.
fn repeats(text: &str, words: &mut [u32]) -> u32 {
    let mut repeats = 1;
    loop {
        let start = Instant::now();
        (0..repeats).for_each(|_| call_of_the_supplied(black_box(text), words));
        if start.elapsed().as_nanos() >= ROUND_NANOSECONDS {
            return repeats;
        }
        repeats *= 2;
    }
}

/// Nanoseconds for a call, by one round.
fn round(call: Call, text: &str, words: &mut [u32], repeats: u32) -> f64 {
    let start = Instant::now();
    (0..repeats).for_each(|_| call(black_box(text), words));
    start.elapsed().as_nanos() as f64 / f64::from(repeats)
}
