//! A small sample of cases with a good spread, to be stored with their answers.

use crate::features::{feature_count, feature_name, Features};
use crate::readers::{guarded, Reader};
use cases::{read_case, write_case, write_conversion, write_join, write_start, write_writing, Case, Conversion, Join, Next, Start, Writing};
use std::collections::HashMap;
use std::fs::File;
use std::io::{self, BufReader, BufWriter, Write};

/// Every feature is to be shown by so many cases; one that needs a text of the longest length, the most tokens or the most lent bytes, by one.
const AT_LEAST: usize = 2;
/// A case is left aside if it and its answer have more bytes than this; the landmarks are the large ones.
const MOST_EACH: usize = 1_500;
/// The bound for both files together.
const MOST_TOGETHER: usize = 300_000;
/// The bound for the candidates that are remembered.
const MOST_CANDIDATES: usize = 150_000;

/// A case that may be taken: it can be made again from its index.
struct Candidate {
    index: u64,
    size: usize,
    /// Its features, and behind those the number of its context.
    shows: Vec<usize>,
    taken: bool,
}

fn size(case: &Case, answer: &str) -> usize {
    case.text.len() + case.sheet.len() + case.topics().len() + answer.len() + 30
}

/// Where a text or sheet was refused, so that the sample has refusals in many places: the number with the bad line of
/// the sheet, the bytes that are not UTF-8, or the kind of token there and the word or kind before it.
fn context(case: &Case, answer: &str) -> Vec<u8> {
    let Some(refusal) = answer.lines().find_map(|line| line.strip_prefix("refused ")) else { return Vec::new() };
    let fields: Vec<&str> = refusal.split(' ').collect();
    let mut out = fields[0].as_bytes().to_vec();
    match fields[..] {
        ["3", line, ..] => {
            let line = line.parse::<usize>().unwrap_or(0).wrapping_sub(1);
            out.extend_from_slice(case.sheet.split(|&b| b == b'\n').nth(line).unwrap_or_default());
        }
        ["4", ..] => {
            let good = case.text.utf8_chunks().next().map_or(0, |chunk| chunk.valid().len());
            out.extend(case.text[good..].iter().take(3));
        }
        [_, line, column, ..] => around(case, answer, &format!(" {line} {column}"), &mut out),
        _ => {}
    }
    out
}

/// The word, or the kind of token, before a place, and the kind of token there.
fn around(case: &Case, answer: &str, place: &str, out: &mut Vec<u8>) {
    let mut before = "";
    for line in answer.lines().filter_map(|line| line.strip_prefix("token ")) {
        if line.ends_with(place) {
            out.extend(line.bytes().take_while(|&b| b != b' '));
            break;
        }
        before = line;
    }
    let fields: Vec<usize> = before.split(' ').filter_map(|field| field.parse().ok()).collect();
    match fields[..] {
        [1, _, start, length, ..] => out.extend_from_slice(&case.text[start..start + length]),
        [kind, ..] => out.extend_from_slice(format!(" {kind}").as_bytes()),
        _ => {}
    }
}

/// The smallest case for each context and set of features among the first `scan`.
fn candidates(scan: u64, make: &dyn Fn(u64) -> Case, second: Reader) -> Vec<Candidate> {
    let mut contexts: HashMap<Vec<u8>, usize> = HashMap::new();
    let mut smallest: HashMap<(Features, usize), (usize, u64)> = HashMap::new();
    for index in 0..scan {
        let case = make(index);
        if case.text.len() + case.sheet.len() + case.topics().len() > MOST_EACH {
            continue;
        }
        let answer = guarded(second, &case);
        let found = (size(&case, &answer), index);
        let next = feature_count() + contexts.len();
        let context = *contexts.entry(context(&case, &answer)).or_insert(next);
        let key = (Features::of(&case, &answer), context);
        if let Some(known) = smallest.get_mut(&key) {
            *known = found.min(*known);
        } else if found.0 <= MOST_EACH && smallest.len() < MOST_CANDIDATES {
            smallest.insert(key, found);
        }
    }
    let mut list: Vec<Candidate> = smallest.into_iter().map(|((set, context), (size, index))| {
        Candidate { index, size, shows: set.members().chain([context]).collect(), taken: false }
    }).collect();
    list.sort_by_key(|candidate| (candidate.size, candidate.index));
    list
}

/// What a candidate would add, by its size: a feature still short of cases counts most, a frequent one little. A
/// context that is new counts the less, the more cases its refusal, which is the first feature, has.
fn worth(candidate: &Candidate, counts: &HashMap<usize, usize>) -> f64 {
    let count = |feature: &usize| counts.get(feature).copied().unwrap_or(0);
    let weight = |feature: &usize| match count(feature) {
        few if few < AT_LEAST && *feature < feature_count() => 100.0,
        0 => 10.0 / (1 + count(&candidate.shows[0])) as f64,
        _ if *feature >= feature_count() => 0.0,
        many => 1.0 / many as f64,
    };
    candidate.shows.iter().map(weight).sum::<f64>() / (candidate.size as f64).sqrt()
}

fn best<'a>(list: &'a mut [Candidate], counts: &HashMap<usize, usize>) -> Option<&'a mut Candidate> {
    let free = list.iter_mut().filter(|candidate| !candidate.taken);
    free.map(|candidate| (worth(candidate, counts), candidate)).max_by(|a, b| a.0.total_cmp(&b.0)).map(|found| found.1)
}

/// About `want` cases, numbered from 1: the best of the first `scan`, one after the other, and then the landmarks.
pub fn choose(want: usize, scan: u64, make: &dyn Fn(u64) -> Case, landmarks: Vec<Case>, second: Reader) -> Vec<Case> {
    let mut counts: HashMap<usize, usize> = HashMap::new();
    let mut together = 0;
    for case in &landmarks {
        let answer = guarded(second, case);
        together += size(case, &answer);
        Features::of(case, &answer).members().for_each(|feature| *counts.entry(feature).or_default() += 1);
    }
    let mut list = candidates(scan, make, second);
    let mut chosen = Vec::new();
    while chosen.len() + landmarks.len() < want {
        let Some(next) = best(&mut list, &counts).filter(|next| together + next.size <= MOST_TOGETHER) else { break };
        next.taken = true;
        together += next.size;
        next.shows.iter().for_each(|&feature| *counts.entry(feature).or_default() += 1);
        chosen.push(make(next.index));
    }
    chosen.extend(landmarks);
    (1..).zip(&mut chosen).for_each(|(id, case)| case.id = id);
    chosen
}

/// The cases of a file of replay input. What is behind them is left out: it is made anew when cases are written.
pub fn stored(input: &str) -> io::Result<Vec<Case>> {
    let mut file = BufReader::new(File::open(input)?);
    let mut cases = Vec::new();
    loop {
        match read_case(&mut file)? {
            Next::Case(case) => cases.push(case),
            Next::Chain(_) | Next::Join(_) | Next::Writing(_) | Next::Conversion(_) => {}
            Next::End => return Ok(cases),
            Next::Bad => return Err(io::Error::other(format!("{input} is no replay input"))),
        }
    }
}

/// The cases, unchanged, and behind them those of `more` that are not among them, numbered on.
pub fn extended(mut cases: Vec<Case>, more: Vec<Case>) -> Vec<Case> {
    for case in more {
        if !cases.iter().any(|known| *known == Case { id: known.id, ..case.clone() }) {
            let id = cases.last().map_or(1, |last| last.id + 1);
            cases.push(Case { id, ..case });
        }
    }
    cases
}

fn at_least(feature: usize) -> usize {
    let name = feature_name(feature);
    let large = ["party 1 first", "topic the most lent bytes", "day the most tokens", "day 19 first"];
    if name.starts_with("buffer last ") || large.contains(&name.as_str()) { 1 } else { AT_LEAST }
}

/// The features that too few of the cases show.
pub fn short_of(cases: &[Case], second: Reader) -> Vec<String> {
    let mut counts = vec![0; feature_count()];
    for case in cases {
        Features::of(case, &guarded(second, case)).members().for_each(|feature| counts[feature] += 1);
    }
    (0..counts.len()).filter(|&feature| counts[feature] < at_least(feature)).map(feature_name).collect()
}

/// What is stored behind the cases: the starts of chains (document 02 §13), the joins (§3), the lists to be written (§7) and the conversions (§10).
pub struct Behind {
    pub starts: Vec<Start>,
    pub joins: Vec<Join>,
    pub writings: Vec<Writing>,
    pub conversions: Vec<Conversion>,
}

/// Writes the cases as replay input to one file and the second reader's answers to the other, and the others behind them, numbered on.
pub fn write(cases: &[Case], behind: &Behind, input: &str, output: &str, second: Reader) -> io::Result<()> {
    let (mut to_input, mut to_output) = (BufWriter::new(File::create(input)?), BufWriter::new(File::create(output)?));
    for case in cases {
        write_case(&mut to_input, case)?;
        to_output.write_all(guarded(second, case).as_bytes())?;
    }
    let mut ids = cases.last().map_or(1, |last| last.id + 1)..;
    for (start, id) in behind.starts.iter().zip(ids.by_ref()) {
        let start = Start { id, ..start.clone() };
        write_start(&mut to_input, &start)?;
        to_output.write_all(second::next(&start).as_bytes())?;
    }
    for (join, id) in behind.joins.iter().zip(ids.by_ref()) {
        let join = Join { id, ..join.clone() };
        write_join(&mut to_input, &join)?;
        to_output.write_all(second::join(&join).as_bytes())?;
    }
    for (writing, id) in behind.writings.iter().zip(ids.by_ref()) {
        let writing = Writing { id, ..writing.clone() };
        write_writing(&mut to_input, &writing)?;
        to_output.write_all(second::write(&writing).as_bytes())?;
    }
    for (conversion, id) in behind.conversions.iter().zip(ids.by_ref()) {
        let conversion = Conversion { id, ..conversion.clone() };
        write_conversion(&mut to_input, &conversion)?;
        to_output.write_all(second::convert(&conversion).as_bytes())?;
    }
    to_input.flush()?;
    to_output.flush()
}
