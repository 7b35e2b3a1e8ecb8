//! The command line.

use std::path::PathBuf;

pub const USAGE: &str = "compare-cases [options]
  --cases N          compare N generated cases (default 100000)
  --seed S           the seed they follow from (default 1)
  --from INDEX       the first case's index (default 0), and those of the first join, lists and conversion
  --exhaustive L     also every sequence of up to L pieces
  --joins N          also N joins of two texts (document 02 §3) of that seed
  --writings N       also N pairs of lists to be written (document 02 §7) of that seed
  --conversions N    also N conversions of the previous owners' rows, one way or the other (document 02 §10), of that seed
  --replay PATH      also run this replay program on every case
  --batch B          cases held at once, and for one process of it (default 1000)
  --threads T        1 or 2 (default 1)
  --allow-zero       do not fail when something was not covered
  --smallest FILE    write the smallest differing case there as replay input
  --vectors K IN OUT choose about K of the N cases, and write them to IN and their answers to OUT
  --extend IN OUT    put the cases of document 02's requests behind those in IN, then the starts of chains, the joins, the lists
                     to be written and the conversions, and write all answers to OUT";

#[derive(Debug, Clone, PartialEq)]
pub struct Vectors {
    pub want: usize,
    pub input: String,
    pub output: String,
}

/// The files of stored cases and of their answers.
#[derive(Debug, Clone, PartialEq)]
pub struct Stored {
    pub input: String,
    pub output: String,
}

#[derive(Debug, Clone, PartialEq)]
pub struct Options {
    pub cases: u64,
    pub seed: u64,
    pub from: u64,
    pub exhaustive: Option<usize>,
    pub joins: u64,
    pub writings: u64,
    pub conversions: u64,
    pub replay: Option<PathBuf>,
    pub batch: u64,
    pub threads: u64,
    pub allow_zero: bool,
    pub smallest: Option<String>,
    pub vectors: Option<Vectors>,
    pub extend: Option<Stored>,
}

impl Default for Options {
    fn default() -> Options {
        Options {
            cases: 100_000,
            seed: 1,
            from: 0,
            exhaustive: None,
            joins: 0,
            writings: 0,
            conversions: 0,
            replay: None,
            batch: 1_000,
            threads: 1,
            allow_zero: false,
            smallest: None,
            vectors: None,
            extend: None,
        }
    }
}

fn number(word: Option<String>, option: &str) -> Result<u64, String> {
    word.and_then(|word| word.parse().ok()).ok_or_else(|| format!("{option} needs a number"))
}

fn path(word: Option<String>, option: &str) -> Result<String, String> {
    word.ok_or_else(|| format!("{option} needs a file"))
}

/// The options that the words of a command line ask for, or what is wrong with them.
pub fn parse(words: impl IntoIterator<Item = String>) -> Result<Options, String> {
    let mut options = Options::default();
    let mut words = words.into_iter();
    while let Some(option) = words.next() {
        match option.as_str() {
            "--cases" => options.cases = number(words.next(), &option)?,
            "--seed" => options.seed = number(words.next(), &option)?,
            "--from" => options.from = number(words.next(), &option)?,
            "--exhaustive" => options.exhaustive = Some(number(words.next(), &option)?.min(8) as usize),
            "--joins" => options.joins = number(words.next(), &option)?,
            "--writings" => options.writings = number(words.next(), &option)?,
            "--conversions" => options.conversions = number(words.next(), &option)?,
            "--replay" => options.replay = Some(path(words.next(), &option)?.into()),
            "--batch" => options.batch = number(words.next(), &option)?.clamp(1, 10_000),
            "--threads" => options.threads = number(words.next(), &option)?.clamp(1, 2),
            "--allow-zero" => options.allow_zero = true,
            "--smallest" => options.smallest = Some(path(words.next(), &option)?),
            "--vectors" => {
                let want = number(words.next(), &option)? as usize;
                let (input, output) = (path(words.next(), &option)?, path(words.next(), &option)?);
                options.vectors = Some(Vectors { want, input, output });
            }
            "--extend" => {
                options.extend = Some(Stored { input: path(words.next(), &option)?, output: path(words.next(), &option)? });
            }
            _ => return Err(format!("unknown option {option}")),
        }
    }
    Ok(options)
}
