//! Compares the supplied Rust, the second reader and a replay program on generated cases. Exit 0 means that they
//! agree and that everything was covered, 1 that not, 2 that the run itself failed.

use cases::{first_line, write_case, write_conversion, write_join, write_writing, Case, Conversion, Direction, Flat, Join, List, Writing};
use compare_cases::batches::{Counts, Found};
use compare_cases::conversions::{coverage as of_conversions, run as converting};
use compare_cases::external::External;
use compare_cases::features::Coverage;
use compare_cases::held::{self, Held};
use compare_cases::joins::{coverage as of_joins, run as joining};
use compare_cases::options::{self, Options, Stored, Vectors};
use compare_cases::readers::{quiet_panics, Other, Readers};
use compare_cases::run::{run, smallest, Difference, Outcome, Plan};
use compare_cases::vectors;
use compare_cases::writings::{coverage as of_writings, run as writing};
use std::fs::File;
use std::io;
use std::process::ExitCode;

fn main() -> ExitCode {
    let options = match options::parse(std::env::args().skip(1)) {
        Ok(options) => options,
        Err(wrong) => {
            eprintln!("{wrong}\n{}", options::USAGE);
            return ExitCode::from(2);
        }
    };
    quiet_panics();
    let replay = options.replay.clone().map(|path| External { path });
    let readers = Readers { second: &second::answer, in_domain: &second::in_domain, supplied: &supplied::answer, replay };
    let result = match (&options.vectors, &options.extend) {
        (Some(asked), _) => make_vectors(&options, asked, &readers),
        (None, Some(stored)) => extend_vectors(&options, stored, &readers),
        (None, None) => compare(&options, &readers),
    };
    match result {
        Ok(true) => ExitCode::SUCCESS,
        Ok(false) => ExitCode::from(1),
        Err(error) => {
            eprintln!("compare-cases: {error}");
            ExitCode::from(2)
        }
    }
}

fn plan<'a>(options: &Options, make: &'a (dyn Fn(u64) -> Case + Sync), count: u64) -> Plan<'a> {
    Plan { make, count, batch: options.batch, threads: options.threads, progress: true }
}

/// The generated cases, joins, lists and conversions, then the exhaustive cases; true if nothing differed and nothing was left uncovered.
fn compare(options: &Options, readers: &Readers) -> io::Result<bool> {
    let mut coverage = Coverage::default();
    let generated = |index| generate::case(options.seed, options.from + index);
    eprintln!("{} cases of seed {} from {}", options.cases, options.seed, options.from);
    if !part(options, readers, &plan(options, &generated, options.cases), &mut coverage)? {
        return Ok(false);
    }
    let Some(of_joins) = compare_joins(options, readers)? else { return Ok(false) };
    let Some(of_writings) = compare_writings(options, readers)? else { return Ok(false) };
    let Some(of_conversions) = compare_conversions(options, readers)? else { return Ok(false) };
    for length in 0..=options.exhaustive.unwrap_or(0) {
        let count = if options.exhaustive.is_some() { generate::exhaustive_count(length) } else { 0 };
        let make = |index| generate::exhaustive_case(length, index);
        if count > 0 {
            eprintln!("{count} sequences of {length} pieces");
        }
        if !part(options, readers, &plan(options, &make, count), &mut coverage)? {
            return Ok(false);
        }
    }
    let mut zeros = Vec::new();
    if coverage.cases > 0 || of_joins.joins + of_writings.writings + of_conversions.conversions() == 0 {
        coverage.print(&mut io::stdout())?;
        zeros.extend(coverage.zeros());
    }
    if of_joins.joins > 0 {
        of_joins.print(&mut io::stdout())?;
        zeros.extend(of_joins.zeros());
    }
    if of_writings.writings > 0 {
        of_writings.print(&mut io::stdout())?;
        zeros.extend(of_writings.zeros());
    }
    if of_conversions.conversions() > 0 {
        of_conversions.print(&mut io::stdout())?;
        zeros.extend(of_conversions.zeros());
    }
    if !zeros.is_empty() {
        println!("not covered: {}", zeros.join(", "));
    }
    Ok(zeros.is_empty() || options.allow_zero)
}

/// The joins; nothing if some differ.
fn compare_joins(options: &Options, readers: &Readers) -> io::Result<Option<of_joins::Coverage>> {
    let make = |index| generate::join(options.seed, options.from + index);
    if options.joins > 0 {
        eprintln!("{} joins of seed {} from {}", options.joins, options.seed, options.from);
    }
    joins_part(options, readers, &make, options.joins)
}

fn joins_part(options: &Options, readers: &Readers, make: &(dyn Fn(u64) -> Join + Sync), count: u64) -> io::Result<Option<of_joins::Coverage>> {
    let plan = Plan { make, count, batch: options.batch, threads: options.threads, progress: true };
    let readers = joining::Readers { join: &second::join, call: readers.second, replay: readers.replay.clone() };
    match held::run(&plan, &readers)? {
        Found::Same(coverage) => Ok(Some(coverage)),
        Found::Different(difference) => {
            report_join(options, &readers, &difference)?;
            Ok(None)
        }
    }
}

/// Prints the smallest join found on which two readers differ, and both answers.
fn report_join(options: &Options, readers: &joining::Readers, difference: &joining::Difference) -> io::Result<()> {
    println!("{} differs from the second reader on join {}; making it smaller", difference.other.name(), difference.line.id);
    if !difference.alone {
        println!("on that join alone it does not: those before it in the batch matter");
    }
    let small = held::smallest(difference, readers);
    let Join { texts, sheet, topics, .. } = &small.line;
    println!("{}", small.line.first_line());
    println!("{}\n{}\n{}", texts[0].escape_ascii(), texts[1].escape_ascii(), sheet.escape_ascii());
    if !topics.is_empty() {
        println!("{}", topics.escape_ascii());
    }
    if small.other == joining::Other::Beside {
        println!("beside it\n{}", joining::beside(&small.line).sheet.escape_ascii());
    }
    println!("--- the second reader\n{}", readers.answer(&small.line));
    println!("--- {}\n{}", small.other.name(), small.answer);
    let Some(path) = &options.smallest else { return Ok(()) };
    write_join(&mut File::create(path)?, &small.line)
}

/// The lists to be written; nothing if some differ.
fn compare_writings(options: &Options, readers: &Readers) -> io::Result<Option<of_writings::Coverage>> {
    let reads = generate::Reads { call: second::flat_of_call, join: second::flat_of_join };
    let make = |index| generate::writing(options.seed, options.from + index, reads);
    if options.writings > 0 {
        eprintln!("{} lists to be written of seed {} from {}", options.writings, options.seed, options.from);
    }
    writings_part(options, readers, &make, options.writings)
}

fn writings_part(
    options: &Options,
    readers: &Readers,
    make: &(dyn Fn(u64) -> Writing + Sync),
    count: u64,
) -> io::Result<Option<of_writings::Coverage>> {
    let plan = Plan { make, count, batch: options.batch, threads: options.threads, progress: true };
    let Readers { second: call, in_domain, supplied, .. } = *readers;
    let replay = readers.replay.clone();
    let readers = writing::Readers { write: &second::write, call, read: &second::flat_of_call, in_domain, supplied, replay };
    match held::run(&plan, &readers)? {
        Found::Same(coverage) => Ok(Some(coverage)),
        Found::Different(difference) => {
            report_writing(options, &readers, &difference)?;
            Ok(None)
        }
    }
}

/// Prints the smallest lists found on which two readers differ, and both answers.
fn report_writing(options: &Options, readers: &writing::Readers, difference: &writing::Difference) -> io::Result<()> {
    println!("{} differs from the second reader on lists {}; making them smaller", difference.other.name(), difference.line.id);
    if !difference.alone {
        println!("on these lists alone it does not: those before them in the batch matter");
    }
    let small = held::smallest(difference, readers);
    let Writing { texts, sheet, lists, .. } = &small.line;
    println!("{}", small.line.first_line());
    println!("{}\n{}\n{}", texts[0].escape_ascii(), texts[1].escape_ascii(), sheet.escape_ascii());
    print_lists(lists);
    if small.other == writing::Other::Beside {
        println!("beside it\n{}", writing::beside(&small.line).sheet.escape_ascii());
    }
    println!("--- the second reader\n{}", readers.answer(&small.line));
    println!("--- {}\n{}", small.other.name(), small.answer);
    let Some(path) = &options.smallest else { return Ok(()) };
    write_writing(&mut File::create(path)?, &small.line)
}

/// Prints the counts and the rows in use.
fn print_lists(lists: &Flat) {
    println!("{:?}", lists.counts);
    for (list, letter) in List::BOTH.into_iter().zip(["T", "C"]) {
        lists.used(list).iter().for_each(|row| println!("{letter} {} {:?}", row.from, row.words));
    }
}

/// The conversions; nothing if some differ.
fn compare_conversions(options: &Options, readers: &Readers) -> io::Result<Option<of_conversions::Coverage>> {
    let make = |index| generate::conversion(options.seed, options.from + index);
    if options.conversions > 0 {
        eprintln!("{} conversions of seed {} from {}", options.conversions, options.seed, options.from);
    }
    conversions_part(options, readers, &make, options.conversions)
}

fn conversions_part(
    options: &Options,
    readers: &Readers,
    make: &(dyn Fn(u64) -> Conversion + Sync),
    count: u64,
) -> io::Result<Option<of_conversions::Coverage>> {
    let plan = Plan { make, count, batch: options.batch, threads: options.threads, progress: true };
    let readers = converting::Readers { convert: &second::convert, call: readers.second, replay: readers.replay.clone() };
    match held::run(&plan, &readers)? {
        Found::Same(coverage) => Ok(Some(coverage)),
        Found::Different(difference) => {
            report_conversion(options, &readers, &difference)?;
            Ok(None)
        }
    }
}

/// Prints the smallest conversion found on which two readers differ, and both answers.
fn report_conversion(options: &Options, readers: &converting::Readers, difference: &converting::Difference) -> io::Result<()> {
    println!("{} differs from the second reader on conversion {}; making it smaller", difference.other.name(), difference.line.id);
    if !difference.alone {
        println!("on that conversion alone it does not: those before it in the batch matter");
    }
    let small = held::smallest(difference, readers);
    println!("{}", small.line.first_line());
    if let Direction::Forward { rows } = &small.line.direction {
        println!("{}", rows.escape_ascii());
    }
    println!("{}", small.line.sheet.escape_ascii());
    if let Direction::Back { lists, .. } = &small.line.direction {
        print_lists(lists);
    }
    if small.other == converting::Other::Beside {
        println!("beside it\n{}", converting::beside(&small.line).sheet.escape_ascii());
    }
    println!("--- the second reader\n{}", readers.answer(&small.line));
    println!("--- {}\n{}", small.other.name(), small.answer);
    let Some(path) = &options.smallest else { return Ok(()) };
    write_conversion(&mut File::create(path)?, &small.line)
}

fn part(options: &Options, readers: &Readers, plan: &Plan, coverage: &mut Coverage) -> io::Result<bool> {
    match run(plan, readers)? {
        Outcome::Same(more) => {
            coverage.merge(&more);
            Ok(true)
        }
        Outcome::Different(difference) => {
            report(options, readers, &difference)?;
            Ok(false)
        }
    }
}

/// Prints the smallest case found on which the two readers differ, and both answers.
fn report(options: &Options, readers: &Readers, difference: &Difference) -> io::Result<()> {
    let found = difference.case.id;
    println!("{} differs from the second reader on case {found}; making it smaller", difference.other.name());
    if !difference.alone {
        println!("on that case alone it does not: the cases before it in the batch matter");
    }
    let small = smallest(difference, readers);
    println!("{}", first_line(&small.case));
    println!("{}\n{}", small.case.text.escape_ascii(), small.case.sheet.escape_ascii());
    if !small.case.topics().is_empty() {
        println!("{}", small.case.topics().escape_ascii());
    }
    if small.other == Other::Beside {
        println!("beside it\n{}", generate::beside(&small.case).sheet.escape_ascii());
    }
    let reflowed = small.reflowed.as_ref().map(|text| Case { text: text.clone(), ..small.case.clone() });
    if let Some(reflowed) = &reflowed {
        println!("reflowed\n{}", reflowed.text.escape_ascii());
    }
    println!("--- the second reader\n{}", readers.second(&small.case));
    println!("--- {}\n{}", small.other.name(), small.answer);
    let Some(path) = &options.smallest else { return Ok(()) };
    let mut file = File::create(path)?;
    for case in [&small.case].into_iter().chain(&reflowed) {
        write_case(&mut file, case)?;
    }
    Ok(())
}

/// Chooses and writes the vectors; true if every feature has enough of them and the readers agree on all.
fn make_vectors(options: &Options, asked: &Vectors, readers: &Readers) -> io::Result<bool> {
    let make = |index| generate::case(options.seed, options.from + index);
    let chosen = vectors::choose(asked.want, options.cases, &make, generate::landmarks(), readers.second);
    store(options, &chosen, &asked.input, &asked.output, readers)
}

/// Puts the requests' cases behind the stored ones, and writes the answers of all; true as above.
fn extend_vectors(options: &Options, stored: &Stored, readers: &Readers) -> io::Result<bool> {
    let cases = vectors::extended(vectors::stored(&stored.input)?, generate::requests());
    store(options, &cases, &stored.input, &stored.output, readers)
}

fn store(options: &Options, chosen: &[Case], input: &str, output: &str, readers: &Readers) -> io::Result<bool> {
    let again = |index| chosen[index as usize].clone();
    if !part(options, readers, &plan(options, &again, chosen.len() as u64), &mut Coverage::default())? {
        return Ok(false);
    }
    let behind = vectors::Behind {
        starts: generate::chains::starts(second::chains()),
        joins: generate::stored_joins(),
        writings: generate::stored_writings(),
        conversions: generate::stored_conversions(),
    };
    let vectors::Behind { starts, joins, writings, conversions } = &behind;
    let join_again = |index| joins[index as usize].clone();
    let write_again = |index| writings[index as usize].clone();
    let convert_again = |index| conversions[index as usize].clone();
    if joins_part(options, readers, &join_again, joins.len() as u64)?.is_none()
        || writings_part(options, readers, &write_again, writings.len() as u64)?.is_none()
        || conversions_part(options, readers, &convert_again, conversions.len() as u64)?.is_none()
    {
        return Ok(false);
    }
    vectors::write(chosen, &behind, input, output, readers.second)?;
    let [starts, joins, writings, conversions] = [starts.len(), joins.len(), writings.len(), conversions.len()];
    println!("{} cases written, {starts} starts of chains, {joins} joins, {writings} lists to be written and {conversions} conversions", chosen.len());
    let short = vectors::short_of(chosen, readers.second);
    if !short.is_empty() {
        println!("too few cases for: {}", short.join(", "));
    }
    Ok(short.is_empty() || options.allow_zero)
}
