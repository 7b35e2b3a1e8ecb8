use super::coverage::Coverage;
use super::faults::FAULTS;
use super::run::{Difference, Other, Readers};
use super::sorts;
use super::way::{Given, Way};
use crate::batches::{Found, Plan};
use crate::held::{run, smallest, Held};
use cases::{Case, Flat, List, Row, Writing};
use std::collections::BTreeSet;

const SEED: u64 = 11;
const READS: generate::Reads = generate::Reads { call: second::flat_of_call, join: second::flat_of_join };

fn generated(index: u64) -> Writing {
    generate::writing(SEED, index, READS)
}

fn plan(count: u64, batch: u64) -> Plan<'static, Writing> {
    Plan { make: &generated, count, batch, threads: 1, progress: false }
}

fn readers<'a>(write: &'a (dyn Fn(&Writing) -> String + Sync)) -> Readers<'a> {
    let (in_domain, supplied) = (&second::in_domain, &supplied::answer);
    Readers { write, call: &second::answer, read: &second::flat_of_call, in_domain, supplied, replay: None }
}

fn by(way: &Way, writing: &Writing) -> String {
    way.write(&Given { writing, call: &second::answer })
}

/// The first difference of such a writer to the right way, in up to so many generated lists, made small.
fn found(write: &(dyn Fn(&Writing) -> String + Sync), count: u64) -> Option<(u64, Difference)> {
    let readers = readers(write);
    match run(&plan(count, 50), &readers).expect("no program is run") {
        Found::Same(_) => None,
        Found::Different(found) => Some((found.line.id, smallest(&found, &readers))),
    }
}

/// Each seeded fault is found among the generated lists, and these become small.
#[test]
fn every_seeded_fault_is_found() {
    for (fault, way) in FAULTS {
        let (index, small) = found(&|writing| by(way, writing), 20_000).unwrap_or_else(|| panic!("not found: {fault}"));
        let size = small.line.texts[0].len() + small.line.texts[1].len() + small.line.sheet.len();
        println!("{index} {size} {fault}");
        assert!(size < 120 || *fault == "texts up to 16384 bytes", "{fault}\n{:?}", small.line);
        assert_ne!(by(way, &small.line), second::write(&small.line));
    }
}

/// The stored lists alone tell them, too.
#[test]
fn the_stored_lists_tell_the_faults() {
    let writings = generate::stored_writings();
    let told = |way: &Way| writings.iter().any(|writing| by(way, writing) != second::write(writing));
    let untold: Vec<&str> = FAULTS.iter().filter(|(_, way)| !told(way)).map(|(fault, _)| *fault).collect();
    assert_eq!(untold, Vec::<&str>::new());
}

/// A text that says something else is found when it is read back, one to which another party's rows matter by the sheets beside.
#[test]
fn what_is_read_back_and_what_comes_of_others_rows_is_found() {
    let first = |differs: &dyn Fn(&Writing) -> bool| (0..3_000).map(generated).find(|writing| differs(writing));
    let forgetful = |case: &Case| {
        let mut lists = second::flat_of_call(case)?;
        lists.triggers[0].words[3] = 0;
        Some(lists)
    };
    let readers = Readers { read: &forgetful, ..readers(&second::write) };
    let writing = first(&|writing| readers.differs(Other::Reread, writing)).expect("one whose fourth word is named");
    assert!(!self::readers(&second::write).differs(Other::Reread, &writing));
    assert!(readers.other(Other::Reread, &writing).is_some_and(|answer| answer.contains("read back\nT ")));
    let other_level = |case: &Case| supplied::answer(case).replace("lamp_level", "lamp_cct");
    let readers = Readers { supplied: &other_level, ..self::readers(&second::write) };
    let writing = first(&|writing| readers.differs(Other::Supplied, writing)).expect("one with a lamp's level");
    assert!(!self::readers(&second::write).differs(Other::Supplied, &writing));
    let counting = |writing: &Writing| {
        let rows = writing.sheet.iter().filter(|&&b| b == b'\n').count();
        second::write(writing).replace("refused 55 1 ", &format!("refused 55 {} ", rows % 2))
    };
    let readers = self::readers(&counting);
    let writing = first(&|writing| readers.differs(Other::Beside, writing)).expect("one with another sheet beside it");
    assert!(!self::readers(&second::write).differs(Other::Beside, &writing));
}

/// Nothing is left uncovered by far fewer lists than a run has.
#[test]
fn every_sort_comes_up() {
    let Found::Same(coverage) = run(&Plan { threads: 2, ..plan(60_000, 1_000) }, &readers(&second::write)).unwrap() else { panic!("a difference") };
    assert_eq!(coverage.zeros(), Vec::<String>::new());
    let Coverage { written, in_domain, beside, .. } = coverage;
    assert!(written > 20_000 && in_domain > 10_000 && beside > 50_000, "{written} {in_domain} {beside}");
    assert_eq!(Coverage::default().zeros().len(), sorts::all().len() + 2);
    let different: BTreeSet<&String> = sorts::all().iter().collect();
    assert_eq!(different.len(), sorts::all().len());
}

/// The sorts that one trigger shows, in the text `"a" b`, with adapter 1 listed and adapter 2 of another party; without those of all lists.
fn shown(from: u32, words: &[u32]) -> String {
    let lists = Flat::new(&[Row::new(from, words)], &[]);
    let (texts, sheet) = ([b"\"a\" b".to_vec(), Vec::new()], b"primary,0\nadapter,1\nadapter,2\nparty,2,7\n".to_vec());
    let writing = Writing { id: 1, size: 4_096, party: 0, primary: 0, texts, sheet, lists };
    let found = sorts::sorts(&writing, &second::write(&writing));
    let usual = ["party 0", "written", "written into 4096 bytes", "written, the primary is not listed", "T 1", "C 0", "55", "55 at 1", "56", "56 at 1"];
    sorts::all().iter().filter(|sort| found.contains(*sort) && !usual.contains(&sort.as_str())).cloned().collect::<Vec<_>>().join("; ")
}

#[test]
fn what_lists_show_is_counted() {
    for (from, words, wanted) in [
        (1, &[17][..], "controller_starts FROM 1"),
        (2, &[10, 1, 63, 2], "lamp_turns FROM 2; lamp_turns lamp 1 written; lamp_turns lamp 2 of 63; lamp_turns choice 3 code 2"),
        (1, &[10, 0, 64, 2], "55 by a number to 63: just past; 55 by lamp_turns lamp 2"),
        (1, &[10, 3, 5, 2], "56 by one that is not listed; 56 by lamp_turns lamp 1"),
        (1, &[10, 2, 5, 2], "56 by another's that is listed; 56 by lamp_turns lamp 1"),
        (1, &[15, 3, 1, 0, 1], "56 by broadcast on one that is listed; 56 by hcl_override broadcast 2"),
        (1, &[10, 0, 64, 3], ""),
        (0, &[17], "55 by FROM 0; 55 by FROM 0 without a name"),
        (3, &[16, 1, 1], "55 by FROM 3"),
        (1, &[16, 1, 1], "a name between quotes; timer_fires FROM 1"),
        (1, &[16, 4, 1], "a name at the end; a name not between quotes; timer_fires FROM 1"),
        (1, &[16, 4, 2], "55 by a name: ends past its text"),
        (1, &[16, 0, 1], "55 by a name: a quote"),
        (1, &[21, 4, 0], "55 by a topic: empty"),
        (1, &[8, 2, 1, 64], "offset + ms; on 1 days; at_solar FROM 1; at_solar solar 1 code 2"),
        (1, &[9, 1_000_000_001], "period 1000000.001s; period with zeros behind the point; every FROM 1"),
    ] {
        assert_eq!(shown(from, words), wanted, "{words:?}");
    }
}

/// The stored lists are short and different, have every kind of entry and every line, and show every sort but some of single words and names.
#[test]
fn the_stored_lists() {
    let writings = generate::stored_writings();
    let mut coverage = Coverage::default();
    writings.iter().for_each(|writing| coverage.add(writing, &second::write(writing)));
    let zeros = coverage.zeros();
    let counts = (1..=4).map(|count| format!("T {count}")).chain((0..=4).map(|count| format!("C {count}")));
    let wanted = sorts::OTHERS.iter().map(|sort| sort.to_string()).chain((0..=8).map(|line| format!("55 at {line}"))).chain(counts);
    let missing: Vec<String> = wanted.filter(|sort| zeros.contains(&format!("write {sort}"))).collect();
    assert_eq!(missing, Vec::<String>::new());
    let used = |list: List| writings.iter().flat_map(move |writing| writing.lists.used(list)).map(|row| row.words[0]).collect::<BTreeSet<u32>>();
    assert!((1..=21).all(|kind| used(List::Triggers).contains(&kind)) && (1..=16).all(|kind| used(List::Conditions).contains(&kind)));
    let size = |writing: &Writing| writing.texts[0].len() + writing.texts[1].len() + writing.sheet.len();
    let long = writings.iter().filter(|writing| size(writing) > 220).count();
    let different: BTreeSet<String> = writings.iter().map(|writing| format!("{writing:?}")).collect();
    assert_eq!((long, different.len()), (1, writings.len()));
    assert!((100..=150).contains(&writings.len()), "{}", writings.len());
}
