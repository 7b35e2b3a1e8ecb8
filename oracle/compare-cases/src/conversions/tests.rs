use super::coverage::Coverage;
use super::run::{by_way, Difference, Other, Readers};
use super::{back, back_faults, forward, forward_faults, sorts};
use crate::batches::{Found, Plan};
use crate::held::{run, smallest, Held};
use cases::{Conversion, Direction, Flat, Row};
use std::collections::BTreeSet;

const SEED: u64 = 11;

fn generated(index: u64) -> Conversion {
    generate::conversion(SEED, index)
}

fn plan(count: u64, batch: u64) -> Plan<'static, Conversion> {
    Plan { make: &generated, count, batch, threads: 1, progress: false }
}

fn readers<'a>(convert: &'a (dyn Fn(&Conversion) -> String + Sync)) -> Readers<'a> {
    Readers { convert, call: &second::answer, replay: None }
}

/// A way forward and a way back, one of them with a fault.
type Ways = (forward::Way, back::Way);

fn by((forward, back): &Ways, conversion: &Conversion) -> String {
    by_way(conversion, forward, back, &second::answer)
}

fn faults() -> Vec<(String, Ways)> {
    let forward = forward_faults::FAULTS.iter().map(|(fault, way)| (format!("rows: {fault}"), (*way, back::RIGHT)));
    forward.chain(back_faults::FAULTS.iter().map(|(fault, way)| (format!("back: {fault}"), (forward::RIGHT, *way)))).collect()
}

/// The first difference of such a converter to the right way, in up to so many generated conversions, made small.
fn found(convert: &(dyn Fn(&Conversion) -> String + Sync), count: u64) -> Option<(u64, Difference)> {
    let readers = readers(convert);
    match run(&plan(count, 50), &readers).expect("no program is run") {
        Found::Same(_) => None,
        Found::Different(found) => Some((found.line.id, smallest(&found, &readers))),
    }
}

/// A conversion as it is printed where a test fails.
fn printed(conversion: &Conversion) -> String {
    let mut bytes = Vec::new();
    cases::write_conversion(&mut bytes, conversion).expect("memory takes all bytes");
    bytes.escape_ascii().to_string()
}

fn size(conversion: &Conversion) -> usize {
    conversion.sheet.len() + match &conversion.direction {
        Direction::Forward { rows } => rows.len(),
        Direction::Back { .. } => 0,
    }
}

/// Each seeded fault is found among the generated conversions, and these become small.
#[test]
fn every_seeded_fault_is_found() {
    let mut missed = Vec::new();
    for (fault, ways) in faults() {
        let Some((index, small)) = found(&|conversion| by(&ways, conversion), 20_000) else {
            missed.push(fault);
            continue;
        };
        println!("{index} {} {fault}", size(&small.line));
        let long = ["rows: a name's length as a byte", "rows: details as bytes"].contains(&fault.as_str());
        assert!(size(&small.line) < 120 || long, "{fault}\n{}", printed(&small.line));
        let differs = |convert: &(dyn Fn(&Conversion) -> String + Sync)| readers(convert).differs(small.other, &small.line);
        assert!(differs(&|conversion| by(&ways, conversion)) && !differs(&second::convert), "{fault}");
    }
    assert_eq!(missed, Vec::<String>::new());
}

/// The stored conversions alone tell them, too.
#[test]
fn the_stored_conversions_tell_the_faults() {
    let conversions = generate::stored_conversions();
    let told = |ways: &Ways| conversions.iter().any(|conversion| by(ways, conversion) != second::convert(conversion));
    let untold: Vec<String> = faults().into_iter().filter(|(_, ways)| !told(ways)).map(|(fault, _)| fault).collect();
    assert_eq!(untold, Vec::<String>::new());
}

/// Rows that say something else are found when they are converted again, a reader to which another party's rows matter by the sheets beside.
#[test]
fn what_is_converted_again_and_what_comes_of_others_rows_is_found() {
    let first = |readers: &Readers, other: Other| {
        let found = (0..3_000).map(generated).find(|conversion| readers.differs(other, conversion)).expect("one that shows it");
        assert!(!self::readers(&second::convert).differs(other, &found));
        readers.other(other, &found).expect("it differs")
    };
    let forgetful = |conversion: &Conversion| second::convert(conversion).replace(" off\n", " on\n");
    assert!(first(&readers(&forgetful), Other::Again).contains("converted again\ncase "));
    let counting = |conversion: &Conversion| {
        let rows = conversion.sheet.iter().filter(|&&b| b == b'\n').count();
        second::convert(conversion).replace("refused 62 1 ", &format!("refused 62 {} ", rows % 2))
    };
    assert!(first(&readers(&counting), Other::Beside).contains("refused 62 "));
}

/// "Its name keeps the sheet's name rule without commas": the names of rows that are good are those that a sheet takes.
#[test]
fn the_names_of_rows_are_those_of_sheets() {
    let rows = (0..4_000).map(generated).filter_map(|conversion| match conversion.direction {
        Direction::Forward { rows } => Some(rows),
        Direction::Back { .. } => None,
    });
    let mut told = [0, 0];
    for name in rows.flat_map(|rows| rows.split(|byte| b",\n".contains(byte)).map(<[u8]>::to_vec).collect::<Vec<_>>()) {
        let sheet = [b"primary,0\nlamp,0,0,", &name[..], b"\nadapter,0"].concat();
        let is_taken = !second::answer(&cases::Case::new(1, cases::LEAST_WORDS, "when http trigger", sheet)).contains("\nrefused 3 ");
        // A CR at the end belongs to the line end of a sheet.
        assert_eq!((forward::RIGHT.name)(&name), is_taken && !name.ends_with(b"\r"), "{}", name.escape_ascii());
        told[usize::from(is_taken)] += 1;
    }
    assert!(told[0] > 1_000 && told[1] > 1_000, "{told:?}");
}

/// Nothing is left uncovered by far fewer conversions than a run has.
#[test]
fn every_sort_comes_up() {
    let Found::Same(coverage) = run(&Plan { threads: 2, ..plan(60_000, 1_000) }, &readers(&second::convert)).unwrap() else { panic!("a difference") };
    assert_eq!(coverage.zeros(), Vec::<String>::new());
    assert!(coverage.accepted > 4_000 && coverage.written > 6_000 && coverage.beside > 50_000, "{} {} {}", coverage.accepted, coverage.written, coverage.beside);
    assert_eq!(Coverage::default().zeros().len(), sorts::all().len() + 1);
    let different: BTreeSet<&String> = sorts::all().iter().collect();
    assert_eq!(different.len(), sorts::all().len());
}

/// The stored conversions are short and different, and show every sort but some of single words and of the longest rows and sheets.
#[test]
fn the_stored_conversions() {
    let conversions = generate::stored_conversions();
    let mut coverage = Coverage::default();
    conversions.iter().for_each(|conversion| coverage.add(conversion, &second::convert(conversion)));
    let left_out = ["'s word ", "'s code ", "'s code's ", "19000 bytes", "512 rows", "34 of more than 255", "a sheet beside"];
    let is_left_out = |sort: &&String| left_out.iter().any(|part| sort.contains(part));
    let zeros = coverage.zeros();
    assert_eq!(zeros.iter().filter(|sort| !is_left_out(sort)).collect::<Vec<_>>(), Vec::<&String>::new());
    assert!(zeros.len() < 40, "{}", zeros.len());
    let long = conversions.iter().filter(|conversion| size(conversion) > 700).count();
    let different: BTreeSet<String> = conversions.iter().map(printed).collect();
    assert_eq!((long, different.len()), (1, conversions.len()));
    assert!((90..=115).contains(&coverage.forward) && (90..=115).contains(&coverage.back), "{} {}", coverage.forward, coverage.back);
}

/// The sorts that rows or lists show with a small sheet, without those of all.
fn shown(direction: Direction) -> String {
    let sheet = b"primary,0\nadapter,0\nadapter,1\nparty,7,3\nlamp,1,4,Till\nlamp,0,5,Twin\nlamp,0,6,Twin\nlamp,7,7,Oven\nlamp,0,8,a,b\nlamp,2,9,Far".to_vec();
    let conversion = Conversion { id: 1, party: 0, primary: 0, sheet, direction };
    let found = sorts::sorts(&conversion, &second::convert(&conversion));
    let usual = [
        "party 0", "60", "60 at 1", "T 1", "accepted", "written", "written into 512 bytes", "written, not the primary's", "61", "61 at 1", "62", "62 at 1",
        "62 of a lamp", "FROM 1",
    ];
    let unusual = sorts::all().iter().filter(|sort| found.contains(*sort)).map(|sort| sort.split_once(": ").expect("a line and a sort").1);
    unusual.filter(|sort| !usual.contains(sort)).collect::<Vec<_>>().join("; ")
}

#[test]
fn what_rows_show_is_counted() {
    for (rows, wanted) in [
        ("lamp,Till,,on\n", "lamp on without A"), ("lamp,Till,1,off\n", "lamp off with A"), ("lamp,Far,,on\n", "an adapter that is not listed; lamp on without A"),
        ("lamp,Till,1,on\r\n", "60 by CR before LF"), ("lamp,Till,1,on", "60 by no LF"), ("lamp,Till,1\n", "60 by 3 fields"),
        ("lamp,a,b,1,on\n", "60 by 5 fields; 60 by a comma in the name"), ("lamp,Till,256,on\n", "60 by A: 256"), ("lamp,Till,01,on\n", "60 by A: a leading zero"),
        ("lamp,Till,1,all_off\n", "60 by word: of another K, for lamp"), ("Lamp,Till,1,on\n", "60 by K: capitals"), ("Lamp,Till,01,on\n", ""),
        ("lamp,Till,x,on\nlamp,Till,x,on\n", "60, another behind it; 60 by A: no digits"),
        ("lamp,Till,x,on\nlamp,None,,on\n", "60, a name rule behind it; 60 by A: no digits"),
        ("lamp,None,,on\nlamp,Twin,,on\n", "31 without A; 31; 31 at 1; 31 then 33; 31 of a lamp"),
        ("lamp,Oven,1,on\n", "31 with A; 31, another party's with A; 31; 31 at 1; 31 of a lamp"),
        ("lamp,Twin,0,on\n", "33 with A; 33 of 2; 33; 33 at 1; 33 of a lamp"),
        ("lamp,Far,2,on\n", "25, the party's; 25, the name is on it; 25; 25 at 1; 25 of a lamp"),
        ("lamp,a,,on\n", "31 without A; 31, a part of a name; 31, up to a comma; 31; 31 at 1; 31 of a lamp"),
    ] {
        assert_eq!(shown(Direction::Forward { rows: rows.into() }), wanted, "{rows:?}");
    }
}

#[test]
fn what_lists_show_is_counted() {
    for (words, wanted) in [
        (&[10, 1, 4, 1][..], "lamp on"), (&[10, 0, 5, 1], "62 by repeats alone"), (&[10, 0, 8, 1], "62 by commas alone"),
        (&[10, 2, 9, 1], "62 by an adapter that is not listed"), (&[10, 7, 7, 1], "62 by another's adapter that is not"),
        (&[10, 1, 64, 1], "62 by a number just past"), (&[10, 1, 256 + 4, 1], "62 by a number's high bits"),
        (&[10, 256, 4, 1], "62 by adapter 256; 62, a line of another adapter"), (&[12, 1, 4, 1], "62, a line of another kind; 62 of a group"),
        (&[10, 1, 4, 3], "61 by a lamp's code 3"), (&[10, 1, 4, 1, 0, 1], "61 by a lamp's word 5"), (&[10, 1, 4, 0, 0, 1], ""),
        (&[11, 1, 4, 1], "61 by lamp_level_cross"), (&[256 + 10, 1, 4, 1], "61 by a kind's high bits"),
    ] {
        let lists = Box::new(Flat::new(&[Row::new(1, words)], &[]));
        assert_eq!(shown(Direction::Back { size: 512, lists }), wanted, "{words:?}");
    }
}
