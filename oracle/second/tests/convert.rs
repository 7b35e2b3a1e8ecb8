//! Document 02 §10, the previous owners' rows.

use cases::{Conversion, Direction, Flat, Row};

/// Adapters 0, 1 and 255 are listed, 2 is not, 7 is party 3's and listed, 9 is party 3's and not listed.
const SHEET: &str = "primary,0\nadapter,0\nadapter,1\nadapter,255\nadapter,7\nparty,7,3\nparty,9,3\n\
    lamp,1,7,Till\nlamp,2,5,Far\nlamp,0,4,Aisle\nlamp,1,4,Aisle\nlamp,1,5,Twin\nlamp,1,6,Twin\nlamp,7,9,Oven\nlamp,0,9,Aisle 3, cold\n\
    lamp,7,7,Both\nlamp,0,8,Both\ngroup,0,15,Hall\ndevice,255,63,Gate\ninput,0,3,Door\nlamp,0,10,\u{e9}\n";
const NONE: u32 = u32::MAX;

fn forward(rows: impl Into<Vec<u8>>) -> Conversion {
    Conversion { id: 1, party: 0, primary: 0, sheet: SHEET.into(), direction: Direction::Forward { rows: rows.into() } }
}

/// What an answer to rows says, in one line.
fn says_of(conversion: &Conversion) -> String {
    let answer = second::convert(conversion);
    let said = answer.strip_prefix("case 1\n").and_then(|said| said.strip_suffix('\n'));
    said.unwrap_or_else(|| panic!("{answer}")).replace("\nT ", "; ")
}

fn says(rows: impl Into<Vec<u8>>) -> String {
    says_of(&forward(rows))
}

fn refused(table: &[(&str, &str)]) {
    for (rows, refusal) in table {
        assert_eq!(says(*rows), format!("refused {refusal}"), "{rows:?}");
    }
}

fn back(triggers: &[&[u32]]) -> Conversion {
    back_of(Flat::new(&triggers.iter().map(|words| Row::new(1, words)).collect::<Vec<_>>(), &[]))
}

fn back_of(lists: Flat) -> Conversion {
    Conversion { direction: Direction::Back { size: 512, lists: Box::new(lists) }, ..forward("") }
}

fn with_size(conversion: &Conversion, size: usize) -> Conversion {
    let Direction::Back { lists, .. } = &conversion.direction else { panic!("no `back` line") };
    Conversion { direction: Direction::Back { size, lists: lists.clone() }, ..conversion.clone() }
}

/// What an answer to lists says: the rows themselves, or the refusal.
fn writes_of(conversion: &Conversion) -> String {
    let answer = second::convert(conversion);
    let said = answer.strip_prefix("case 1\nbuffer kept\n").and_then(|said| said.strip_suffix('\n')).unwrap_or_else(|| panic!("{answer}"));
    let Some((length, hex)) = said.strip_prefix("written ").and_then(|said| said.split_once(" x")) else { return said.to_string() };
    let bytes: Vec<u8> = (0..hex.len()).step_by(2).map(|at| u8::from_str_radix(&hex[at..at + 2], 16).unwrap()).collect();
    assert_eq!(length, bytes.len().to_string());
    String::from_utf8(bytes).unwrap()
}

fn writes(triggers: &[&[u32]]) -> String {
    writes_of(&back(triggers))
}

const LAMP: &[u32] = &[10, 1, 7, 1];
const HTTP: &[u32] = &[20];
/// A lamp that no row names.
const NAMELESS: &[u32] = &[10, 1, 63, 1];

#[test]
fn the_six_words() {
    assert_eq!(says("lamp,Till,1,on\nlamp,Till,,off\n"), "accepted 2 0; lamp_turns 1 7 on; lamp_turns 1 7 off");
    assert_eq!(says("group,Hall,,any_on\ngroup,Hall,0,all_off\n"), "accepted 2 0; group_becomes 0 15 any_on; group_becomes 0 15 all_off");
    let device = "accepted 2 0; device_online 255 63 goes_offline; device_online 255 63 comes_online";
    assert_eq!(says("device,Gate,255,offline\ndevice,Gate,,online\n"), device);
    let four = [&[10, 1, 7, 2][..], &[12, 0, 15, 1], &[14, 255, 63, 1], &[14, 255, 63, 2]];
    assert_eq!(writes(&four), "lamp,Till,1,off\ngroup,Hall,0,any_on\ndevice,Gate,255,offline\ndevice,Gate,255,online\n");
    assert_eq!(writes(&[LAMP, &[12, 0, 15, 2]]), "lamp,Till,1,on\ngroup,Hall,0,all_off\n");
}

#[test]
fn p84_the_order_forward() {
    let all_wrong = Conversion { primary: 7, sheet: b"primary,0\n\n".to_vec(), ..forward("") };
    assert_eq!(says_of(&all_wrong), "refused 3 2 0 0");
    assert_eq!(says_of(&Conversion { sheet: SHEET.into(), ..all_wrong.clone() }), "refused 53 0 0 0");
    assert_eq!(says_of(&Conversion { primary: 7, ..forward("lamp,None,,on\n") }), "refused 53 0 0 0");
    assert_eq!(says_of(&Conversion { party: 3, ..forward("lamp,Oven,,on\n") }), "refused 53 0 0 0");
    refused(&[
        ("lamp,None,,on\nlamp,Far,2,on\nlamp,,,on\n", "60 3 0 0"), ("lamp,None,,on\nlamp,Far,2,on\nlamp,Till,,off\n", "31 1 0 0"),
        ("lamp,Till,,on\nlamp,Far,2,on\nlamp,None,,off\n", "25 2 0 0"), ("lamp,Till,,on\nlamp,Till,,on\nlamp,None,2,off\n", "25 3 0 0"),
        ("lamp,Till,0,on\n", "32 1 0 1"), ("lamp,Twin,,on\n", "33 1 0 2"), ("lamp,Twin,1,on\n", "33 1 0 2"), ("lamp,Aisle,,on\n", "34 1 0 2"),
        ("lamp,Till,1,on\nlamp,Till,1,on\nlamp,Till,1,on\nlamp,Aisle,255,on\n", "32 4 0 0"), ("lamp,Door,,on\n", "31 1 0 0"), ("lamp,Oven,,on\n", "31 1 0 0"),
        ("lamp,Oven,1,on\n", "31 1 0 0"), ("lamp,Oven,7,on\n", "25 1 0 0"), ("group,Till,,any_on\n", "31 1 0 0"), ("lamp,Both,1,on\n", "32 1 0 0"),
    ]);
    assert_eq!(says("lamp,Both,,on\n"), "accepted 1 0; lamp_turns 0 8 on");
    let theirs = Conversion { party: 3, primary: 7, ..forward("lamp,Both,,on\nlamp,Oven,7,off\n") };
    assert_eq!(says_of(&theirs), "accepted 2 0; lamp_turns 7 7 on; lamp_turns 7 9 off");
    assert_eq!(says_of(&Conversion { primary: 9, ..theirs.clone() }), says_of(&theirs));
    assert_eq!(says_of(&theirs.of_rows("lamp,Till,,on\n")), "refused 31 1 0 0");
}

#[test]
fn p85_no_rows_and_too_many() {
    let good = "lamp,Till,1,on\n";
    refused(&[
        ("", "60 0 0 0"), ("\n", "60 1 0 0"), ("\n\n", "60 1 0 0"), ("lamp,Till,1,on", "60 1 0 0"), ("lamp,Till,1,on\n\n", "60 2 0 0"),
        ("lamp,Till,1,on\nlamp,Till,1,on", "60 2 0 0"),
    ]);
    assert_eq!(says(good.repeat(4)), "accepted 4 0".to_string() + &"; lamp_turns 1 7 on".repeat(4));
    for fifth in ["\n", "x", good, "lamp,Till,1,on", "\n\n\n", "lamp,None,,on\n"] {
        assert_eq!(says(good.repeat(4) + fifth), "refused 60 5 0 0", "{fifth:?}");
        assert_eq!(says(good.repeat(3) + "lamp,None,,on\n" + fifth), "refused 60 5 0 0", "{fifth:?}");
    }
    assert_eq!(says(good.repeat(3) + "x\n" + good), "refused 60 4 0 0");
    assert_eq!(says(good.repeat(1_300)), "refused 60 5 0 0");
}

#[test]
fn p86_p87_p88_malformed_rows() {
    for row in [
        "lamp,Till,1,on\r", "lamp,Till,1\r,on", "lamp,Ti\rll,1,on", "lamp,Till\r,1,on", "lamp,Till,\r,on", "\rlamp,Till,1,on", "lamp,Till,256,on",
        "lamp,Till,01,on", "lamp,Till,00,on", "lamp,Till,1000,on", "lamp,Till,+1,on", "lamp,Till,-1,on", "lamp,Till, 1,on", "lamp,Till,1 ,on",
        "lamp,Till,x,on", "lamp,Till,4294967297,on", "lamp,Aisle 3, cold,1,on", "lamp,Till,1,on,", "lamp,Till,1", "lamp,Till", "lamp", ",,,",
        "lamp,,1,on", "lamp,,,on", "lamp,\"Till\",1,on", "lamp,Ti\"ll,1,on", "Lamp,Till,1,on", "lamps,Till,1,on", "input,Door,0,on", ",Till,1,on",
        " lamp,Till,1,on", "lamp,Till,1,On", "lamp,Till,1,on ", "lamp,Till,1,", "lamp,Till,1,any_on", "lamp,Till,1,online", "group,Hall,0,on",
        "group,Hall,0,offline", "device,Gate,255,off", "device,Gate,255,goes offline", "input,Door,0,offline", "lamp;Till;1;on", "scene,Till,1,on",
    ] {
        assert_eq!(says(format!("{row}\n")), "refused 60 1 0 0", "{row:?}");
    }
    let long = |length: usize| says(format!("lamp,{},1,on\n", "a".repeat(length)));
    assert_eq!((long(1), long(48), long(49)), ("refused 31 1 0 0".into(), "refused 31 1 0 0".into(), "refused 60 1 0 0".into()));
    assert_eq!(says("lamp,\u{e9},,on\n"), "accepted 1 0; lamp_turns 0 10 on");
    let raw = Conversion { sheet: b"primary,0\nlamp,0,4,\xff\0\n".to_vec(), ..forward(*b"lamp,\xff\0,,on\n") };
    assert_eq!(says_of(&raw), "accepted 1 0; lamp_turns 0 4 on");
    assert_eq!(says_of(&raw.of_rows(*b"lamp,\xfe\0,,on\n")), "refused 31 1 0 0");
    let with_cr = Conversion { sheet: b"primary,0\r\nlamp,0,4,Till\r\n".to_vec(), ..forward("lamp,Till,,on\n") };
    assert_eq!(says_of(&with_cr), "accepted 1 0; lamp_turns 0 4 on");
    assert_eq!(says_of(&with_cr.of_rows("lamp,Till,,on\r\n")), "refused 60 1 0 0");
}

#[test]
fn p89_p90_adapters_and_primaries() {
    assert_eq!(says("lamp,Far,,off\n"), "accepted 1 0; lamp_turns 2 5 off");
    refused(&[("lamp,Far,2,off\n", "25 1 0 0"), ("lamp,Till,7,off\n", "25 1 0 0"), ("lamp,Till,3,off\n", "25 1 0 0")]);
    assert_eq!(says("lamp,Aisle,1,on\nlamp,Aisle,0,on\n"), "accepted 2 0; lamp_turns 1 4 on; lamp_turns 0 4 on");
    for primary in [0, 1, 2, 200, 255] {
        assert_eq!(says_of(&Conversion { primary, ..forward("lamp,Till,,on\nlamp,Till,1,on\n") }), "accepted 2 0; lamp_turns 1 7 on; lamp_turns 1 7 on");
        assert_eq!(says_of(&Conversion { primary, ..forward("lamp,Aisle,,on\n") }), "refused 34 1 0 2");
    }
}

#[test]
fn p91_the_order_back() {
    let all_wrong = Conversion { primary: 7, sheet: b"primary,0\n\n".to_vec(), ..with_size(&back(&[]), 511) };
    assert_eq!(writes_of(&all_wrong), "refused 3 2 0 0");
    assert_eq!(writes_of(&Conversion { sheet: SHEET.into(), ..all_wrong.clone() }), "refused 53 0 0 0");
    assert_eq!(writes_of(&Conversion { sheet: SHEET.into(), primary: 0, ..all_wrong.clone() }), "refused 54 0 0 0");
    assert_eq!(writes_of(&Conversion { sheet: SHEET.into(), primary: 0, ..with_size(&all_wrong, 512) }), "refused 61 0 0 0");
    for (size, wanted) in [(0, "refused 54 0 0 0"), (272, "refused 54 0 0 0"), (511, "refused 54 0 0 0"), (512, "lamp,Till,1,on\n"), (8_192, "lamp,Till,1,on\n")] {
        assert_eq!(writes_of(&with_size(&back(&[LAMP]), size)), wanted, "{size}");
    }
    assert_eq!(writes(&[NAMELESS, LAMP, HTTP, HTTP]), "refused 61 3 0 0");
    assert_eq!(writes(&[LAMP, NAMELESS, NAMELESS]), "refused 62 2 0 0");
    assert_eq!(writes(&[LAMP, LAMP, LAMP, NAMELESS]), "refused 62 4 0 0");
}

#[test]
fn p92_counts_and_conditions() {
    let with = |triggers: &[&[u32]], counts: [u32; 2]| {
        let rows: Vec<Row> = triggers.iter().map(|words| Row::new(1, words)).collect();
        writes_of(&back_of(Flat { counts, ..Flat::new(&rows, &[Row::new(1, &[14])]) }))
    };
    for triggers in [0, 5, 6, 256, 257, 0x8000_0001, NONE] {
        assert_eq!([with(&[LAMP; 4], [triggers, 0]), with(&[HTTP; 4], [triggers, 4])], ["refused 61 0 0 0"; 2], "{triggers}");
    }
    for conditions in [1, 4, 5, 256, NONE] {
        assert_eq!(with(&[LAMP, HTTP], [1, conditions]), "refused 61 2 0 0");
        assert_eq!(with(&[LAMP; 4], [4, conditions]), "refused 61 5 0 0");
        assert_eq!(with(&[NAMELESS, LAMP], [2, conditions]), "refused 61 3 0 0");
        assert_eq!(with(&[LAMP, HTTP], [2, conditions]), "refused 61 2 0 0");
    }
    // Rows past a count are not looked at.
    assert_eq!(with(&[LAMP, HTTP, NAMELESS], [1, 0]), "lamp,Till,1,on\n");
}

#[test]
fn p93_another_trigger_or_none() {
    for words in [
        &[0][..], &[22], &[NONE], &[256 + 10, 1, 7, 1], &[10, 1, 7, 0], &[10, 1, 7, 3], &[10, 1, 7, 257], &[12, 0, 15, 3], &[14, 255, 63, 0], &[14, 255, 63, 3],
        &[11, 1, 7, 1, 5], &[13, 1, 7], &[15, 1, 1, 7, 1], &[5, 1, 7], &[9, 1_000], &[17], &[10, 1, 7, 1, 1], &[10, 1, 7, 1, 0, 0, 0, 0, 0, 0, 0, 1],
        &[12, 0, 15, 1, 0, 1], &[14, 255, 63, 1, 0, 0, NONE], &[3, 1, 7, 1],
    ] {
        assert_eq!(writes(&[words]), "refused 61 1 0 0", "{words:?}");
        assert_eq!(writes(&[NAMELESS, words]), "refused 61 2 0 0", "{words:?}");
    }
    for words in [
        &[10, 1, 64, 1][..], &[10, 256, 7, 1], &[10, NONE, 7, 1], &[10, 1, 256 + 7, 1], &[10, 0x1_0001, 7, 1], &[12, 0, 16, 1], &[14, 255, 64, 2], &[12, 1, 7, 1],
        &[14, 1, 7, 1], &[10, 0, 15, 1],
    ] {
        assert_eq!(writes(&[words]), "refused 62 1 0 0", "{words:?}");
    }
    for from in [0, 1, 2, 3, NONE] {
        assert_eq!(writes_of(&back_of(Flat::new(&[Row::new(from, LAMP)], &[]))), "lamp,Till,1,on\n", "{from}");
    }
}

/// What is written for lamp 4 on adapter 1 with these rows of the sheet.
fn chosen(rows: &[&str]) -> String {
    let sheet = format!("primary,0\nadapter,0\nadapter,1\nadapter,7\nparty,7,3\n{}\n", rows.join("\n"));
    writes_of(&Conversion { sheet: sheet.into(), ..back(&[&[10, 1, 4, 1]]) })
}

#[test]
fn p94_the_row_that_is_written() {
    assert_eq!(chosen(&["lamp,1,4,A", "lamp,1,4,A", "lamp,1,4,B,C", "lamp,1,4,D", "lamp,1,4,E"]), "lamp,D,1,on\n");
    assert_eq!(chosen(&["lamp,1,4,E", "lamp,1,4,D"]), "lamp,E,1,on\n");
    assert_eq!(chosen(&["lamp,1,4,A", "lamp,1,5,A"]), "refused 62 1 0 0");
    assert_eq!(chosen(&["lamp,1,4,A", "lamp,1,4,A"]), "refused 62 1 0 0");
    assert_eq!(chosen(&["lamp,1,4,,", "lamp,1,4,a,b"]), "refused 62 1 0 0");
    assert_eq!(chosen(&["lamp,0,4,A", "lamp,1,4,A", "lamp,7,4,A", "group,1,4,A"]), "lamp,A,1,on\n");
    // A row of another kind has that name, but is no row of the lamp's.
    assert_eq!(chosen(&["input,1,9,B", "lamp,1,4,A", "lamp,1,4,B"]), "lamp,A,1,on\n");
    assert_eq!(chosen(&["group,1,4,A", "lamp,0,4,A"]), "refused 62 1 0 0");
    assert_eq!(chosen(&[&format!("lamp,1,4,{}", "a".repeat(48))]), format!("lamp,{},1,on\n", "a".repeat(48)));
    assert_eq!(chosen(&["lamp,1,4,Till\r"]), "lamp,Till,1,on\n");
    // The primary's adapter is written too; one that is not listed never.
    assert_eq!(writes_of(&Conversion { primary: 1, ..back(&[LAMP]) }), "lamp,Till,1,on\n");
    let far = back(&[&[10, 2, 5, 1]]);
    assert_eq!([writes_of(&far), writes_of(&Conversion { primary: 2, ..far })], ["refused 62 1 0 0"; 2]);
    // Whose the adapter is.
    let theirs = |words: &[u32]| writes_of(&Conversion { party: 3, primary: 9, ..back(&[words]) });
    assert_eq!((theirs(&[10, 7, 9, 1]), theirs(LAMP), writes(&[&[10, 7, 9, 1]])), ("lamp,Oven,7,on\n".into(), "refused 62 1 0 0".into(), "refused 62 1 0 0".into()));
    assert_eq!((theirs(&[10, 7, 7, 2]), writes(&[&[10, 0, 8, 2]])), ("lamp,Both,7,off\n".into(), "lamp,Both,0,off\n".into()));
}

#[test]
fn p95_the_longest_rows() {
    let sheet = format!("primary,0\nadapter,255\ndevice,255,63,{}\ngroup,255,15,{0}\n", "a".repeat(48));
    let length = |words: &[u32]| writes_of(&Conversion { sheet: sheet.clone().into(), ..back(&[words; 4]) }).len();
    assert_eq!((length(&[14, 255, 63, 1]), length(&[12, 255, 15, 2])), (272, 268));
}

/// "With the same sheet, party and primary, rows made this way convert to the same list."
#[test]
fn rows_made_this_way_convert_to_the_same_list() {
    let lists = back(&[&[10, 0, 8, 2], &[10, 0, 10, 1], &[14, 255, 63, 2], &[12, 0, 15, 1]]);
    let said = says_of(&lists.of_rows(writes_of(&lists)));
    assert_eq!(said, "accepted 4 0; lamp_turns 0 8 off; lamp_turns 0 10 on; device_online 255 63 comes_online; group_becomes 0 15 any_on");
}
