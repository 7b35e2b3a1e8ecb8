//! Rows of the previous owners: the triggers that they are converted to, what is refused and at which row, and back.

use tergyosul::{convert_rows, join, read, write_rows, Party, Power, Ref, Refusal, Rule, Trigger};
use tergyosul::{ANSWER_WORDS, ROWS_LEAST_BYTES, ROWS_MOST_BYTES, TOKEN_WORDS};

const SHEET: &[u8] = b"primary,0\nadapter,0\nadapter,1\nadapter,7\nparty,7,3\nlamp,1,7,Till\nlamp,2,7,Far\nlamp,0,4,Aisle\nlamp,1,4,Aisle\n\
lamp,0,5,Twin\nlamp,0,6,Twin\nlamp,0,6,Left, cold\nlamp,0,6,Left\nlamp,0,6,Right\nlamp,0,8,K\xE4se\nlamp,7,9,Oven\nlamp,0,9,Oven\n\
group,0,2,Hall\ngroup,0,3,Hall, cold\ndevice,1,3,Gate\n";
const ZERO: Party = Party { number: 0, primary: 0 };
const BAKERY: Party = Party { number: 3, primary: 7 };

fn converted(rows: &[u8]) -> Rule {
    convert_rows(rows, SHEET, ZERO).unwrap_or_else(|refusal| panic!("{}: {refusal}", rows.escape_ascii()))
}

/// The number, the row and the detail with which rows are refused.
fn refused(rows: &[u8], party: Party) -> (u32, u32, u32) {
    let Refusal { number, line, column, detail } = convert_rows(rows, SHEET, party).unwrap_err();
    assert_eq!(column, 0);
    (number, line, detail)
}

/// The number and the entry with which lists are refused.
fn not_written(lists: &[u32], party: Party) -> (u32, u32) {
    let mut out = [9; ROWS_LEAST_BYTES];
    let Refusal { number, line, column, detail } = write_rows(lists, SHEET, party, &mut out).unwrap_err();
    assert_eq!((column, detail), (0, 0));
    assert!(out.iter().all(|&byte| byte == 9));
    (number, line)
}

/// What each word says is what the same words of a rule say, and every row names its adapter when it comes back.
#[test]
fn every_kind_and_word() {
    for (row, text, back) in [
        ("lamp,Till,,on\n", "when lamp(\"Till\") turns on", "lamp,Till,1,on\n"),
        ("lamp,Aisle,0,off\n", "when lamp(\"Aisle\", adapter=0) turns off", "lamp,Aisle,0,off\n"),
        ("group,Hall,0,any_on\n", "when group(\"Hall\") becomes any_on", "group,Hall,0,any_on\n"),
        ("group,Hall,,all_off\n", "when group(2) becomes all_off", "group,Hall,0,all_off\n"),
        ("device,Gate,,offline\n", "when device(\"Gate\") goes offline", "device,Gate,1,offline\n"),
        ("device,Gate,1,online\n", "when device(3, adapter=1) comes online", "device,Gate,1,online\n"),
    ] {
        let rule = converted(row.as_bytes());
        assert_eq!(rule, read(text.as_bytes(), SHEET, ZERO, &mut [0; TOKEN_WORDS]).expect(text), "{row}");
        assert_eq!(rule.to_rows(SHEET, ZERO).expect(row).as_bytes(), back.as_bytes());
        assert_eq!(converted(back.as_bytes()), rule);
    }
}

/// The rows' order is kept, and equal rows are equal triggers.
#[test]
fn four_rows() {
    let rows = b"lamp,Till,1,off\nlamp,Till,1,on\ngroup,Hall,0,any_on\nlamp,Till,1,off\n";
    let rule = converted(rows);
    let till = Ref { adapter: 1, number: 7 };
    assert_eq!((rule.triggers().len(), rule.conditions()), (4, &[][..]));
    assert_eq!([rule.triggers()[0], rule.triggers()[3]], [Trigger::LampTurns(till, Power::Off); 2]);
    let back = rule.to_rows(SHEET, ZERO).expect("they are rows");
    assert_eq!(&*back, rows);
    assert_eq!(format!("{:?}", converted(b"lamp,Till,1,on\n").to_rows(SHEET, ZERO)), "Ok(Rows(\"lamp,Till,1,on\\n\"))");
    let text = rule.written(b"", SHEET, ZERO).expect("it is a rule");
    assert!(text.starts_with("when lamp ( 7 , adapter = 1 ) turns off when"));
}

/// Each hirer's rows are its own: the same row finds another lamp.
#[test]
fn two_hirers() {
    let row = b"lamp,Oven,,on\n";
    assert_eq!(converted(row).triggers(), [Trigger::LampTurns(Ref { adapter: 0, number: 9 }, Power::On)]);
    let theirs = convert_rows(row, SHEET, BAKERY).expect("the bakery has an oven");
    assert_eq!(theirs.triggers(), [Trigger::LampTurns(Ref { adapter: 7, number: 9 }, Power::On)]);
    assert_eq!(theirs.to_rows(SHEET, BAKERY).expect("it is a row").as_bytes(), b"lamp,Oven,7,on\n");
    assert_eq!(theirs.to_rows(SHEET, ZERO).map_err(|r| (r.number, r.line)), Err((62, 1)));
    assert_eq!(refused(b"lamp,Oven,0,on\n", BAKERY), (25, 1, 0));
    assert_eq!(refused(b"lamp,Till,,on\n", BAKERY), (31, 1, 0));
}

/// All rows are judged before any name is looked up.
#[test]
fn malformed_rows() {
    for (rows, row) in [
        (&b""[..], 0),
        (b"\n", 1),
        (b"lamp,Till,,on", 1),
        (b"lamp,Till,,on\n\n", 2),
        (b"lamp,Till,,on\r\n", 1),
        (b"lamp,Till,on\n", 1),
        (b"lamp,Till,,on,\n", 1),
        (b"lamp,Left, cold,0,on\n", 1),
        (b"lamp,,,on\n", 1),
        (b"lamp,\"Till\",,on\n", 1),
        (b"lamp,Till,256,on\n", 1),
        (b"lamp,Till,01,on\n", 1),
        (b"lamp,Till,,ON\n", 1),
        (b"group,Hall,,on\n", 1),
        (b"input,Door,,on\n", 1),
        (b"lamp,Nowhere,2,on\nlamp\n", 2),
        (b"lamp,Till,,on\nlamp,Till,,on\nlamp,Till,,on\nlamp,Till,,on\n?", 5),
        (b"lamp,Till,,on\nlamp,Till,,on\nlamp,Till,,on\nlamp\nlamp,Till,,on\n", 4),
    ] {
        assert_eq!(refused(rows, ZERO), (60, row, 0), "{}", rows.escape_ascii());
    }
    let long = |length| [b"lamp,", &[b'n'; 49][..length], b",,on\n"].concat();
    assert_eq!((refused(&long(48), ZERO), refused(&long(49), ZERO)), ((31, 1, 0), (60, 1, 0)));
}

/// Names are looked up row by row, as those of a rule.
#[test]
fn names_that_are_not_found() {
    for (rows, expected) in [
        (&b"lamp,Till,2,on\n"[..], (25, 1, 0)),
        (b"lamp,Oven,7,on\n", (25, 1, 0)),
        (b"group,Till,,any_on\n", (31, 1, 0)),
        (b"lamp,Till,,on\nlamp,till,,on\nlamp,Till,2,on\n", (31, 2, 0)),
        (b"lamp,Till,1,on\nlamp,Till,0,on\n", (32, 2, 1)),
        (b"lamp,Twin,,on\n", (33, 1, 2)),
        (b"lamp,Aisle,,on\n", (34, 1, 2)),
    ] {
        assert_eq!(refused(rows, ZERO), expected, "{}", rows.escape_ascii());
    }
    assert_eq!(refused(b"", Party { number: 3, primary: 0 }), (53, 0, 0));
    assert_eq!(convert_rows(b"", b"", BAKERY).map_err(|r| (r.number, r.line)), Err((3, 1)));
}

/// The first of the sheet's names that picks it again, with its adapter, and has no comma. It need not be UTF-8.
#[test]
fn the_name_that_is_written() {
    let back = |rows: &[u8]| converted(rows).to_rows(SHEET, ZERO).map(|rows| rows.to_vec()).map_err(|r| (r.number, r.line));
    assert_eq!(back(b"lamp,Right,,on\n"), Ok(b"lamp,Left,0,on\n".to_vec()));
    assert_eq!(back(b"lamp,K\xE4se,,on\n"), Ok(b"lamp,K\xE4se,0,on\n".to_vec()));
    // A name may stand on an adapter that is not listed, which no row can name.
    assert_eq!(back(b"lamp,Till,,on\nlamp,Far,,on\n"), Err((62, 2)));
}

/// Rules that are read: 61 for what no row says, before 62 for what the sheet does not name.
#[test]
fn rules_as_rows() {
    let rule = |text: &str| read(text.as_bytes(), SHEET, ZERO, &mut [0; TOKEN_WORDS]).expect(text);
    let back = |text| rule(text).to_rows(SHEET, ZERO).map(|rows| rows.to_vec()).map_err(|r| (r.number, r.line));
    assert_eq!(back("when lamp(\"Till\") turns on when device(3, adapter=1) goes offline"), Ok(b"lamp,Till,1,on\ndevice,Gate,1,offline\n".to_vec()));
    assert_eq!(back("when lamp(1) turns on"), Err((62, 1)));
    assert_eq!(back("when group(3) becomes any_on"), Err((62, 1)));
    assert_eq!(back("when lamp(1) turns on when http trigger"), Err((61, 2)));
    assert_eq!(back("when lamp(1) turns on if sun is up"), Err((61, 2)));
    assert_eq!(back("when lamp(7, adapter=1).level crosses above 5 if sun is up"), Err((61, 1)));
    let [first, second] = [&b"when lamp(\"Till\") turns on"[..], b"when group(2) becomes any_on"];
    let joined = join(first, second, SHEET, ZERO, &mut [0; TOKEN_WORDS], &mut [0; TOKEN_WORDS]).expect("they are joined");
    assert_eq!(joined.to_rows(SHEET, ZERO).expect("they are rows").as_bytes(), b"lamp,Till,1,on\ngroup,Hall,0,any_on\n");
}

/// Words that are changed: what is refused, and what is not looked at.
#[test]
fn words_of_lists() {
    let lists: [u32; ANSWER_WORDS] = *converted(b"lamp,Till,,on\ngroup,Hall,,any_on\n").words();
    for (changes, expected) in [
        (&[(4, 0)][..], (61, 0)),
        (&[(4, 5)], (61, 0)),
        (&[(4, u32::MAX)], (61, 0)),
        (&[(4, 3)], (61, 3)),
        (&[(5, 1)], (61, 3)),
        (&[(5, 5)], (61, 3)),
        (&[(5, u32::MAX)], (61, 3)),
        (&[(12, 22)], (61, 1)),
        (&[(15, 3)], (61, 1)),
        (&[(16, 1)], (61, 1)),
        (&[(13, 2)], (62, 1)),
        (&[(13, 7)], (62, 1)),
        (&[(13, 256)], (62, 1)),
        (&[(14, 64)], (62, 1)),
        (&[(13, 256), (27, 3)], (61, 2)),
        (&[(13, 256), (5, 1)], (61, 3)),
    ] {
        let mut changed = lists;
        changes.iter().for_each(|&(at, word)| changed[at] = word);
        assert_eq!(not_written(&changed, ZERO), expected, "{changes:?}");
    }
    let mut changed = lists;
    changed[36..].fill(99);
    [0, 1, 2, 3, 6, 7, 8, 9, 10, 11].iter().for_each(|&at| changed[at] = 77);
    let mut out = [9; ROWS_LEAST_BYTES];
    assert_eq!(write_rows(&changed, SHEET, ZERO, &mut out), Ok(&b"lamp,Till,1,on\ngroup,Hall,0,any_on\n"[..]));
    let other = Party { number: 3, primary: 0 };
    assert_eq!(not_written(&lists, other), (53, 0));
    assert_eq!(write_rows(&lists, b"", other, &mut []).map_err(|r| (r.number, r.line)), Err((3, 1)));
    assert_eq!(write_rows(&lists, SHEET, ZERO, &mut [9; ROWS_LEAST_BYTES - 1]).map_err(|r| r.number), Err(54));
}

/// Four rows of the longest kind.
#[test]
fn the_longest_rows() {
    let name = "n".repeat(48);
    let sheet = format!("primary,0\nadapter,255\ndevice,255,63,{name}\n");
    let rows = format!("device,{name},255,offline\n").repeat(4);
    let rule = convert_rows(rows.as_bytes(), sheet.as_bytes(), ZERO).expect("they are well formed");
    assert_eq!(rule.to_rows(sheet.as_bytes(), ZERO).expect("they are rows").as_bytes(), rows.as_bytes());
    assert_eq!(rows.len(), ROWS_MOST_BYTES);
}
