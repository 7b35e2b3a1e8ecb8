//! Document 02 §7, writing a section out.

use cases::{Case, Flat, Join, Row, Writing, ENTRY, LEAST_WORDS};

/// Adapters 0, 1 and 255 are listed, 2 is not, 7 is party 3's and listed, 9 is party 3's and not listed.
const SHEET: &str = "primary,0\nadapter,0\nadapter,1\nadapter,255\nadapter,7\nparty,7,3\nparty,9,3\nlamp,1,7,Till\n";
/// `Aisle` stands at 1 and ends the first text, `Büro` stands at 0 in the second, and `v` at 6.
const TEXTS: [&str; 2] = ["#Aisle", "B\u{fc}ro:v"];
const NONE: u32 = u32::MAX;
/// -5 as two words.
const MINUS_5: [u32; 2] = [u32::MAX - 4, u32::MAX];

fn row(from: u32, words: &[u32]) -> Row {
    Row::new(from, words)
}

fn writing(triggers: &[Row], conditions: &[Row]) -> Writing {
    let texts = TEXTS.map(|text| text.as_bytes().to_vec());
    Writing { id: 1, size: 4_096, party: 0, primary: 0, texts, sheet: SHEET.into(), lists: Flat::new(triggers, conditions) }
}

/// The last line of an answer, with the text in the place of its length and hex.
fn says_of(writing: &Writing) -> String {
    let answer = second::write(writing);
    let said = answer.strip_prefix("case 1\nbuffer kept\n").and_then(|said| said.strip_suffix('\n')).unwrap_or_else(|| panic!("{answer}"));
    text_of(said).map_or(said.to_string(), |text| String::from_utf8(text).unwrap())
}

fn text_of(said: &str) -> Option<Vec<u8>> {
    let (length, hex) = said.strip_prefix("written ")?.split_once(" x")?;
    let bytes: Vec<u8> = (0..hex.len()).step_by(2).map(|at| u8::from_str_radix(&hex[at..at + 2], 16).unwrap()).collect();
    assert_eq!(length, bytes.len().to_string());
    Some(bytes)
}

/// What is written for one trigger, behind `when`, or the refusal.
fn trigger(words: &[u32]) -> String {
    let said = says_of(&writing(&[row(1, words)], &[]));
    said.strip_prefix("when ").map(String::from).unwrap_or(said)
}

fn condition(words: &[u32]) -> String {
    let said = says_of(&writing(&[row(1, &[20])], &[row(2, words)]));
    said.strip_prefix("when http trigger if ").map(String::from).unwrap_or(said)
}

const HTTP: &[u32] = &[20];
const BAD: &[u32] = &[22];
/// On adapter 2, which is not listed.
const FAR: &[u32] = &[10, 2, 5, 1];
const FAR_IF: &[u32] = &[3, 2, 5, 1];

#[test]
fn p68_the_order_of_the_refusals() {
    let all_wrong = Writing { size: 0, primary: 7, sheet: b"primary,0\n\n".to_vec(), ..writing(&[], &[]) };
    assert_eq!(says_of(&all_wrong), "refused 3 2 0 0");
    assert_eq!(says_of(&Writing { sheet: SHEET.into(), ..all_wrong.clone() }), "refused 53 0 0 0");
    assert_eq!(says_of(&Writing { sheet: SHEET.into(), primary: 0, ..all_wrong.clone() }), "refused 54 0 0 0");
    assert_eq!(says_of(&Writing { sheet: SHEET.into(), primary: 0, size: 4_095, ..all_wrong.clone() }), "refused 54 0 0 0");
    assert_eq!(says_of(&Writing { sheet: SHEET.into(), primary: 0, size: 4_096, ..all_wrong }), "refused 55 0 0 0");
    let says = |triggers: &[&[u32]], conditions: &[&[u32]]| {
        let rows = |list: &[&[u32]]| list.iter().map(|words| row(1, words)).collect::<Vec<_>>();
        says_of(&writing(&rows(triggers), &rows(conditions)))
    };
    assert_eq!(says(&[FAR, FAR, BAD, BAD], &[BAD, FAR_IF]), "refused 55 3 0 0");
    assert_eq!(says(&[FAR, FAR, FAR, FAR], &[BAD]), "refused 55 5 0 0");
    assert_eq!(says(&[HTTP, HTTP], &[&[14], BAD, BAD]), "refused 55 4 0 0");
    assert_eq!(says(&[HTTP, FAR], &[FAR_IF]), "refused 56 2 0 0");
    assert_eq!(says(&[HTTP, HTTP], &[&[14], FAR_IF, FAR_IF]), "refused 56 4 0 0");
    assert_eq!(says(&[HTTP; 4], &[&[14], &[14], &[14], FAR_IF]), "refused 56 8 0 0");
    assert_eq!(says(&[HTTP], &[FAR_IF]), "refused 56 2 0 0");
}

#[test]
fn p69_counts() {
    let with = |counts: [u32; 2]| {
        let mut writing = writing(&[row(1, HTTP); 4], &[row(1, &[14]); 4]);
        writing.lists.counts = counts;
        says_of(&writing)
    };
    for counts in [[0, 0], [5, 0], [1, 5], [NONE, 0], [1, NONE], [0, 4], [0x1_0000, 0], [1, 0x8000_0000]] {
        assert_eq!(with(counts), "refused 55 0 0 0", "{counts:?}");
    }
    assert_eq!(with([1, 0]), "when http trigger");
    assert_eq!(with([4, 4]), "when http trigger ".repeat(4) + "if controller is active" + &" and controller is active".repeat(3));
    // Rows past a count are not looked at.
    let mut past = writing(&[row(1, HTTP)], &[row(1, &[14])]);
    past.lists.triggers[1..].fill(Row { from: 9, words: [NONE; ENTRY] });
    past.lists.conditions[1..].fill(Row { from: 0, words: [77; ENTRY] });
    assert_eq!(says_of(&past), "when http trigger if controller is active");
}

#[test]
fn p70_one_space_between_tokens() {
    assert_eq!(trigger(&[10, 1, 5, 1]), "lamp ( 5 , adapter = 1 ) turns on");
    let value = [&[4, 0, 1, 1, 1, 0, 0, 0, 0][..], &MINUS_5].concat();
    assert_eq!(condition(&value), "lamp ( 1 ) . level == - 5");
    assert_eq!(condition(&[1, 1, 425, 0, 2, 2, 300_000]), "time in 07:05 .. sunset + 300000ms");
    assert_eq!(trigger(&[16, 1, 5]), "timer ( \"Aisle\" ) fires");
}

#[test]
fn every_form() {
    for (words, wanted) in [
        (&[1, 1, 0, 5, 6, 1, 0][..], "input ( dev = 5 , inst = 6 ) is press"),
        (&[1, 1, 255, 63, 31, 12, 0], "input ( dev = 63 , inst = 31 , adapter = 255 ) is any_event"),
        (&[1, 2, 1, 5, 4, 13, 7], "input ( group = 5 , type = 4 , adapter = 1 ) is event ( data = 7 )"),
        (&[1, 2, 0, 31, NONE, 13, 1_023], "input ( group = 31 ) is event ( data = 1023 )"),
        (&[2, 0, 1, 2, 1], "input ( dev = 1 , inst = 2 ) becomes occupied"),
        (&[2, 1, 1, 2, 2], "input ( dev = 1 , inst = 2 , adapter = 1 ) becomes vacant"),
        (&[3, 0, 1, 2, 1, 0], "input ( dev = 1 , inst = 2 ) . light crosses above 0"),
        (&[3, 0, 1, 2, 2, 1_023], "input ( dev = 1 , inst = 2 ) . light crosses below 1023"),
        (&[4, 1, 1, 2], "input ( dev = 1 , inst = 2 , adapter = 1 ) . position changes"), (&[5, 0, 5], "input device ( dev = 5 ) power cycled"),
        (&[6, 1, 63], "input device ( dev = 63 , adapter = 1 ) manual config changed"), (&[7, 0, 127], "at 00:00"),
        (&[7, 1_439, 64], "at 23:59 on sun"), (&[8, 1, 0, 127], "at sunrise"), (&[8, 2, 1, 3], "at sunset + 1ms on mon , tue"),
        (&[8, 1, NONE, 126], "at sunrise - 1ms on tue , wed , thu , fri , sat , sun"), (&[9, 1_000], "every 1000ms"),
        (&[10, 0, 0, 2], "lamp ( 0 ) turns off"), (&[11, 0, 63, 1, 254], "lamp ( 63 ) . level crosses above 254"),
        (&[12, 1, 15, 1], "group ( 15 , adapter = 1 ) becomes any_on"), (&[12, 0, 0, 2], "group ( 0 ) becomes all_off"),
        (&[13, 0, 15], "scene ( 15 ) recalled"), (&[13, 1, 0], "scene ( 0 , adapter = 1 ) recalled"), (&[14, 0, 8, 1], "device ( 8 ) goes offline"),
        (&[14, 1, 8, 2], "device ( 8 , adapter = 1 ) comes online"), (&[15, 1, 1, 5, 1], "hcl override starts for lamp ( 5 , adapter = 1 )"),
        (&[15, 2, 0, 5, 2], "hcl override clears for group ( 5 )"), (&[15, 3, 0, 0, 1], "hcl override starts for broadcast"),
        (&[16, 1, 5], "timer ( \"Aisle\" ) fires"), (&[17], "controller starts"), (&[18], "controller becomes active"),
        (&[19, 1, 5], "rule ( \"Aisle\" ) fails"), (&[20], "http trigger"), (&[21, 1, 5], "mqtt \"Aisle\""),
    ] {
        assert_eq!(trigger(words), wanted);
    }
    for (words, wanted) in [
        (&[2, 1][..], "sun is up"), (&[2, 2], "sun is down"), (&[3, 1, 5, 2], "lamp ( 5 , adapter = 1 ) is off"),
        (&[4, 0, 5, 2, 1, 0, 0, 0, 0, 5], "lamp ( 5 ) . level != 5"), (&[5, 0, 5, 3, 2, 1, 0, 6, 0], "lamp ( 5 ) . cct >= lamp ( 6 ) . level"),
        (&[6, 0, 15, 2], "group ( 15 ) all_off"), (&[7, 0, 1, 2, 2], "input ( dev = 1 , inst = 2 ) is vacant"),
        (&[8, 0, 1, 2, 1, 3, 9, 1, 3, 4, 0, 0], "input ( dev = 1 , inst = 2 ) . light above input ( dev = 3 , inst = 4 , adapter = 1 ) . light + 0"),
        (&[9, 3, 0, 0, 2], "hcl is overridden for broadcast"), (&[9, 2, 1, 3, 1], "hcl is enabled for group ( 3 , adapter = 1 )"),
        (&[10, 0, 63], "device ( 63 ) is online"), (&[11, 0, 5], "rule ( \"B\u{fc}ro\" ) is enabled"),
        (&[12, 0, 5, 0], "last_fired ( \"B\u{fc}ro\" ) older than 0ms"), (&[13, 0, 5], "timer ( \"B\u{fc}ro\" ) is running"),
        (&[14], "controller is active"), (&[15, 6, 1, 4, 4, 7, 0], "var ( \"v\" ) <= \"\""),
        (&[15, 6, 1, 5, 4, 0, 5], "var ( \"v\" ) > \"B\u{fc}ro\""), (&[15, 6, 1, 6, 2, 23, 6, 1, 0, 0, 0], "var ( \"v\" ) < var ( \"v\" )"),
        (&[16, 127], "day in mon , tue , wed , thu , fri , sat , sun"), (&[16, 4], "day in wed"),
        (&[1, 2, 1, NONE, 1, 1_439, 0], "time in sunrise - 1ms .. 23:59"),
    ] {
        assert_eq!(condition(words), wanted);
    }
    let readings = [
        "lamp ( 5 ) . level", "lamp ( 5 ) . cct", "lamp ( 5 ) . is_on", "lamp ( 5 ) . last_level", "group ( 5 ) . any_on", "group ( 5 ) . all_off",
        "group ( 5 ) . member_count", "input ( dev = 5 , inst = 6 ) . occupied", "input ( dev = 5 , inst = 6 ) . light",
        "input ( dev = 5 , inst = 6 ) . position", "input ( dev = 5 , inst = 6 ) . last_event_age", "time . now", "time . hour", "time . minute",
        "time . weekday", "sun . rise", "sun . set", "sun . is_up", "event . value", "event . device", "event . instance", "event . option",
        "var ( \"B\u{fc}ro\" )",
    ];
    for (code, reading) in (1..).zip(readings) {
        let beside: [u32; 3] = match code {
            1..=7 => [0, 5, 0],
            8..=11 => [0, 5, 6],
            23 => [0, 5, 0],
            _ => [0; 3],
        };
        let words = |kind: u32, number: [u32; 2]| [&[15, 6, 1, 1, kind, code][..], &beside, &number].concat();
        assert_eq!(condition(&words(2, [0, 0])), format!("var ( \"v\" ) == {reading}"));
        assert_eq!(condition(&words(3, MINUS_5)), format!("var ( \"v\" ) == {reading} - 5"));
    }
}

#[test]
fn p72_durations() {
    for (milliseconds, wanted) in [
        (1_000, "1000ms"), (1_000_000_000, "1000000000ms"), (1_000_000_001, "1000000.001s"), (NONE, "4294967.295s"), (1_000_001_000, "1000001.000s"),
        (1_000_010_020, "1000010.020s"),
    ] {
        assert_eq!(trigger(&[9, milliseconds]), format!("every {wanted}"));
        assert_eq!(condition(&[12, 0, 5, milliseconds]), format!("last_fired ( \"B\u{fc}ro\" ) older than {wanted}"));
    }
    for (offset, wanted) in [
        (0, ""), (1_000_000_000, " + 1000000000ms"), (2_147_483_647, " + 2147483.647s"), (0x8000_0000, " - 2147483.648s"),
        (3_294_967_296, " - 1000000000ms"), (3_294_967_295, " - 1000000.001s"),
    ] {
        assert_eq!(trigger(&[8, 2, offset, 127]), format!("at sunset{wanted}"));
    }
}

#[test]
fn p74_literals_and_added_numbers() {
    let value = |kind: u32, number: i64| {
        let bits = number.cast_unsigned();
        let reading: &[u32] = if kind == 1 { &[0, 0, 0, 0] } else { &[12, 0, 0, 0] };
        condition(&[&[4, 0, 1, 1, kind][..], reading, &[bits as u32, (bits >> 32) as u32]].concat()).replace("lamp ( 1 ) . level == ", "")
    };
    for (number, literal, added) in [
        (0, "0", "+ 0"), (1, "1", "+ 1"), (-1, "- 1", "- 1"), (1_000_000_000, "1000000000", "+ 1000000000"),
        (-1_000_000_000, "- 1000000000", "- 1000000000"),
    ] {
        assert_eq!((value(1, number), value(3, number)), (literal.to_string(), format!("time . now {added}")));
    }
    for number in [1_000_000_001, -1_000_000_001, 1 << 32, -(1 << 32), (1 << 32) + 5, i64::MIN, i64::MAX] {
        assert_eq!((value(1, number), value(3, number)), ("refused 55 2 0 0".into(), "refused 55 2 0 0".into()), "{number}");
    }
    assert_eq!(value(2, 0), "time . now");
    assert_eq!(value(2, 1), "refused 55 2 0 0");
}

#[test]
fn p75_adapters() {
    let with = |party: u8, primary: u8, words: &[u32]| says_of(&Writing { party, primary, ..writing(&[row(1, words)], &[]) });
    assert_eq!(with(0, 2, &[10, 2, 5, 1]), "when lamp ( 5 ) turns on");
    assert_eq!(with(0, 1, &[10, 0, 5, 1]), "when lamp ( 5 , adapter = 0 ) turns on");
    assert_eq!(with(0, 0, &[10, 2, 5, 1]), "refused 56 1 0 0");
    assert_eq!(with(0, 0, &[10, 7, 5, 1]), "refused 56 1 0 0");
    assert_eq!(with(3, 9, &[10, 7, 5, 1]), "when lamp ( 5 , adapter = 7 ) turns on");
    assert_eq!(with(3, 7, &[10, 9, 5, 1]), "refused 56 1 0 0");
    assert_eq!(with(3, 7, &[10, 1, 5, 1]), "refused 56 1 0 0");
    assert_eq!(with(0, 0, &[10, 256, 5, 1]), "refused 55 1 0 0");
    for words in [
        &[1, 1, 2, 5, 6, 1, 0][..], &[1, 2, 2, 5, NONE, 1], &[2, 2, 1, 1, 1], &[3, 2, 1, 1, 1, 1], &[4, 2, 1, 1], &[5, 2, 1], &[6, 2, 1],
        &[11, 2, 1, 1, 1], &[12, 2, 1, 1], &[13, 2, 1], &[14, 2, 1, 1], &[15, 1, 2, 1, 1], &[15, 2, 2, 1, 1],
    ] {
        assert_eq!(trigger(words), "refused 56 1 0 0", "{words:?}");
    }
    for words in [
        &[3, 2, 5, 1][..], &[4, 2, 5, 1, 1, 0, 0, 0, 0, 5], &[4, 0, 5, 1, 2, 1, 2, 5], &[5, 0, 5, 1, 3, 5, 2, 5], &[8, 0, 1, 1, 1, 2, 8, 2, 1, 1],
        &[6, 2, 1, 1], &[7, 2, 1, 1, 1], &[8, 2, 1, 1, 1, 1], &[9, 1, 2, 1, 1], &[10, 2, 1], &[15, 6, 1, 1, 2, 11, 2, 3, 4],
    ] {
        assert_eq!(condition(words), "refused 56 2 0 0", "{words:?}");
    }
}

#[test]
fn p76_broadcast() {
    let with = |primary: u8, adapter: u32| says_of(&Writing { primary, ..writing(&[row(1, &[15, 3, adapter, 0, 1])], &[]) });
    assert_eq!([with(0, 0), with(2, 2)], ["when hcl override starts for broadcast"; 2]);
    assert_eq!([with(0, 1), with(0, 2), with(2, 0)], ["refused 56 1 0 0"; 3]);
    assert_eq!((condition(&[9, 3, 1, 0, 1]), condition(&[9, 3, 256, 0, 1])), ("refused 56 2 0 0".into(), "refused 55 2 0 0".into()));
}

#[test]
fn p77_bounds() {
    for words in [
        &[0][..], &[22], &[NONE], &[1, 0, 0, 5, 6, 1], &[1, 3, 0, 5, 6, 1], &[1, 1, 256, 5, 6, 1], &[1, 1, 0, 64, 6, 1], &[1, 1, 0, 5, 32, 1],
        &[1, 1, 0, 5, NONE, 1], &[1, 2, 0, 32, NONE, 1], &[1, 2, 0, 5, 32, 1], &[1, 2, 0, 5, NONE - 1, 1], &[1, 1, 0, 5, 6, 0], &[1, 1, 0, 5, 6, 14],
        &[1, 1, 0, 5, 6, 13, 1_024], &[2, 0, 1, 2, 0], &[2, 0, 1, 2, 3], &[2, 0, 64, 2, 1], &[2, 0, 1, 32, 1], &[3, 0, 1, 2, 0, 5],
        &[3, 0, 1, 2, 3, 5], &[3, 0, 1, 2, 1, 1_024], &[4, 256, 1, 2], &[4, 0, 64, 2], &[4, 0, 1, 32], &[5, 0, 64], &[5, 256, 5], &[6, 0, 64],
        &[6, 256, 5], &[7, 1_440, 127], &[7, 0, 0], &[7, 0, 128], &[8, 0, 0, 127], &[8, 3, 0, 127], &[8, 1, 0, 0], &[8, 1, 0, 128], &[9, 999],
        &[9, 0], &[10, 0, 64, 1], &[10, 0, 5, 0], &[10, 0, 5, 3], &[11, 0, 64, 1, 5], &[11, 0, 5, 3, 5], &[11, 0, 5, 1, 255], &[12, 0, 16, 1],
        &[12, 0, 5, 3], &[13, 256, 5], &[13, 0, 16], &[14, 0, 64, 1], &[14, 0, 5, 3], &[14, 0, 5, 0], &[15, 0, 0, 5, 1], &[15, 4, 0, 5, 1],
        &[15, 1, 0, 64, 1], &[15, 2, 0, 16, 1], &[15, 1, 0, 5, 3],
    ] {
        assert_eq!(trigger(words), "refused 55 1 0 0", "{words:?}");
    }
    for words in [
        &[0][..], &[17], &[NONE], &[1, 0, 5, 0, 1, 5, 0], &[1, 1, 1_440, 0, 1, 5, 0], &[1, 1, 5, 0, 3, 5, 0], &[1, 2, 3, 5, 1, 5, 0],
        &[1, 1, 5, 0, 1, 1_440, 0], &[2, 0], &[2, 3], &[3, 0, 64, 1], &[3, 0, 5, 3], &[4, 0, 64, 1, 1], &[4, 0, 5, 0, 1], &[4, 0, 5, 7, 1],
        &[4, 0, 5, 1, 0], &[4, 0, 5, 1, 4], &[5, 256, 5, 1, 1], &[5, 0, 5, 1, 4, 0, 1], &[4, 0, 5, 1, 2, 0], &[4, 0, 5, 1, 2, 24],
        &[4, 0, 5, 1, 2, 1, 256, 5], &[4, 0, 5, 1, 2, 1, 0, 64], &[4, 0, 5, 1, 2, 5, 0, 16], &[4, 0, 5, 1, 2, 8, 0, 64, 1],
        &[4, 0, 5, 1, 2, 8, 0, 5, 32], &[6, 0, 16, 1], &[6, 0, 5, 3], &[7, 0, 64, 1, 1], &[7, 0, 5, 32, 1], &[7, 0, 5, 1, 3], &[8, 0, 5, 1, 3, 1],
        &[8, 0, 5, 32, 1, 1], &[9, 4, 0, 5, 1], &[9, 1, 0, 64, 1], &[9, 2, 0, 16, 1], &[9, 1, 0, 5, 3], &[10, 0, 64], &[10, 256, 5],
        &[15, 6, 1, 0, 1], &[15, 6, 1, 7, 1], &[15, 6, 1, 1, 5], &[16, 0], &[16, 128],
    ] {
        assert_eq!(condition(words), "refused 55 2 0 0", "{words:?}");
    }
}

#[test]
fn p78_words_that_a_row_does_not_name() {
    let triggers: [&[u32]; 23] = [
        &[1, 1, 0, 5, 6, 1, 0], &[1, 1, 0, 5, 6, 13, 1], &[1, 2, 0, 5, NONE, 1, 0], &[2, 0, 1, 2, 1], &[3, 0, 1, 2, 1, 0], &[4, 0, 1, 2], &[5, 0, 1],
        &[6, 0, 1], &[7, 0, 127], &[8, 1, 0, 127], &[9, 1_000], &[10, 0, 0, 1], &[11, 0, 0, 1, 0], &[12, 0, 0, 1], &[13, 0, 0], &[14, 0, 0, 1],
        &[15, 1, 0, 0, 1], &[16, 1, 5], &[17], &[18], &[19, 1, 5], &[20], &[21, 1, 5],
    ];
    let conditions: [&[u32]; 20] = [
        &[1, 1, 0, 0, 1, 0, 0], &[1, 2, 1, 0, 2, 1, 0], &[2, 1], &[3, 0, 0, 1], &[4, 0, 0, 1, 1, 0, 0, 0, 0, 0, 0],
        &[5, 0, 0, 1, 2, 12, 0, 0, 0, 0, 0], &[5, 0, 0, 1, 3, 1, 0, 0, 0, 0, 0], &[6, 0, 0, 1], &[7, 0, 0, 0, 1],
        &[8, 0, 0, 0, 1, 1, 0, 0, 0, 0, 0, 0], &[9, 1, 0, 0, 1], &[10, 0, 0], &[11, 0, 5], &[12, 0, 5, 0], &[13, 0, 5], &[14],
        &[15, 6, 1, 1, 1, 0, 0, 0, 0, 0, 0], &[15, 6, 1, 1, 2, 23, 6, 1, 0, 0, 0], &[15, 6, 1, 1, 4, 6, 1], &[16, 1],
    ];
    let with_one_more = |rows: &[&[u32]], says: fn(&[u32]) -> String, refused: &str| {
        for words in rows {
            assert!(!says(words).starts_with("refused"), "{words:?}");
            for at in words.len()..ENTRY {
                let mut more = words.to_vec();
                more.resize(at, 0);
                more.push(1);
                assert_eq!(says(&more), refused, "{more:?}");
            }
        }
    };
    with_one_more(&triggers, trigger, "refused 55 1 0 0");
    with_one_more(&conditions, condition, "refused 55 2 0 0");
    for words in [&[1, 1, 0, 5, 6, 1, 1][..], &[1, 2, 0, 5, NONE, 12, 1], &[15, 3, 0, 1, 1]] {
        assert_eq!(trigger(words), "refused 55 1 0 0", "{words:?}");
    }
    for words in [
        &[1, 1, 5, 1, 1, 5, 0][..], &[1, 1, 5, 0, 1, 5, 1], &[9, 3, 0, 1, 1], &[4, 0, 5, 1, 1, 1], &[4, 0, 5, 1, 1, 0, 1], &[4, 0, 5, 1, 1, 0, 0, 1],
        &[4, 0, 5, 1, 1, 0, 0, 0, 1], &[4, 0, 5, 1, 2, 12, 1], &[4, 0, 5, 1, 2, 12, 0, 1], &[4, 0, 5, 1, 2, 12, 0, 0, 1],
        &[4, 0, 5, 1, 2, 1, 0, 5, 1], &[4, 0, 5, 1, 2, 7, 0, 5, 1], &[4, 0, 5, 1, 2, 23, 0, 5, 1], &[4, 0, 5, 1, 2, 1, 0, 5, 0, 1],
        &[4, 0, 5, 1, 2, 1, 0, 5, 0, 0, 1], &[15, 6, 1, 1, 4, 6, 1, 1],
    ] {
        assert_eq!(condition(words), "refused 55 2 0 0", "{words:?}");
    }
}

#[test]
fn p79_from() {
    for (from, wanted) in [
        (0, "refused 55 1 0 0"), (1, "when controller starts"), (2, "when controller starts"), (3, "refused 55 1 0 0"), (NONE, "refused 55 1 0 0"),
    ] {
        assert_eq!(says_of(&writing(&[row(from, &[17])], &[])), wanted);
    }
    let both = writing(&[row(2, &[16, 0, 5]), row(1, &[16, 1, 5])], &[]);
    assert_eq!(says_of(&both), "when timer ( \"B\u{fc}ro\" ) fires when timer ( \"Aisle\" ) fires");
}

#[test]
fn p80_names_inside_their_text() {
    let timer = |from: u32, start: u32, length: u32| says_of(&writing(&[row(from, &[16, start, length])], &[]));
    assert_eq!((timer(1, 1, 5), timer(1, 0, 6)), ("when timer ( \"Aisle\" ) fires".into(), "when timer ( \"#Aisle\" ) fires".into()));
    for (from, start, length) in [
        (1, 1, 6), (1, 2, 5), (1, 6, 1), (1, 7, 0), (2, 6, 2), (1, NONE, 1), (1, 1, NONE), (1, NONE, NONE), (1, 5, NONE - 3), (1, 0, 0),
    ] {
        assert_eq!(timer(from, start, length), "refused 55 1 0 0", "{from} {start} {length}");
    }
    let text = |start: u32, length: u32| condition(&[15, 6, 1, 1, 4, start, length]);
    assert_eq!([text(0, 0), text(7, 0)], ["var ( \"v\" ) == \"\""; 2]);
    assert_eq!([text(8, 0), text(NONE, 0)], ["refused 55 2 0 0"; 2]);
}

/// The first text is `bytes`, and one row names all of it.
fn named(kind: u32, bytes: &[u8]) -> bool {
    let words: &[u32] = &[kind, 0, bytes.len() as u32];
    let writing = Writing { texts: [bytes.to_vec(), Vec::new()], ..writing(&[row(1, words)], &[]) };
    let said = second::write(&writing);
    assert!(said.contains("\nwritten ") || said.contains("\nrefused 55 1 0 0\n"), "{said}");
    said.contains("\nwritten ")
}

#[test]
fn p81_the_bytes_of_a_name() {
    let e = "\u{fc}".as_bytes();
    assert!(!named(16, &e[..1]) && !named(16, &e[1..]) && named(16, e));
    let long = |length: usize| vec![b'a'; length];
    assert!(named(16, &long(48)) && !named(16, &long(49)) && named(21, &long(48)) && !named(21, &long(49)) && !named(16, b"") && !named(21, b""));
    for bytes in [&b"a\"b"[..], b"\"", b"a\nb", b"\n", b"\xff", b"a\xed\xa0\x80"] {
        assert!(!named(16, bytes) && !named(19, bytes) && !named(21, bytes), "{}", bytes.escape_ascii());
    }
    for bytes in [&b"a\r"[..], b"\0", b"a#", b"+", "\u{fdd0}".as_bytes(), "\u{85}".as_bytes(), b"\t"] {
        assert!(named(16, bytes) && named(19, bytes) && !named(21, bytes), "{}", bytes.escape_ascii());
    }
    let text = |length: usize| {
        let texts = [Vec::new(), [&b"v"[..], &long(length)].concat()];
        second::write(&Writing { texts, ..writing(&[row(1, HTTP)], &[row(2, &[15, 0, 1, 1, 4, 1, length as u32])]) })
    };
    assert!(text(16).contains("written") && text(17).contains("refused 55 2 0 0"));
}

#[test]
fn p82_the_texts_are_not_judged() {
    let texts = [[&b"\xff\"\n"[..], &[b' '; 19_990], b"\xffAisle"].concat(), vec![0xff; 20_000]];
    let writing = Writing { texts, ..writing(&[row(1, &[16, 19_994, 5]), row(2, &[20])], &[]) };
    assert_eq!(says_of(&writing), "when timer ( \"Aisle\" ) fires when http trigger");
}

/// Four triggers and four conditions that are as long as they can be.
#[test]
fn p83_the_longest_text() {
    let triggers: [&[u32]; 4] = [&[8, 1, 0x8000_0000, 126], &[1, 1, 255, 63, 31, 6, 0], &[1, 2, 255, 31, 31, 13, 1_023], &[19, 0, 48]];
    let added = [&[3, 11, 255, 63, 31][..], &[3_294_967_296, NONE]].concat();
    let conditions = [[&[8, 255, 63, 31, 1][..], &added].concat(), [&[15, 0, 48, 1][..], &added].concat()];
    let length = |trigger: &[u32], condition: &[u32]| {
        let texts = [vec![b'a'; 48], vec![b'b'; 48]];
        let writing = Writing { texts, sheet: b"primary,0\nadapter,255\n".to_vec(), ..writing(&[row(1, trigger); 4], &[row(2, condition); 4]) };
        text_of(second::write(&writing).lines().last().unwrap()).unwrap().len()
    };
    let lengths = triggers.iter().flat_map(|trigger| conditions.iter().map(|condition| length(trigger, condition)));
    assert_eq!(lengths.max(), Some(886));
}

#[test]
fn the_size_of_the_buffer() {
    for (size, wanted) in [
        (0, "refused 54 0 0 0"), (4_095, "refused 54 0 0 0"), (4_096, "when http trigger"), (4_097, "when http trigger"),
        (8_192, "when http trigger"),
    ] {
        assert_eq!(says_of(&Writing { size, ..writing(&[row(1, HTTP)], &[]) }), wanted);
    }
}

/// What calls and joins read comes back from its rows, and from the text that is written for them.
#[test]
fn lists_are_laid_down_and_written_and_read_again() {
    let texts = [
        "when timer(\"a\") fires when lamp(\"Till\") turns on when at sunset - 5m on fri..mon when mqtt \"b\" if var(\"v\") == \"\" and var(\"v\") > var(\"w\") - 5",
        "when input(3, 4) is event(data=7) when input(group=3) is press if lamp(3, adapter=1).cct < group(2).member_count and time in 7:05..sunrise + 1h and day in mon..sun",
        "when hcl override clears for broadcast when scene(3, adapter=255) recalled if last_fired(\"x\") older than 1193h and input(1, 2).light above -1000000000",
    ];
    let empty = || writing(&[], &[]);
    for one in texts {
        let call = empty().call(one);
        let lists = second::flat_of_call(&call).unwrap();
        let first = Writing { texts: [one.into(), Vec::new()], lists, ..empty() };
        let said = second::write(&first);
        let text = text_of(said.lines().last().unwrap()).unwrap();
        assert_eq!(entries(&empty().call(text.clone())), entries(&call));
        let again = Writing { texts: [text.clone(), Vec::new()], lists: second::flat_of_call(&empty().call(text)).unwrap(), ..empty() };
        assert_eq!(second::write(&again), said);
    }
    let join = Join {
        id: 1, words: [LEAST_WORDS; 2], party: 0, primary: 0, sheet: SHEET.into(), topics: Vec::new(),
        texts: [
            b"when timer(\"a\") fires when http trigger if var(\"v\") == \"w\"".to_vec(),
            b"when http trigger when timer(\"b\") fires if var(\"v\") == \"w\"".to_vec(),
        ],
    };
    let writing = Writing { texts: join.texts.clone(), lists: second::flat_of_join(&join).unwrap(), ..empty() };
    assert_eq!(writing.lists.triggers.map(|row| row.from), [1, 1, 2, 0]);
    assert_eq!(says_of(&writing), "when timer ( \"a\" ) fires when http trigger when timer ( \"b\" ) fires if var ( \"v\" ) == \"w\"");
    assert_eq!((second::flat_of_call(&empty().call("when")), second::flat_of_join(&Join { primary: 7, ..join })), (None, None));
}

/// The lines of both lists.
fn entries(call: &Case) -> Vec<String> {
    second::answer(call).lines().filter(|line| ["accepted ", "T ", "C "].iter().any(|start| line.starts_with(start))).map(String::from).collect()
}
