//! §7: two lists to be written: every form, what is left out and what is not, the order of the refusals, and rows that no text gives, each for one
//! word, name, number or count.

use cases::{Flat, Row, Writing, ENTRY};

/// Adapters 0, 1 and 255 are listed and party 0's, and 2 is not listed. Adapters 7 and 9 are party 3's; 7 is listed.
const SHEET: &str = "primary,0\nadapter,0\nadapter,1\nadapter,255\nadapter,7\nparty,7,3\nparty,9,3\nlamp,1,7,Till\n";

/// Neither is UTF-8. In the first `Aisle` begins at 0, `v` at 6 between quotes, é at 8, LF is at 10, and from 12 on there are CR, NUL, + and #.
const FIRST: &[u8] = b"Aisle\"v\"\xc3\xa9\n\xff\r\0+#";
/// `Till` begins at 1, ` a ` at 5, and `on` at 8 ends the text.
const SECOND: &[u8] = b"\xffTill a on";
const END: u32 = SECOND.len() as u32;

const NONE: u32 = u32::MAX;
const SIGN: u32 = 1 << 31;
/// The low words of -1, -5 and -1,000,000,000.
const MINUS_1: u32 = u32::MAX;
const MINUS_5: u32 = u32::MAX - 4;
const LEAST: u32 = 3_294_967_296;
const MOST: u32 = 1_000_000_000;

/// FROM and the words of an entry; the words behind them are 0.
type Entry = (u32, &'static [u32]);

const HTTP: Entry = (1, &[20]);
const ACTIVE: Entry = (1, &[14]);
/// Entries that no text gives, and some on adapter 2.
const BAD: Entry = (1, &[22]);
const BAD_IF: Entry = (1, &[17]);
const FAR: Entry = (1, &[10, 2, 5, 1]);
const FAR_IF: Entry = (1, &[3, 2, 5, 1]);

/// Lists of party 0 with primary 0.
const LISTS: &[(&[Entry], &[Entry])] = &[
    // Every trigger, with its bounds; adapters that are written and that are not.
    (
        &[(1, &[1, 1, 0, 5, 6, 1]), (2, &[1, 1, 255, 63, 31, 12]), (1, &[1, 2, 1, 5, 4, 13, 7]), (2, &[1, 2, 0, 31, NONE, 13, 1_023])],
        &[(1, &[1, 1, 0, 0, 1, 1_439]), (2, &[1, 1, 425, 0, 2, 2, 300_000]), (1, &[1, 2, 1, MINUS_1, 1, 61]), (2, &[1, 2, 1, 0, 2, 2, SIGN])],
    ),
    (
        &[(1, &[1, 2, 0, 0, 0, 2]), (1, &[1, 2, 255, 0, 31, 3]), (1, &[1, 1, 0, 0, 0, 13, 0]), (1, &[1, 1, 1, 0, 0, 4])],
        &[(2, &[2, 1]), (1, &[2, 2]), (2, &[3, 1, 63, 1]), (1, &[3, 0, 0, 2])],
    ),
    (
        &[(1, &[1, 1, 0, 1, 1, 5]), (1, &[1, 1, 0, 1, 1, 6]), (1, &[1, 1, 0, 1, 1, 7]), (1, &[1, 1, 0, 1, 1, 8])],
        &[(1, &[4, 0, 1, 1, 1, 0, 0, 0, 0, 0]), (1, &[4, 1, 63, 2, 1, 0, 0, 0, 0, MINUS_5, NONE]), (1, &[4, 0, 0, 3, 1, 0, 0, 0, 0, MOST]), (1, &[5, 0, 1, 4, 1, 0, 0, 0, 0, LEAST, NONE])],
    ),
    (
        &[(1, &[1, 1, 0, 1, 1, 9]), (1, &[1, 1, 0, 1, 1, 10]), (1, &[1, 1, 0, 1, 1, 11]), (2, &[2, 0, 63, 31, 1])],
        &[(1, &[5, 255, 63, 5, 2, 1, 0, 63]), (1, &[5, 0, 1, 6, 3, 2, 255, 0, 0, 0]), (1, &[4, 0, 1, 1, 3, 3, 0, 1, 0, MINUS_5, NONE]), (1, &[4, 0, 1, 1, 2, 4, 1, 1])],
    ),
    (
        &[(1, &[2, 1, 0, 0, 2]), (1, &[3, 0, 63, 31, 1, 0]), (2, &[3, 1, 0, 0, 2, 1_023]), (1, &[4, 255, 63, 31])],
        &[(1, &[6, 0, 15, 1]), (2, &[6, 1, 0, 2]), (1, &[7, 0, 63, 31, 1]), (2, &[7, 255, 0, 0, 2])],
    ),
    (
        &[(1, &[5, 0, 63]), (2, &[5, 1, 0]), (1, &[6, 0, 0]), (2, &[6, 255, 63])],
        &[(1, &[8, 0, 63, 31, 1, 2, 5, 0, 15]), (1, &[8, 1, 0, 0, 2, 3, 6, 1, 0, 0, MOST]), (1, &[8, 0, 1, 1, 1, 2, 7, 0, 1]), (1, &[8, 0, 1, 1, 1, 3, 8, 0, 63, 31, LEAST, NONE])],
    ),
    (
        &[(1, &[7, 0, 127]), (1, &[7, 1_439, 64]), (2, &[7, 425, 126]), (1, &[7, 600, 63])],
        &[(1, &[8, 0, 1, 1, 1, 2, 9, 255, 0, 0]), (1, &[8, 0, 1, 1, 1, 2, 10, 0, 1, 1]), (1, &[8, 0, 1, 1, 1, 3, 11, 1, 1, 1, 0]), (1, &[4, 0, 1, 1, 2, 12])],
    ),
    (
        &[(1, &[8, 1, 0, 127]), (2, &[8, 2, 1, 3]), (1, &[8, 1, MINUS_1, 65]), (1, &[8, 2, SIGN, 127])],
        &[(1, &[9, 1, 0, 63, 1]), (1, &[9, 2, 1, 15, 2]), (2, &[9, 3, 0, 0, 1]), (1, &[9, 1, 255, 0, 2])],
    ),
    (
        &[(1, &[8, 1, SIGN - 1, 127]), (1, &[8, 1, MOST, 127]), (1, &[8, 1, MOST + 1, 127]), (1, &[8, 1, LEAST, 16])],
        &[(1, &[16, 127]), (2, &[16, 1]), (1, &[16, 64]), (1, &[16, 0b101_0101])],
    ),
    (
        &[(1, &[9, 1_000]), (2, &[9, MOST]), (1, &[9, MOST + 1]), (1, &[9, NONE])],
        &[(1, &[12, 0, 5, 0]), (2, &[12, 1, 4, MOST]), (1, &[12, 6, 1, MOST + 1_020]), (2, &[12, 1, 4, NONE])],
    ),
    (
        &[(1, &[10, 0, 0, 1]), (2, &[10, 1, 63, 2]), (1, &[11, 0, 63, 1, 0]), (2, &[11, 255, 0, 2, 254])],
        &[(1, &[10, 0, 63]), (2, &[10, 1, 0]), (1, &[14]), (2, &[14])],
    ),
    (
        &[(1, &[12, 0, 15, 1]), (2, &[12, 1, 0, 2]), (1, &[13, 0, 15]), (2, &[13, 255, 0])],
        &[(1, &[4, 0, 1, 1, 2, 13]), (1, &[4, 0, 1, 1, 3, 14, 0, 0, 0, 5]), (1, &[4, 0, 1, 1, 2, 15]), (1, &[4, 0, 1, 1, 2, 16])],
    ),
    (
        &[(1, &[14, 0, 63, 1]), (2, &[14, 1, 0, 2]), (1, &[15, 1, 0, 63, 1]), (2, &[15, 2, 1, 15, 2])],
        &[(1, &[4, 0, 1, 1, 2, 17]), (1, &[4, 0, 1, 1, 3, 18, 0, 0, 0, MINUS_1, NONE]), (1, &[4, 0, 1, 1, 2, 19]), (1, &[4, 0, 1, 1, 2, 20])],
    ),
    (
        &[(1, &[15, 3, 0, 0, 2]), (1, &[15, 1, 1, 0, 1]), (1, &[15, 2, 0, 0, 2]), (2, &[17])],
        &[(1, &[4, 0, 1, 1, 2, 21]), (1, &[4, 0, 1, 1, 3, 22, 0, 0, 0, 0]), (1, &[4, 0, 1, 1, 2, 23, 12, 4]), (2, &[5, 0, 1, 1, 3, 23, 1, 4, 0, MINUS_1, NONE])],
    ),
    // Names: at the start, at the end, between quotes, with blanks around them, CR, NUL, + and #; empty texts, one at the very end. Repeats stay.
    (
        &[(1, &[16, 0, 5]), (2, &[16, 1, 4]), (1, &[16, 12, 4]), (2, &[16, 5, 3])],
        &[(1, &[15, 6, 1, 1, 4, 0, 0]), (2, &[15, 8, 2, 2, 4, END, 0]), (1, &[15, 8, 2, 3, 4, 12, 4]), (2, &[15, 1, 4, 4, 4, 1, 9])],
    ),
    (
        &[(1, &[19, 6, 1]), (2, &[19, 8, 2]), (1, &[21, 0, 5]), (2, &[21, 5, 5])],
        &[(1, &[11, 0, 5]), (2, &[11, 8, 2]), (1, &[13, 6, 1]), (2, &[13, 1, 4])],
    ),
    (
        &[(1, &[18]), (2, &[18]), HTTP, HTTP],
        &[(1, &[15, 6, 1, 5, 1, 0, 0, 0, 0, 5]), (2, &[15, 8, 2, 6, 2, 1, 255, 63]), (1, &[15, 6, 1, 1, 3, 23, 0, 5, 0, 0]), ACTIVE],
    ),
    (&[(1, &[19, 0, 2]), (1, &[21, 8, 2]), (2, &[20])], &[]),
    (&[HTTP, HTTP], &[ACTIVE, ACTIVE]),
    (&[HTTP], &[ACTIVE, ACTIVE, ACTIVE]),
    // The first entry that no text gives comes before the first that is out of reach.
    (&[FAR, FAR, BAD, BAD], &[BAD_IF, FAR_IF]),
    (&[FAR, FAR], &[FAR_IF, BAD_IF]),
    (&[HTTP, FAR], &[FAR_IF]),
    (&[HTTP, HTTP], &[ACTIVE, FAR_IF, FAR_IF]),
    (&[HTTP; 4], &[ACTIVE, ACTIVE, ACTIVE, FAR_IF]),
    // Out of reach: not listed, another's, broadcast, in a value.
    (&[(1, &[10, 7, 5, 1])], &[]),
    (&[(1, &[10, 9, 5, 1])], &[]),
    (&[(1, &[13, 2, 5])], &[]),
    (&[(1, &[1, 2, 2, 5, NONE, 1])], &[]),
    (&[(1, &[1, 1, 2, 5, 5, 1])], &[]),
    (&[(1, &[15, 1, 2, 5, 1])], &[]),
    (&[(1, &[15, 3, 1, 0, 1])], &[]),
    (&[(1, &[15, 3, 2, 0, 1])], &[]),
    (&[HTTP], &[(1, &[9, 3, 7, 0, 1])]),
    (&[HTTP], &[(1, &[4, 0, 5, 1, 2, 1, 2, 5])]),
    (&[HTTP], &[(1, &[15, 6, 1, 1, 3, 8, 2, 5, 5, 5])]),
    // FROM.
    (&[(0, &[17])], &[]),
    (&[HTTP, (3, &[17])], &[]),
    (&[HTTP], &[(257, &[14])]),
    (&[HTTP], &[(NONE, &[14])]),
    (&[(1, &[16, 1, 9])], &[]),
];

/// Triggers that no text gives.
const TRIGGERS: &[&[u32]] = &[
    &[0], &[22], &[256 + 20], &[1, 0, 0, 5, 6, 1], &[1, 3, 0, 5, 6, 1], &[1, 1, 0, 5, 6, 14], &[1, 1, 0, 5, 6, 1, 1], &[1, 1, 0, 5, 6, 13, 1_024],
    &[1, 1, 0, 5, 32, 1], &[1, 2, 0, 5, 32, 1], &[1, 2, 0, 5, NONE - 1, 1], &[7, 1_440, 127], &[7, 0, 0], &[7, 0, 128], &[9, 999], &[10, 0, 64, 1],
    &[10, 0, SIGN + 5, 1], &[10, 0, 0x1_0005, 1], &[10, 256, 5, 1], &[10, 0, 5, 3], &[11, 0, 5, 1, 255], &[12, 0, 16, 1], &[13, 0, 16],
    &[15, 3, 256, 0, 1], &[15, 3, 0, 1, 1], &[17, 1], &[20, 0, 0, 0, 0, 0, 0, 0, 0, 0, 0, 1],
    // Names: outside, empty, not UTF-8, with a quote or LF; as topics with +, CR and NUL.
    &[16, 12, 5], &[16, 17, 0], &[16, NONE, 1], &[16, 1, NONE], &[16, 0, 0], &[16, 8, 1], &[16, 5, 2], &[16, 11, 1], &[19, 8, 3], &[21, 12, 1],
    &[21, 13, 1], &[21, 14, 1], &[21, 15, 1], &[21, 0, 0],
];

/// Conditions that no text gives.
const CONDITIONS: &[&[u32]] = &[
    &[17], &[1, 1, 5, 1, 1, 5], &[4, 0, 5, 7, 1], &[4, 0, 5, 1, 0], &[4, 0, 5, 1, 4], &[4, 0, 5, 1, 2, 24], &[4, 0, 5, 1, 1, 1],
    &[4, 0, 5, 1, 2, 12, 0, 0, 0, 1], &[4, 0, 5, 1, 2, 1, 0, 5, 1], &[4, 0, 5, 1, 2, 5, 0, 5, 1], &[4, 0, 5, 1, 2, 12, 1],
    &[4, 0, 5, 1, 2, 23, 0, 5, 1], &[15, 6, 1, 1, 5], &[15, 6, 1, 1, 4, 0, 5, 1],
    // Numbers past their bounds, and good ones but for the other word.
    &[4, 0, 5, 1, 1, 0, 0, 0, 0, MOST + 1], &[4, 0, 5, 1, 1, 0, 0, 0, 0, LEAST - 1, NONE], &[4, 0, 5, 1, 3, 12, 0, 0, 0, MOST + 1],
    &[4, 0, 5, 1, 3, 12, 0, 0, 0, LEAST - 1, NONE], &[4, 0, 5, 1, 1, 0, 0, 0, 0, 5, 1], &[4, 0, 5, 1, 3, 12, 0, 0, 0, 5, 1],
    &[4, 0, 5, 1, 1, 0, 0, 0, 0, MINUS_5, 0],
    // Texts: with LF, and one that begins past the end.
    &[15, 6, 1, 1, 4, 10, 1], &[15, 6, 1, 1, 4, 17, 0],
];

/// Counts out of bounds.
const COUNTS: &[[u32; 2]] = &[[0, 0], [5, 0], [1, 5], [NONE, 0], [1, NONE], [257, 1], [SIGN + 1, 0], [1, SIGN], [0, 5]];

fn rows(list: &[Entry]) -> [Row; 4] {
    std::array::from_fn(|at| list.get(at).map_or(Row::default(), |(from, words)| {
        let mut row = Row { from: *from, words: [0; ENTRY] };
        row.words[..words.len()].copy_from_slice(words);
        row
    }))
}

fn writing(triggers: &[Entry], conditions: &[Entry]) -> Writing {
    let lists = Flat { counts: [triggers.len() as u32, conditions.len() as u32], triggers: rows(triggers), conditions: rows(conditions) };
    Writing { id: 0, size: 4_096, party: 0, primary: 0, texts: [FIRST.to_vec(), SECOND.to_vec()], sheet: SHEET.into(), lists }
}

pub fn writings() -> Vec<Writing> {
    let mut writings: Vec<Writing> = LISTS.iter().map(|(triggers, conditions)| writing(triggers, conditions)).collect();
    // Each stands behind none to three good ones, and what is behind it is not looked at any more.
    writings.extend((0..).zip(TRIGGERS).map(|(nth, words)| writing(&[&[HTTP; 3][..nth % 4], &[(1, words)]].concat(), &[BAD_IF; 2][..nth % 3])));
    writings.extend((0..).zip(CONDITIONS).map(|(nth, words)| {
        writing(&[HTTP; 4][..1 + nth % 4], &[&[ACTIVE; 3][..nth / 4 % 4], &[(1, words)]].concat())
    }));
    writings.extend(COUNTS.iter().map(|counts| {
        let mut writing = writing(&[HTTP, BAD, HTTP, HTTP], &[ACTIVE; 4]);
        writing.lists.counts = *counts;
        writing
    }));
    writings.extend(of_calls());
    writings.extend(of_lengths());
    writings
}

/// Buffers, sheets, parties and primaries, one before the other, and rows past the counts.
fn of_calls() -> Vec<Writing> {
    let good = || writing(&[HTTP], &[]);
    let all_wrong = || Writing { size: 4_095, primary: 7, ..writing(&[], &[BAD_IF]) };
    let mut past = good();
    past.lists.triggers[1..].fill(Row { from: 9, words: [NONE; ENTRY] });
    past.lists.conditions.fill(Row { from: 1, words: [3; ENTRY] });
    let on = |party: u8, primary: u8, words: &'static [u32]| Writing { party, primary, ..writing(&[(1, words)], &[]) };
    vec![
        past,
        Writing { size: 4_095, ..good() },
        Writing { size: 0, ..writing(&[BAD], &[]) },
        Writing { size: 4_095, ..writing(&[FAR], &[]) },
        Writing { size: 8_192, ..good() },
        Writing { size: 4_097, ..good() },
        Writing { sheet: b"primary,0\n\n".to_vec(), ..all_wrong() },
        Writing { sheet: b"primary,0\n\n".to_vec(), ..writing(&[BAD], &[]) },
        all_wrong(),
        Writing { primary: 0, ..all_wrong() },
        Writing { primary: 7, ..writing(&[BAD], &[]) },
        Writing { party: 3, ..good() },
        // A primary that is not listed, and one that is not the sheet's; what another party has.
        on(0, 2, &[10, 2, 5, 1]),
        on(0, 2, &[15, 3, 2, 0, 1]),
        on(0, 2, &[10, 0, 5, 1]),
        on(0, 1, &[15, 3, 0, 0, 1]),
        on(0, 1, &[13, 1, 5]),
        on(3, 7, &[10, 0, 5, 1]),
        on(3, 9, &[10, 7, 5, 1]),
        on(3, 9, &[10, 9, 5, 1]),
        on(3, 7, &[10, 9, 5, 1]),
        Writing { sheet: b"primary,2".to_vec(), ..writing(&[FAR], &[]) },
        Writing { sheet: b"primary,0".to_vec(), primary: 1, ..writing(&[(1, &[10, 0, 5, 1])], &[]) },
    ]
}

/// Names, topics and texts of the most bytes and of one more, of narrow and of wide characters, and long texts.
fn of_lengths() -> Vec<Writing> {
    const NAME: &[u32] = &[16, 0, 48];
    const LONG_NAME: &[u32] = &[16, 0, 49];
    const TOPIC: &[u32] = &[21, 0, 48];
    const LONG_TOPIC: &[u32] = &[21, 0, 49];
    const TEXT: &[u32] = &[15, 0, 1, 1, 4, 0, 16];
    const LONG_TEXT: &[u32] = &[15, 0, 1, 1, 4, 0, 17];
    let (narrow, wide) = (vec![b'a'; 49], [b"xx", "\u{65e5}".repeat(16).as_bytes()].concat());
    let of = |texts: [&[u8]; 2], lists: [&[Entry]; 2]| Writing { texts: texts.map(<[u8]>::to_vec), ..writing(lists[0], lists[1]) };
    let far = [&b" ".repeat(16_384)[..], b"\"Till\""].concat();
    vec![
        of([&narrow, &wide[2..]], [&[(1, NAME), (2, NAME), (1, TOPIC), (2, TOPIC)], &[(1, TEXT)]]),
        of([&narrow, b""], [&[(1, LONG_NAME)], &[]]),
        of([&narrow, &wide], [&[HTTP, (2, LONG_NAME)], &[]]),
        of([&narrow, b""], [&[(1, LONG_TOPIC)], &[]]),
        of([&narrow, b""], [&[HTTP], &[(1, LONG_TEXT)]]),
        of([b"", "\u{e9}".repeat(9).as_bytes()], [&[HTTP], &[(2, &[15, 0, 2, 1, 4, 0, 18])]]),
        of([&far, b""], [&[(1, &[16, 16_385, 4])], &[]]),
    ]
}
