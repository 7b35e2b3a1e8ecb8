//! Document 02 §12, of the proved calls: what becomes of a trigger `mqtt`, and how lent topics count.

use crate::agree::UNTOUCHED;
use crate::whole::{left, Left};
use crate::{read, read_archive};
use cases::{Case, LEAST_WORDS};

/// The words of an entry, and the kind of a trigger `mqtt` (include/tergyosul.h).
const ROW: usize = 12;
const MQTT: u32 = 21;

/// What the call leaves behind that lends these topics: the same by both habits.
fn lending(lent: &[u8], text: &str) -> Left {
    let case = Case::new(1, LEAST_WORDS, text, b"primary,0\n").with_topics(lent);
    let found = left(read_archive, &case);
    assert_eq!(left(read, &case), found, "{text}");
    found
}

fn refusal(lent: &[u8], text: &str) -> [u32; 4] {
    lending(lent, text).answer[..4].try_into().expect("four words")
}

#[test]
fn a_topic_is_a_range_of_the_text() {
    let found = lending(b"", "when mqtt \"a\" when http trigger when mqtt \"é/b\"");
    let rows: Vec<&[u32]> = found.answer.chunks(ROW).collect();
    assert_eq!(rows[0][..6], [0, 0, 0, 0, 3, 0]);
    assert_eq!((&rows[1][..3], rows[2][0], &rows[3][..3]), (&[MQTT, 11, 1][..], 20, &[MQTT, 43, 4][..]));
    let unused = rows[1][3..].iter().chain(&rows[2][1..]).chain(&rows[3][3..]).chain(rows[4..].iter().copied().flatten());
    assert!(unused.into_iter().all(|&word| word == 0));
}

#[test]
fn refusals_of_topics_leave_all_records() {
    let eight = b"1\n2\n3\n4\n5\n6\n7\n8";
    let long = format!("when mqtt \"{}\"", "a".repeat(49));
    for (lent, text, refused, records) in [
        (&b""[..], "when mqtt \"a+\" when", [64, 1, 11, 0], 4),
        (b"", &long, [65, 1, 11, 0], 3),
        (eight, "when mqtt \"a\" is", [40, 1, 15, 0], 4),
        (eight, "when mqtt \"a\" if lamp(", [66, 1, 6, 0], 6),
        (eight, "when mqtt \"8\" when mqtt \"a\"", [66, 1, 20, 0], 6),
    ] {
        let found = lending(lent, text);
        assert_eq!((found.result, &found.answer[..4]), (refused[0], &refused[..]), "{text}");
        assert!(found.answer[4..].iter().all(|&word| word == 0), "{text}");
        assert_eq!(found.words.iter().position(|&word| word == UNTOUCHED), Some(records * cases::RECORD), "{text}");
    }
}

/// Lent bytes may be of any length and content.
#[test]
fn lent_lines_are_counted_as_they_come() {
    let new = "when mqtt \"a\"";
    for lent in [&b"\n\n1\n2\n3\n4\n5\n6\n7\n\n"[..], b"1\n1\n1\n1\n1\n1\n1\n1\n1", b"\r\n\r\n\r\n", b"\xff\n\xc3\n\xa9", &[b'\n'; 5_000], &[b'x'; 70_000]] {
        assert_eq!(refusal(lent, new), [0; 4], "{:?}", &lent[..lent.len().min(20)]);
    }
    let different: Vec<u8> = (0..50_000).flat_map(|topic| format!("{topic}\n").into_bytes()).collect();
    assert_eq!(refusal(&different, new), [66, 1, 6, 0]);
    assert_eq!(refusal(&different, "when mqtt \"49999\" when mqtt \"0\""), [0; 4]);
    assert_eq!(refusal(b"1\n2\n3\n4\n5\n6\n7\na\r", new), [66, 1, 6, 0]);
}
