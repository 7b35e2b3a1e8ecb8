//! That the standard library's check finds the first place where no sequence of RFC 3629's ABNF begins.

use crate::refusal::Place;
use crate::well_formed;

/// The length of the UTF8-char (RFC 3629, section 4) that begins at the first byte, if one does.
fn sequence(bytes: &[u8]) -> Option<usize> {
    let tail = |byte: &u8| (0x80..=0xBF).contains(byte);
    match bytes {
        [0x00..=0x7F, ..] => Some(1),
        [0xC2..=0xDF, a, ..] if tail(a) => Some(2),
        [0xE0, 0xA0..=0xBF, a, ..] if tail(a) => Some(3),
        [0xE1..=0xEC, a, b, ..] if tail(a) && tail(b) => Some(3),
        [0xED, 0x80..=0x9F, a, ..] if tail(a) => Some(3),
        [0xEE..=0xEF, a, b, ..] if tail(a) && tail(b) => Some(3),
        [0xF0, 0x90..=0xBF, a, b, ..] if tail(a) && tail(b) => Some(4),
        [0xF1..=0xF3, a, b, c, ..] if tail(a) && tail(b) && tail(c) => Some(4),
        [0xF4, 0x80..=0x8F, a, b, ..] if tail(a) && tail(b) => Some(4),
        _ => None,
    }
}

/// The first place where no sequence begins, walked sequence by sequence.
fn first_bad(bytes: &[u8]) -> Option<Place> {
    let (mut at, mut place) = (0, Place::FIRST);
    while at < bytes.len() {
        let Some(length) = sequence(&bytes[at..]) else { return Some(place) };
        place = place.after(char::from(if length == 1 { bytes[at] } else { b'?' }));
        at += length;
    }
    None
}

#[test]
fn every_text_of_up_to_four_edge_bytes() {
    const EDGES: [u8; 21] = [
        b'a', b'\n', 0x7F, 0x80, 0x8F, 0x90, 0x9F, 0xA0, 0xBF, 0xC0, 0xC1, 0xC2, 0xDF, 0xE0, 0xED, 0xEF, 0xF0, 0xF1,
        0xF4, 0xF5, 0xFF,
    ];
    let mut texts: Vec<Vec<u8>> = vec![Vec::new()];
    for _ in 0..4 {
        texts = texts.iter().flat_map(|text| EDGES.map(|edge| [&text[..], &[edge]].concat())).collect();
        for text in &texts {
            assert_eq!(well_formed(text).err(), first_bad(text), "{text:x?}");
            let behind = ["\né".as_bytes(), text, b"\x80"].concat();
            assert_eq!(well_formed(&behind).err(), first_bad(&behind), "{behind:x?}");
        }
    }
}

#[test]
fn every_pair_of_bytes() {
    for pair in 0..=u16::MAX {
        for text in [&pair.to_be_bytes()[..], &[&pair.to_be_bytes()[..], &[0x80, 0x80]].concat()] {
            assert_eq!(well_formed(text).err(), first_bad(text), "{text:x?}");
        }
    }
}
