//! Document 02 §8: the line ends of a sheet, and what stands beside names with commas and behind names.

use crate::grammar::{quoted, Walk};
use crate::rng::Rng;
use crate::spell::Token;

/// How the lines of a sheet end.
#[derive(Debug, Clone, Copy, PartialEq)]
pub enum Ends {
    Lf,
    CrLf,
    Mixed,
}

impl Ends {
    pub fn any(rng: &mut Rng) -> Ends {
        rng.pick(&[Ends::Lf, Ends::Lf, Ends::Lf, Ends::CrLf, Ends::CrLf, Ends::Mixed])
    }

    fn cr(self, rng: &mut Rng) -> bool {
        match self {
            Ends::Lf => false,
            Ends::CrLf => true,
            Ends::Mixed => rng.once_in(2),
        }
    }

    /// The lines with these ends. The last may lack its LF, or have a CR in its place.
    pub fn join<T: AsRef<[u8]>>(self, rng: &mut Rng, lines: &[T]) -> Vec<u8> {
        let mut bytes = Vec::new();
        for line in lines {
            bytes.extend_from_slice(line.as_ref());
            bytes.extend_from_slice(if self.cr(rng) { b"\r\n" } else { b"\n" });
        }
        if rng.once_in(3) {
            bytes.pop();
            if self == Ends::Lf && rng.once_in(8) {
                bytes.push(b'\r');
            }
        }
        bytes
    }
}

/// The bytes with a CR before so many of the LFs, one behind the other; there are at least as many.
pub fn with_cr(rng: &mut Rng, bytes: &[u8], count: usize) -> Vec<u8> {
    let mut lines: Vec<Vec<u8>> = bytes.split_inclusive(|&b| b == b'\n').map(<[u8]>::to_vec).collect();
    let first = rng.within(0, lines.len() - count);
    lines[first..first + count].iter_mut().for_each(|line| line.insert(line.len() - 1, b'\r'));
    lines.concat()
}

/// A CR put in, doubled or taken away somewhere: at a line end, before a comma, at the start or at the end of the sheet.
pub fn damage(rng: &mut Rng, bytes: &mut Vec<u8>) {
    let sort = rng.below(8);
    let places: Vec<usize> = (0..=bytes.len()).filter(|&at| match (sort, bytes.get(at)) {
        (0..=2, byte) => matches!(byte, Some(b'\n') | None),
        (3, byte) => byte == Some(&b','),
        (4, _) => at > 0 && matches!(bytes[at - 1], b'\n' | b','),
        (_, byte) => byte == Some(&b'\r'),
    }).collect();
    if places.is_empty() {
        return bytes.push(b'\r');
    }
    let at = rng.pick(&places);
    match sort {
        7 => drop(bytes.remove(at)),
        2 => drop(bytes.splice(at..at, *b"\r\r")),
        _ => bytes.insert(at, b'\r'),
    }
}

impl Walk<'_> {
    /// What a reader might take for a name of the sheet: its part before or behind a comma, or with something behind it.
    pub(crate) fn beside_name(&mut self, name: &[u8]) -> Token {
        let comma = name.iter().position(|&b| b == b',');
        let last = name.iter().rposition(|&b| b == b',');
        let behind = |more: &[u8]| quoted(&[name, more].concat());
        match (self.rng.below(6), comma, last) {
            (0, Some(at), _) if at > 0 => quoted(&name[..at]),
            (1, Some(at), _) => quoted(&name[..=at]),
            (2 | 3, _, Some(at)) if at + 1 < name.len() => quoted(&name[at + 1..]),
            (4, _, Some(at)) if at + 2 < name.len() => quoted(&name[at + 2..]),
            (5, Some(_), _) => behind(b","),
            _ => { let more = self.rng.pick(&["\r", "\r", "\r", ",", " "]); behind(more.as_bytes()) }
        }
    }
}
