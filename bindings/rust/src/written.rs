//! Rules written out as texts.

use crate::{boundary, layout, with_room, Party, Refusal};
use core::{fmt, ops, str};

/// How many bytes a caller lends for a text, at least. With fewer [`write`] gives refusal 54. No text is longer.
pub const LEAST_BYTES: usize = 4_096;

/// The length of an answer of the library's `tergyosul_write` and `tergyosul_rows_back`.
pub(crate) const WRITE_WORDS: usize = 5;

/// A rule as a text: what [`Rule::written`](crate::Rule::written) and [`Joined::written`](crate::Joined::written) give.
#[derive(Clone, Copy)]
pub struct Written {
    bytes: [u8; LEAST_BYTES],
    length: usize,
}

impl Written {
    /// The text.
    pub fn as_str(&self) -> &str {
        text_in(&self.bytes, self.length)
    }
}

impl ops::Deref for Written {
    type Target = str;

    fn deref(&self) -> &str {
        self.as_str()
    }
}

impl fmt::Display for Written {
    fn fmt(&self, f: &mut fmt::Formatter<'_>) -> fmt::Result {
        f.pad(self)
    }
}

impl fmt::Debug for Written {
    fn fmt(&self, f: &mut fmt::Formatter<'_>) -> fmt::Result {
        write!(f, "Written({:?})", self.as_str())
    }
}

impl PartialEq for Written {
    fn eq(&self, other: &Written) -> bool {
        self.as_str() == other.as_str()
    }
}

impl Eq for Written {}

/// Writes the two lists of a rule out as a text, for a party, with its own primary adapter. The text goes to `out`, which has
/// [`LEAST_BYTES`] or more, and is given back; the other bytes, all of them with a refusal, are left as they are.
///
/// `lists` are words laid out as an answer in `include/tergyosul.h`: those of a rule ([`Rule::words`]), of two joined
/// ([`Joined::words`]), or of a controller that keeps its rules so. Row 0 says for each entry in which of the two texts its
/// names stand: in the first, where it says nothing, so that the second of a rule by itself may be empty. Rows past a count
/// are not looked at, and a word past the end counts as 0.
///
/// One space stands between two tokens. References are numbers, with `adapter` only where it is not the party's primary.
/// What [`read`] makes of the text, with the same sheet and party and no topics, are the same lists, but for where names
/// stand.
///
/// It is refused with 3 for a sheet that is not well formed, with 53 for a primary adapter that is not the party's, and with
/// 54 for too few bytes. Then with 55 for a count of triggers or conditions that no rule has, and for the first entry that no
/// text gives, whatever its sheet; then with 56 for the first one whose adapter would be written and is not listed, or that
/// is a broadcast on another adapter than the primary. The line is the entry's place, from 1, the conditions behind the
/// triggers.
///
/// ```
/// use tergyosul::{Party, ANSWER_WORDS, LEAST_BYTES};
///
/// let sheet = b"primary,0\n";
/// let party = Party::of_sheet(sheet);
/// let mut out = [0; LEAST_BYTES];
///
/// // One trigger, in row 1: scene 3 on adapter 0 is recalled.
/// let mut words = [0; ANSWER_WORDS];
/// words[4] = 1;
/// words[12..15].copy_from_slice(&[13, 0, 3]);
/// assert_eq!(tergyosul::write(&words, [b"", b""], sheet, party, &mut out)?, "when scene ( 3 ) recalled");
///
/// // There is no scene 16.
/// words[14] = 16;
/// let refusal = tergyosul::write(&words, [b"", b""], sheet, party, &mut out).unwrap_err();
/// assert_eq!(refusal.to_string(), "entry 1: no text gives such lists (refusal 55)");
/// # Ok::<(), tergyosul::Refusal>(())
/// ```
///
/// # Panics
///
/// If the linked library gives an answer outside the layout of `include/tergyosul.h`. The proved library gives none, so
/// that means that another one was linked.
///
/// [`read`]: crate::read
/// [`Rule::words`]: crate::Rule::words
/// [`Joined::words`]: crate::Joined::words
pub fn write<'a>(lists: &[u32], texts: [&[u8]; 2], sheet: &[u8], party: Party, out: &'a mut [u8]) -> Result<&'a str, Refusal> {
    let length = put(lists, texts, sheet, party, out)?;
    Ok(text_in(out, length))
}

/// The same with an array of this crate's.
pub(crate) fn kept(lists: &[u32], texts: [&[u8]; 2], sheet: &[u8], party: Party) -> Result<Written, Refusal> {
    let mut bytes = [0; LEAST_BYTES];
    let length = put(lists, texts, sheet, party, &mut bytes)?;
    Ok(Written { bytes, length })
}

/// Writes a text, and gives its length.
fn put(lists: &[u32], texts: [&[u8]; 2], sheet: &[u8], party: Party, out: &mut [u8]) -> Result<usize, Refusal> {
    length_of(|answer| boundary::write(texts, sheet, party, lists, out, answer))
}

/// How many bytes a call writes: it writes the words of its answer, too, and gives the number.
pub(crate) fn length_of(write: impl FnOnce(&mut [u32]) -> u32) -> Result<usize, Refusal> {
    let mut answer = [0; WRITE_WORDS];
    with_room(write(&mut answer))?;
    let [number, line, column, detail, length] = answer;
    if number != 0 {
        return Err(Refusal { number, line, column, detail });
    }
    Ok(length as usize)
}

/// The text at the front of the bytes, which is UTF-8, since all names in it are.
pub(crate) fn text_in(bytes: &[u8], length: usize) -> &str {
    bytes.get(..length).and_then(|text| str::from_utf8(text).ok()).unwrap_or_else(|| layout::broken())
}
