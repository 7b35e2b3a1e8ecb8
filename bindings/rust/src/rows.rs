//! Rows of the previous owners' archives, converted to triggers, and triggers converted back to rows.

use crate::{answered, boundary, layout, written, Party, Refusal, Rule};
use core::{fmt, ops};

/// How many bytes a caller lends for rows, at least. With fewer [`write_rows`] gives refusal 54.
pub const ROWS_LEAST_BYTES: usize = 512;

/// How many bytes rows have at most that are written.
pub const ROWS_MOST_BYTES: usize = 272;

/// One to four rows: what [`Rule::to_rows`] gives. Their names are those of the sheet, which need not be UTF-8.
#[derive(Clone, Copy)]
pub struct Rows {
    bytes: [u8; ROWS_LEAST_BYTES],
    length: usize,
}

impl Rows {
    /// The rows, each with LF at its end.
    pub fn as_bytes(&self) -> &[u8] {
        rows_in(&self.bytes, self.length)
    }
}

impl ops::Deref for Rows {
    type Target = [u8];

    fn deref(&self) -> &[u8] {
        self.as_bytes()
    }
}

impl fmt::Debug for Rows {
    fn fmt(&self, f: &mut fmt::Formatter<'_>) -> fmt::Result {
        write!(f, "Rows(\"{}\")", self.escape_ascii())
    }
}

impl PartialEq for Rows {
    fn eq(&self, other: &Rows) -> bool {
        self.as_bytes() == other.as_bytes()
    }
}

impl Eq for Rows {}

/// Converts one to four rows of the previous owners' archives to triggers, with a name sheet and for a party, with its own
/// primary adapter. They come as a [`Rule`] without conditions, in the rows' order.
///
/// A row is `K,name,A,word` with LF behind it, the last one's, too: `lamp` with `on` or `off`, `group` with `any_on` or
/// `all_off`, `device` with `offline` or `online`. A is an adapter, or empty where none is named. The name has 1 to 48 bytes
/// and no quote, comma, CR or LF.
///
/// It is refused with 3 for a sheet that is not well formed, and with 53 for a primary adapter that is not the party's. Then
/// with 60 for no row, and for the first that is malformed or a fifth, before any name is looked up. Then, row by row, with 25
/// for an adapter that is not listed and 31 to 34 for a name, as in a rule. The line is the row, from 1.
///
/// ```
/// use tergyosul::{Party, Power, Ref, Trigger};
///
/// let sheet = b"primary,0\nadapter,1\nlamp,1,7,Till\n";
/// let party = Party::of_sheet(sheet);
///
/// let rule = tergyosul::convert_rows(b"lamp,Till,,on\nlamp,Till,1,off\n", sheet, party)?;
/// let till = Ref { adapter: 1, number: 7 };
/// assert_eq!(rule.triggers(), [Trigger::LampTurns(till, Power::On), Trigger::LampTurns(till, Power::Off)]);
///
/// // Converted back, a row names its adapter.
/// assert_eq!(rule.to_rows(sheet, party)?.as_bytes(), b"lamp,Till,1,on\nlamp,Till,1,off\n");
///
/// let refusal = tergyosul::convert_rows(b"lamp,Till,,on\nlamp,Tills,,on\n", sheet, party).unwrap_err();
/// assert_eq!(refusal.to_string(), "row 2: no row of that kind has the name (refusal 31)");
/// # Ok::<(), tergyosul::Refusal>(())
/// ```
///
/// # Panics
///
/// As [`read`](crate::read).
pub fn convert_rows(rows: &[u8], sheet: &[u8], party: Party) -> Result<Rule, Refusal> {
    answered(|answer| boundary::rows(rows, sheet, party, answer))
}

/// Converts a list of triggers back to rows, with a name sheet and for a party, with its own primary adapter. The rows go to
/// `out`, which has [`ROWS_LEAST_BYTES`] or more, and are given back; the other bytes, all of them with a refusal, are left as
/// they are.
///
/// `lists` are words laid out as an answer in `include/tergyosul.h`: those of a rule ([`Rule::words`]), of two joined
/// ([`Joined::words`]), or of a controller that keeps its rules so. Rows past a count are not looked at, nor are the texts of
/// the entries, and a word past the end counts as 0.
///
/// The name and the adapter of a row are those of the first sheet row for that lamp, group or device which is the only one of
/// its kind and name on its adapter, has no comma in its name and is on an adapter that is listed. The adapter is always
/// written. What [`convert_rows`] makes of the rows, with the same sheet and party, is the same list.
///
/// It is refused with 3 for a sheet that is not well formed, with 53 for a primary adapter that is not the party's, and with
/// 54 for too few bytes. Then with 61 for a count of triggers other than one to four, and for the first entry that no row
/// says: another trigger, or any condition; then with 62 for the first one for which the sheet has no such row. The line is the
/// entry's place, from 1, a condition's behind the triggers.
///
/// ```
/// use tergyosul::{Party, ANSWER_WORDS, ROWS_LEAST_BYTES};
///
/// let sheet = b"primary,0\nadapter,0\ngroup,0,2,Hall, cold\ngroup,0,2,Hall\n";
/// let party = Party::of_sheet(sheet);
/// let mut out = [0; ROWS_LEAST_BYTES];
///
/// // One trigger, in row 1 of the words: group 2 on adapter 0 becomes any_on.
/// let mut words = [0; ANSWER_WORDS];
/// words[4] = 1;
/// words[12..16].copy_from_slice(&[12, 0, 2, 1]);
/// assert_eq!(tergyosul::write_rows(&words, sheet, party, &mut out)?, b"group,Hall,0,any_on\n");
///
/// // The sheet has no group 3.
/// words[14] = 3;
/// let refusal = tergyosul::write_rows(&words, sheet, party, &mut out).unwrap_err();
/// assert_eq!(refusal.to_string(), "entry 1: the sheet has no name for it that a row can have (refusal 62)");
/// # Ok::<(), tergyosul::Refusal>(())
/// ```
///
/// # Panics
///
/// As [`write`](crate::write).
///
/// [`Joined::words`]: crate::Joined::words
pub fn write_rows<'a>(lists: &[u32], sheet: &[u8], party: Party, out: &'a mut [u8]) -> Result<&'a [u8], Refusal> {
    let length = put(lists, sheet, party, out)?;
    Ok(rows_in(out, length))
}

/// The same with an array of this crate's.
pub(crate) fn kept(lists: &[u32], sheet: &[u8], party: Party) -> Result<Rows, Refusal> {
    let mut bytes = [0; ROWS_LEAST_BYTES];
    let length = put(lists, sheet, party, &mut bytes)?;
    Ok(Rows { bytes, length })
}

/// Writes rows, and gives their length.
fn put(lists: &[u32], sheet: &[u8], party: Party, out: &mut [u8]) -> Result<usize, Refusal> {
    written::length_of(|answer| boundary::rows_back(sheet, party, lists, out, answer))
}

/// The rows at the front of the bytes.
pub(crate) fn rows_in(bytes: &[u8], length: usize) -> &[u8] {
    bytes.get(..length).unwrap_or_else(|| layout::broken())
}
