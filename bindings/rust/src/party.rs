//! Whose call it is.

use crate::{boundary, layout};

/// A hirer of the branch, with the adapter of a reference that names none.
///
/// The sheet's `party` rows say whose an adapter is; one without such a row is party 0's. A call sees the party's adapters
/// and the rows on them, and nothing of another's.
///
/// ```
/// use tergyosul::{Party, Power, Ref, Trigger};
///
/// let sheet = b"primary,0\nlamp,0,2,Oven\nlamp,0,3,Till\nparty,7,3\nlamp,7,5,Oven\n";
/// let grocer = Party::of_sheet(sheet);
/// let bakery = Party { number: 3, primary: 7 };
/// let mut words = [0; tergyosul::TOKEN_WORDS];
///
/// // Each has a lamp of that name, and finds its own.
/// for (party, adapter, number) in [(grocer, 0, 2), (bakery, 7, 5)] {
///     let rule = tergyosul::read(b"when lamp(\"Oven\") turns on", sheet, party, &mut words)?;
///     assert_eq!(rule.triggers(), [Trigger::LampTurns(Ref { adapter, number }, Power::On)]);
/// }
///
/// // What only the other has is not there.
/// let refusal = tergyosul::read(b"when lamp(\"Till\") turns on", sheet, bakery, &mut words).unwrap_err();
/// assert_eq!((refusal.number, refusal.line, refusal.column, refusal.detail), (31, 1, 11, 0));
/// # Ok::<(), tergyosul::Refusal>(())
/// ```
#[derive(Debug, Clone, Copy, PartialEq, Eq, Hash)]
pub struct Party {
    /// The party's number, as the sheet's `party` rows have it.
    pub number: u8,
    /// The call's primary adapter, in the place of the sheet's. It must be the party's, else the call is refused with 53;
    /// it need not be listed.
    pub primary: u8,
}

impl Party {
    /// Party 0 with the sheet's own primary adapter: who calls where the sheet has no `party` rows.
    ///
    /// # Panics
    ///
    /// As [`sheet_primary`].
    pub fn of_sheet(sheet: &[u8]) -> Party {
        Party { number: 0, primary: sheet_primary(sheet) }
    }
}

/// The sheet's own primary adapter, which its first line names; 0 where it names none. Only that line is looked at.
///
/// # Panics
///
/// If the linked library gives a number above 255. The proved library gives none, so that means that another one was
/// linked.
pub fn sheet_primary(sheet: &[u8]) -> u8 {
    layout::adapter(boundary::sheet_primary(sheet))
}
