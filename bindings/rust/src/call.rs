//! What a reading is told beside a text and its sheet.

use crate::Party;

/// Whose call it is, and the topics of earlier rules. A [`Party`] alone is a call without such topics, so that [`read`]
/// takes it as it is; [`Party::with_topics`] adds them.
///
/// A topic that is neither among them nor named earlier in the text is new. Where eight or more different ones are lent or
/// named earlier, a new one is refused with 66, at its word `mqtt`. No number of lent topics is refused by itself.
///
/// [`read`]: crate::read
///
/// ```
/// use tergyosul::Party;
///
/// let sheet = b"primary,0\n";
/// let party = Party::of_sheet(sheet);
/// let mut words = [0; tergyosul::TOKEN_WORDS];
/// let mut topics = Vec::new();
///
/// // The rules of a controller, one after the other: each is read with the topics of those before it.
/// for text in ["when mqtt \"till/open\"", "when mqtt \"till/open\" when mqtt \"till/close\""] {
///     let rule = tergyosul::read(text.as_bytes(), sheet, party.with_topics(&topics), &mut words)?;
///     for topic in rule.topics(text.as_bytes()) {
///         topics.extend_from_slice(topic);
///         topics.push(b'\n');
///     }
/// }
/// assert_eq!(topics, b"till/open\ntill/open\ntill/close\n");
///
/// // Six more, and there are eight: another one is one too many.
/// topics.extend_from_slice(b"1\n2\n3\n4\n5\n6\n");
/// let refusal = tergyosul::read(b"when mqtt \"door\"", sheet, party.with_topics(&topics), &mut words).unwrap_err();
/// assert_eq!(refusal.to_string(), "1:6: eight other topics are named already (refusal 66)");
/// # Ok::<(), tergyosul::Refusal>(())
/// ```
#[derive(Debug, Clone, Copy, PartialEq, Eq, Hash)]
pub struct Call<'a> {
    /// Whose call it is.
    pub party: Party,
    /// The topics of earlier rules, one a line, LF between; empty where there are none. They may be of any length and
    /// content: lines are taken as they come, with a CR if they have one, and empty ones count for nothing.
    pub topics: &'a [u8],
}

impl From<Party> for Call<'_> {
    /// A call of the party without topics of earlier rules.
    fn from(party: Party) -> Self {
        Call { party, topics: &[] }
    }
}

impl Party {
    /// A call of the party with the topics of earlier rules, one a line, LF between.
    pub const fn with_topics(self, topics: &[u8]) -> Call<'_> {
        Call { party: self, topics }
    }
}
