//! Two rules joined.

use crate::rule::MOST;
use crate::{answer_of, boundary, layout, written, Call, Condition, Party, Refusal, Rows, Rule, Trigger, Written, ANSWER_WORDS};
use core::fmt;

/// One of the two texts of [`join`].
#[derive(Debug, Clone, Copy, PartialEq, Eq, Hash)]
#[allow(missing_docs)]
pub enum Text {
    First,
    Second,
}

impl Text {
    /// The bytes of this one of two texts, in which the names of its entries stand.
    pub const fn of<'a>(self, first: &'a [u8], second: &'a [u8]) -> &'a [u8] {
        match self {
            Text::First => first,
            Text::Second => second,
        }
    }
}

impl fmt::Display for Text {
    fn fmt(&self, f: &mut fmt::Formatter<'_>) -> fmt::Result {
        f.write_str(match self {
            Text::First => "first text",
            Text::Second => "second text",
        })
    }
}

/// A rule made of two: one to four triggers, all different, and none to four conditions, each with the text that it is
/// taken from.
#[derive(Debug, Clone, Copy, PartialEq, Eq, Hash)]
pub struct Joined {
    pub(crate) rule: Rule,
    // Those past the count of the triggers are First.
    pub(crate) from: [Text; MOST],
}

impl Joined {
    /// The triggers: the first text's, then those that only the second has. The names of each stand in its text.
    pub fn triggers(&self) -> impl Iterator<Item = (Trigger, Text)> + '_ {
        self.rule.triggers().iter().copied().zip(self.from)
    }

    /// The conditions, which both texts have; they are taken from the first, where their names stand.
    pub fn conditions(&self) -> impl Iterator<Item = (Condition, Text)> + '_ {
        self.rule.conditions().iter().map(|condition| (*condition, Text::First))
    }

    /// The words of the joined rule, with the text of each entry: what [`write`](crate::write) and
    /// [`write_rows`](crate::write_rows) take.
    pub fn words(&self) -> &[u32; ANSWER_WORDS] {
        self.rule.words()
    }

    /// The two rules written out as one, as [`write`](crate::write) does, with a sheet and for a party; the names are taken from
    /// the texts that were joined.
    ///
    /// ```
    /// use tergyosul::{Party, TOKEN_WORDS};
    ///
    /// let first = b"when timer(\"Close\") fires if sun is down";
    /// let second = b"when timer(\"Close\") fires when mqtt \"till/open\" if sun is down";
    /// let sheet = b"primary,0\n";
    /// let party = Party::of_sheet(sheet);
    /// let [mut words, mut others] = [[0; TOKEN_WORDS]; 2];
    ///
    /// let joined = tergyosul::join(first, second, sheet, party, &mut words, &mut others)?;
    /// let written = joined.written(first, second, sheet, party).expect("it was read so");
    /// assert_eq!(written.to_string(), "when timer ( \"Close\" ) fires when mqtt \"till/open\" if sun is down");
    /// # Ok::<(), tergyosul::JoinRefusal>(())
    /// ```
    ///
    /// # Panics
    ///
    /// As [`write`](crate::write).
    pub fn written(&self, first: &[u8], second: &[u8], sheet: &[u8], party: Party) -> Result<Written, Refusal> {
        written::kept(self.words(), [first, second], sheet, party)
    }

    /// The two rules as rows of the previous owners, as [`Rule::to_rows`] gives them of one.
    ///
    /// # Panics
    ///
    /// As [`write_rows`](crate::write_rows).
    pub fn to_rows(&self, sheet: &[u8], party: Party) -> Result<Rows, Refusal> {
        self.rule.to_rows(sheet, party)
    }
}

/// Why two texts are not joined.
#[derive(Debug, Clone, Copy, PartialEq, Eq, Hash)]
pub struct JoinRefusal {
    /// The text that is refused; none with the numbers 51 and 52, which are of both together.
    pub text: Option<Text>,
    /// What it is refused with.
    pub refusal: Refusal,
}

impl fmt::Display for JoinRefusal {
    fn fmt(&self, f: &mut fmt::Formatter<'_>) -> fmt::Result {
        match self.text {
            Some(text) => write!(f, "{text}, {}", self.refusal),
            None => self.refusal.fmt(f),
        }
    }
}

impl core::error::Error for JoinRefusal {}

/// Reads two rule texts with one name sheet, each as [`read`](crate::read) does, and joins them: the first's triggers, then
/// those of the second that are not yet there, repeats dropped throughout, and the first's conditions. Entries are the same
/// if their values are, names and other strings by their bytes: `every 1h` and `every 60m` are. The topics that the first
/// text names count as earlier ones for the second.
///
/// What is refused of the first text comes first, then what is refused of the second. Then two lists of conditions that
/// differ in entries or order are refused with 51, and more than four triggers with 52.
///
/// The records of the first text's tokens go to `words` and those of the second's to `others`, from which
/// [`tokens`](crate::tokens) takes them; each wants [`TOKEN_WORDS`](crate::TOKEN_WORDS). If the first text is refused,
/// `others` are left as they are; with 51 and 52 both have all their records.
///
/// ```
/// use tergyosul::{Party, Text, Trigger, TOKEN_WORDS};
///
/// let first = b"when timer(\"Close\") fires if sun is down";
/// let second = b"when http trigger when timer(\"Close\") fires when timer(\"Open\") fires if sun is down";
/// let sheet = b"primary,0\n";
/// let party = Party::of_sheet(sheet);
/// let [mut words, mut others] = [[0; TOKEN_WORDS]; 2];
///
/// let joined = tergyosul::join(first, second, sheet, party, &mut words, &mut others)?;
/// let mut timers = Vec::new();
/// for (trigger, text) in joined.triggers() {
///     if let Trigger::TimerFires(name) = trigger {
///         timers.push((text, name.of(text.of(first, second)).expect("the name stands in its text")));
///     }
/// }
/// assert_eq!(timers, [(Text::First, &b"Close"[..]), (Text::Second, b"Open")]);
/// assert_eq!(joined.triggers().count(), 3);
/// assert_eq!(joined.conditions().count(), 1);
///
/// let other = b"when http trigger if sun is up";
/// let refusal = tergyosul::join(first, other, sheet, party, &mut words, &mut others).unwrap_err();
/// assert_eq!(refusal.to_string(), "the conditions of the two rules differ (refusal 51)");
///
/// let refusal = tergyosul::join(first, b"when lamp(\"Till\")", sheet, party, &mut words, &mut others).unwrap_err();
/// assert_eq!(refusal.text, Some(Text::Second));
/// assert_eq!(refusal.to_string(), "second text, 1:11: no row of that kind has the name (refusal 31)");
/// # Ok::<(), tergyosul::JoinRefusal>(())
/// ```
///
/// # Panics
///
/// As [`read`](crate::read).
pub fn join<'a>(
    first: &[u8],
    second: &[u8],
    sheet: &[u8],
    call: impl Into<Call<'a>>,
    words: &mut [u32],
    others: &mut [u32],
) -> Result<Joined, JoinRefusal> {
    let call = call.into();
    let answer = answer_of(|answer| boundary::join([first, second], sheet, call, [words, others], answer))
        .map_err(|refusal| JoinRefusal { text: None, refusal })?;
    layout::joined(&answer)
}
