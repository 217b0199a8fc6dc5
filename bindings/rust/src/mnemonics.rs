//! Mnemonics, each on a line.
use core::fmt;
use core::str::Lines;

use crate::error::Error;
use crate::ffi::Answer;
use crate::room::Room;
use crate::text::{one_line, text_of};

/// It takes the place of an item that isn't one line. If the item began with `#`, the library would take the first line of it for a
/// comment.
const NO_LINE: &str = "\u{240a}";

/// Mnemonics, each on a line of one text. They are as secret as the secret itself.
///
/// `Debug` says how many there are. The text is cleared when it is dropped. It is what the calls take that take lines.
///
/// Mnemonics can be collected from lines, each of which may end with a line feed. An item with a line feed inside it isn't a line.
/// The calls refuse it ([`Error::UnknownWord`]), because `\u{240a}`, which is no word, takes its place. So [`recover`](crate::recover())
/// gets a part of a backup:
///
/// ```
/// use shamir::{CreateOptions, Mnemonics, Plan, RecoverOptions, Secret, create, recover};
///
/// # fn main() -> Result<(), shamir::Error> {
/// let plan: Plan = "2of3".parse()?;
/// let secret = Secret::new(&[7; 16])?;
/// # let random = [7; 14];
/// let mnemonics = create(&plan, &secret, &CreateOptions::new(), &random)?;
/// assert_eq!(format!("{mnemonics:?}"), "Mnemonics(3)");
/// let two: Mnemonics = mnemonics.iter().skip(1).collect();
/// assert_eq!(recover(&two, &RecoverOptions::new())?, secret);
/// # Ok(())
/// # }
/// ```
#[derive(Clone, Default)]
pub struct Mnemonics {
    /// Texts, with a line feed after each.
    text: Room,
}

impl Mnemonics {
    /// Gives the mnemonics in their order.
    ///
    /// ```
    /// let mnemonics: shamir::Mnemonics = ["academic acid", "academic acne"].into_iter().collect();
    /// assert_eq!(mnemonics.iter().nth(1), Some("academic acne"));
    /// ```
    pub fn iter(&self) -> Lines<'_> {
        self.as_str().lines()
    }

    /// Gives how many lines there are.
    ///
    /// ```
    /// assert_eq!(["academic acid", "academic acne"].into_iter().collect::<shamir::Mnemonics>().len(), 2);
    /// ```
    #[must_use]
    pub fn len(&self) -> usize {
        self.iter().count()
    }

    /// Whether there is no line.
    ///
    /// ```
    /// assert!(shamir::Mnemonics::default().is_empty());
    /// ```
    #[must_use]
    pub fn is_empty(&self) -> bool {
        self.text.bytes().is_empty()
    }

    /// Gives the text: the mnemonics, with a line feed after each.
    ///
    /// ```
    /// assert_eq!(["academic acid"].into_iter().collect::<shamir::Mnemonics>().as_str(), "academic acid\n");
    /// ```
    #[must_use]
    pub fn as_str(&self) -> &str {
        text_of(self.text.bytes())
    }

    /// Adds other mnemonics.
    pub(crate) fn push(&mut self, others: &Mnemonics) {
        self.text.push(others.text.bytes());
    }

    /// Gives the mnemonics that a call writes into a room of this length.
    pub(crate) fn written_by(len: usize, call: impl FnOnce(&mut [u8]) -> Answer) -> Result<Mnemonics, Error> {
        Ok(Mnemonics { text: Room::written_by(len, call)? })
    }
}

impl<Line: AsRef<str>> FromIterator<Line> for Mnemonics {
    fn from_iter<Given: IntoIterator<Item = Line>>(lines: Given) -> Mnemonics {
        let mut text = Room::default();
        for line in lines {
            let line = text_of(one_line(line.as_ref().as_bytes()));
            text.push(if line.contains('\n') { NO_LINE } else { line }.as_bytes());
            text.push(b"\n");
        }
        Mnemonics { text }
    }
}

impl<'a> IntoIterator for &'a Mnemonics {
    type Item = &'a str;
    type IntoIter = Lines<'a>;

    fn into_iter(self) -> Lines<'a> {
        self.iter()
    }
}

impl AsRef<[u8]> for Mnemonics {
    fn as_ref(&self) -> &[u8] {
        self.text.bytes()
    }
}

impl fmt::Debug for Mnemonics {
    fn fmt(&self, formatter: &mut fmt::Formatter<'_>) -> fmt::Result {
        write!(formatter, "Mnemonics({})", self.len())
    }
}
