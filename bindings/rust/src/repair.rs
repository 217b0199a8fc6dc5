//! Lines of which some words can't be read.
use crate::error::Error;
use crate::ffi;
use crate::text::{one_line, text_of};

/// The greatest length of what [`repair_into`] writes.
///
/// ```
/// let room = [0; shamir::REPAIRED_BYTES_MAX];
/// # let _ = room;
/// ```
pub const REPAIRED_BYTES_MAX: usize = 1980;

/// Finds the mnemonics that fit a line, and writes them into the caller's room, with a line feed after each. It needs no
/// allocator.
///
/// It is as `repair`, and gives [`Error::TooShort`] too, after all others. [`REPAIRED_BYTES_MAX`] bytes are always enough. After an
/// error, the room is unchanged.
///
/// ```
/// use shamir::{REPAIRED_BYTES_MAX, repair_into};
///
/// # fn main() -> Result<(), shamir::Error> {
/// let line = "duckling enlarge academic academic agency result length solution fridge kidney coal piece deal husband erode duke ajar critical decision keyb?";
/// let mut room = [0; REPAIRED_BYTES_MAX];
/// assert!(repair_into(line, &mut room)?.ends_with(" keyboard\n"));
/// # Ok(())
/// # }
/// ```
pub fn repair_into(line: impl AsRef<[u8]>, room: &mut [u8]) -> Result<&str, Error> {
    let written = ffi::repair(one_line(line.as_ref()), room).checked()?.written();
    Ok(text_of(&room[..written]))
}

/// Finds the mnemonics that fit a line of which some words can't be read, in ascending order of their words' indices.
///
/// The line is a list of marks, separated as words are. A word of the word list stands for itself. Letters followed by one `?`
/// stand for every word that begins with them, and `?` alone stands for any word. A place is open if its mark stands for more than
/// one word. At most two mnemonics fit, and two only if the second word is open.
///
/// Each open place uses up one of the three words of the checksum. With three open places, a wrong word elsewhere isn't always
/// found, and the answer may be another mnemonic. So compare the answer with all that can be read.
///
/// Gives the first of these errors that applies: [`Error::UnknownWord`], [`Error::WordCount`], [`Error::UnreadableWords`],
/// [`Error::NoMnemonic`], [`Error::WrongWord`], [`Error::BadChecksum`], [`Error::BadPadding`], [`Error::GroupThreshold`].
///
/// ```
/// use shamir::{Error, repair};
///
/// # fn main() -> Result<(), Error> {
/// let line = "duckling enlarge academic academic agency result length solution fridge kidney coal piece deal husband erode duke ajar critical ? keyb?";
/// let found = repair(line)?;
/// assert!(found.iter().all(|mnemonic| mnemonic.ends_with("critical decision keyboard")));
///
/// let wrong = line.replace("? keyb?", "decision kidney");
/// assert_eq!(repair(wrong).unwrap_err(), Error::WrongWord { position: 20 });
/// # Ok(())
/// # }
/// ```
#[cfg(feature = "alloc")]
pub fn repair(line: impl AsRef<[u8]>) -> Result<crate::Mnemonics, Error> {
    crate::Mnemonics::written_by(REPAIRED_BYTES_MAX, |room| ffi::repair(one_line(line.as_ref()), room))
}
