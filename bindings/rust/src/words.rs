//! The word list.
use crate::error::Error;
use crate::ffi;
use crate::text::text_of;

/// The length of all words of the list, with a line feed after each.
///
/// ```
/// # fn main() -> Result<(), shamir::Error> {
/// let mut room = [0; shamir::WORDS_BYTES_MAX];
/// assert_eq!(shamir::words_into("", &mut room)?.len(), shamir::WORDS_BYTES_MAX);
/// # Ok(())
/// # }
/// ```
pub const WORDS_BYTES_MAX: usize = 7231;

/// Writes the words that begin with these letters into the caller's room, with a line feed after each. It needs no allocator.
///
/// It is as `words`, and gives [`Error::TooShort`] if the room is too short. [`WORDS_BYTES_MAX`] bytes are always enough.
///
/// ```
/// # fn main() -> Result<(), shamir::Error> {
/// let mut room = [0; shamir::WORDS_BYTES_MAX];
/// assert_eq!(shamir::words_into("aca", &mut room)?, "academic\n");
/// # Ok(())
/// # }
/// ```
pub fn words_into(letters: impl AsRef<[u8]>, room: &mut [u8]) -> Result<&str, Error> {
    let written = ffi::words(letters.as_ref(), room).checked()?.written();
    Ok(text_of(&room[..written]))
}

/// Gives the words of the word list that begin with these letters, in the order of the list.
///
/// Upper-case letters count as lower-case ones. No word begins with any other byte. Without letters, all 1,024 words are given.
///
/// ```
/// use shamir::words;
///
/// assert_eq!(words("aca"), ["academic"]);
/// assert_eq!(words("").len(), 1024);
/// ```
///
/// # Panics
///
/// It panics if the library is linked as plain C, and `malloc` gives no memory.
#[cfg(feature = "alloc")]
#[must_use]
pub fn words(letters: impl AsRef<[u8]>) -> alloc::vec::Vec<alloc::string::String> {
    let mut room = [0; WORDS_BYTES_MAX];
    let text = words_into(letters, &mut room).expect("the room is enough for all words");
    let found = text.lines().map(Into::into).collect();
    ffi::wipe(&mut room);
    found
}
