//! How many quorums mnemonics have.
use crate::{Error, ffi};

/// Gives how many quorums mnemonics have, or [`u64::MAX`] if they have more.
///
/// `lines` is as for [`recover`](crate::recover()). The call needs no passphrase, and decrypts nothing. A repeated mnemonic counts
/// once. Mnemonics without a quorum are no error: they have 0. A drill of these lines, from its start on, gives as many outcomes.
///
/// Gives the error of the first refused line (with the codes 11 to 15, 21 to 28 and 71), or else [`Error::NoShares`] if no
/// line holds a mnemonic.
///
/// ```
/// use shamir::{Error, quorums};
///
/// # fn main() -> Result<(), Error> {
/// let line = "duckling enlarge academic academic agency result length solution fridge kidney coal piece deal husband erode duke ajar critical decision keyboard";
/// assert_eq!(quorums(line)?, 1);
/// assert_eq!(quorums("# no mnemonic").unwrap_err(), Error::NoShares);
/// # Ok(())
/// # }
/// ```
pub fn quorums(lines: impl AsRef<[u8]>) -> Result<u64, Error> {
    Ok(ffi::quorums(lines.as_ref()).checked()?.first)
}
