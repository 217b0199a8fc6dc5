//! Recovery of secrets.
use core::fmt;

use crate::create::EXPONENT_MAX;
use crate::error::Error;
use crate::ffi;
use crate::secret::Secret;

/// The options of [`recover`] and of a drill: the passphrase, the greatest iteration exponent that the caller accepts, and the
/// fingerprint that the secret should have.
///
/// ```
/// use shamir::RecoverOptions;
///
/// let options = RecoverOptions::new().passphrase("TREZOR").max_exponent(5);
/// assert_eq!(format!("{options:?}"), "RecoverOptions { passphrase: .., max_exponent: 5, expected: .. }");
/// ```
#[derive(Clone, Copy)]
#[must_use]
pub struct RecoverOptions<'a> {
    pub(crate) passphrase: &'a [u8],
    pub(crate) max_exponent: u32,
    /// The digits of a fingerprint. If there are none, the library compares nothing.
    pub(crate) expected: &'a [u8],
}

impl<'a> RecoverOptions<'a> {
    /// Gives the options with no passphrase. Every exponent and every secret is accepted.
    ///
    /// ```
    /// let options = shamir::RecoverOptions::new();
    /// # let _ = options;
    /// ```
    pub fn new() -> RecoverOptions<'a> {
        RecoverOptions { passphrase: b"", max_exponent: EXPONENT_MAX, expected: b"" }
    }

    /// Sets the passphrase of the backup. A wrong one gives another secret. Only a fingerprint that is [expected](Self::expected)
    /// detects it.
    ///
    /// ```
    /// let options = shamir::RecoverOptions::new().passphrase("TREZOR");
    /// # let _ = options;
    /// ```
    pub fn passphrase<Text: AsRef<[u8]> + ?Sized>(self, passphrase: &'a Text) -> RecoverOptions<'a> {
        RecoverOptions { passphrase: passphrase.as_ref(), ..self }
    }

    /// Sets the greatest exponent that the caller accepts. Mnemonics with a greater one are refused before anything is decrypted.
    ///
    /// ```
    /// use shamir::{Error, RecoverOptions, recover};
    ///
    /// let lines = "shadow pistol academic always adequate wildlife fancy gross oasis cylinder mustang wrist rescue view short owner flip making coding armed
    /// shadow pistol academic acid actress prayer class unknown daughter sweater depict flip twice unkind craft early superior advocate guest smoking";
    /// let error = recover(lines, &RecoverOptions::new().max_exponent(1)).unwrap_err();
    /// assert_eq!(error, Error::HighExponent { exponent: 2 });
    /// ```
    pub fn max_exponent(self, max_exponent: u32) -> RecoverOptions<'a> {
        RecoverOptions { max_exponent, ..self }
    }

    /// Sets the [fingerprint](crate::Fingerprint) that the secret should have: eight hexadecimal digits, in lower or upper case.
    ///
    /// [`recover`] refuses a secret with another fingerprint. A drill says of each quorum whether its secret has this fingerprint,
    /// and gives neither secrets nor fingerprints.
    ///
    /// ```
    /// use shamir::{Error, RecoverOptions, recover};
    ///
    /// # fn main() -> Result<(), Error> {
    /// # let line = "duckling enlarge academic academic agency result length solution fridge kidney coal piece deal husband erode duke ajar critical decision keyboard";
    /// let noted = RecoverOptions::new().expected("df41d8fe");
    /// assert_eq!(recover(line, &noted.passphrase("TREZOR"))?.as_bytes().len(), 16);
    /// assert_eq!(recover(line, &noted.passphrase("trezor")), Err(Error::OtherSecret));
    /// # Ok(())
    /// # }
    /// ```
    pub fn expected<Text: AsRef<[u8]> + ?Sized>(self, fingerprint: &'a Text) -> RecoverOptions<'a> {
        RecoverOptions { expected: expected_of(fingerprint.as_ref()), ..self }
    }
}

/// Gives the text of a fingerprint as the library takes it. There, an empty text means that nothing is compared. Here it is no
/// fingerprint, so a hyphen, which the library refuses, takes its place.
pub(crate) fn expected_of(fingerprint: &[u8]) -> &[u8] {
    match fingerprint {
        [] => b"-",
        digits => digits,
    }
}

impl Default for RecoverOptions<'_> {
    fn default() -> Self {
        RecoverOptions::new()
    }
}

impl fmt::Debug for RecoverOptions<'_> {
    fn fmt(&self, formatter: &mut fmt::Formatter<'_>) -> fmt::Result {
        let mut shown = formatter.debug_struct("RecoverOptions");
        let shown = shown.field("passphrase", &format_args!("..")).field("max_exponent", &self.max_exponent);
        shown.field("expected", &format_args!("..")).finish()
    }
}

/// Recovers the secret from the first quorum of mnemonics, in the order of a drill. It doesn't try mnemonics beyond that quorum.
///
/// `lines` is one text. Each line is a mnemonic, or a comment, or blank. A comment starts with `#`, after any spaces, tabs and
/// carriage returns. A line has at most 1,024 bytes without its line feed. A repeated mnemonic changes nothing.
///
/// The exponent of the mnemonics determines how long the call takes: 10,000 * 2^exponent iterations of PBKDF2, and twice as many
/// for a secret of more than 64 bytes. With the exponent 15 these take minutes.
///
/// Gives the first of these errors that applies: [`Error::BadFingerprint`], [`Error::Passphrase`], that of the first refused line,
/// [`Error::NoShares`], [`Error::Incomplete`], [`Error::HighExponent`], [`Error::DigestMismatch`], [`Error::OtherSecret`]. The errors
/// of a line are those with the codes 11 to 15, 21 to 28 and 71.
///
/// ```
/// use shamir::{Error, RecoverOptions, fingerprint, recover};
///
/// # fn main() -> Result<(), Error> {
/// let lines = "shadow pistol academic always adequate wildlife fancy gross oasis cylinder mustang wrist rescue view short owner flip making coding armed
/// shadow pistol academic acid actress prayer class unknown daughter sweater depict flip twice unkind craft early superior advocate guest smoking";
/// let secret = recover(lines, &RecoverOptions::new().passphrase("TREZOR"))?;
/// assert_eq!(secret.as_bytes()[..4], [0xb4, 0x3c, 0xeb, 0x7e]);
///
/// let first = lines.lines().next().unwrap();
/// assert_eq!(recover(first, &RecoverOptions::new()), Err(Error::Incomplete { complete: 0, required: 1 }));
/// # Ok(())
/// # }
/// ```
pub fn recover(lines: impl AsRef<[u8]>, options: &RecoverOptions<'_>) -> Result<Secret, Error> {
    let RecoverOptions { passphrase, max_exponent, expected } = *options;
    Secret::written_by(|room| ffi::recover(lines.as_ref(), passphrase, max_exponent, expected, room))
}
