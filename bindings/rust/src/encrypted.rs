//! The encrypted secret of a backup.
use core::fmt;

use crate::error::Error;
use crate::ffi::{self, Parameters};
use crate::recover::expected_of;
use crate::secret::Secret;

/// The encrypted secret of a backup, and the parameters that decrypt it together with the passphrase.
///
/// Whoever has it can test guesses of the passphrase, and without a passphrase it is as secret as the secret itself. So its value is
/// a [`Secret`], and `Debug` leaves the bytes out.
///
/// ```
/// use shamir::{DecryptOptions, EncryptedSecret, Secret, decrypt, fingerprint};
///
/// # fn main() -> Result<(), shamir::Error> {
/// let value = Secret::new(b"\x11\xbc\x60\x9d\x21\x74\x7c\x49\xba\x78\xc0\x70\x12\x93\xe4\x17")?;
/// let kept = EncryptedSecret { id: 7945, extendable: false, exponent: 0, value };
/// let secret = decrypt(&kept, &DecryptOptions::new().passphrase("TREZOR"))?;
/// assert_eq!(fingerprint(&secret).as_str(), "df41d8fe");
/// # Ok(())
/// # }
/// ```
#[derive(Clone, Debug, PartialEq, Eq)]
pub struct EncryptedSecret {
    /// The identifier of the backup, 0 to 32767.
    pub id: u16,
    /// The extendable flag.
    pub extendable: bool,
    /// The iteration exponent, 0 to 15.
    pub exponent: u8,
    /// The bytes, as many as the secret has.
    pub value: Secret,
}

impl EncryptedSecret {
    pub(crate) fn parameters(&self) -> Parameters {
        Parameters { id: self.id, extendable: u8::from(self.extendable), exponent: self.exponent }
    }
}

/// Combines the first quorum of mnemonics, in the order of a drill, to the encrypted secret, and gives it with its parameters.
///
/// `lines` is as for [`recover`](crate::recover()), which gives what [`decrypt`] gives of the result. The call needs no passphrase, and
/// makes no iterations. So a program can keep the encrypted secret in place of the mnemonics, and ask for the passphrase each time.
///
/// Gives the error of the first refused line (with the codes 11 to 15, 21 to 28 and 71), or else the first of these that applies:
/// [`Error::NoShares`], [`Error::Incomplete`], [`Error::DigestMismatch`].
///
/// ```
/// use shamir::{DecryptOptions, RecoverOptions, decrypt, encrypted, recover};
///
/// # fn main() -> Result<(), shamir::Error> {
/// let lines = "shadow pistol academic always adequate wildlife fancy gross oasis cylinder mustang wrist rescue view short owner flip making coding armed
/// shadow pistol academic acid actress prayer class unknown daughter sweater depict flip twice unkind craft early superior advocate guest smoking";
/// let kept = encrypted(lines)?;
/// assert_eq!((kept.id, kept.extendable, kept.exponent), (25653, false, 2));
/// let secret = decrypt(&kept, &DecryptOptions::new().passphrase("TREZOR"))?;
/// assert_eq!(secret, recover(lines, &RecoverOptions::new().passphrase("TREZOR"))?);
/// # Ok(())
/// # }
/// ```
pub fn encrypted(lines: impl AsRef<[u8]>) -> Result<EncryptedSecret, Error> {
    let mut found = Parameters::default();
    let value = Secret::written_by(|room| ffi::encrypted(lines.as_ref(), &mut found, room))?;
    Ok(EncryptedSecret { id: found.id, extendable: found.extendable != 0, exponent: found.exponent, value })
}

/// The options of [`decrypt`]: the passphrase, and the fingerprint that the secret should have.
///
/// ```
/// use shamir::DecryptOptions;
///
/// let options = DecryptOptions::new().passphrase("TREZOR");
/// assert_eq!(format!("{options:?}"), "DecryptOptions { passphrase: .., expected: .. }");
/// ```
#[derive(Clone, Copy, Default)]
#[must_use]
pub struct DecryptOptions<'a> {
    passphrase: &'a [u8],
    /// The digits of a fingerprint. If there are none, the library compares nothing.
    expected: &'a [u8],
}

impl<'a> DecryptOptions<'a> {
    /// Gives the options with no passphrase. Every secret is accepted.
    ///
    /// ```
    /// let options = shamir::DecryptOptions::new();
    /// # let _ = options;
    /// ```
    pub fn new() -> DecryptOptions<'a> {
        DecryptOptions::default()
    }

    /// Sets the passphrase of the backup. A wrong one gives another secret. Only a fingerprint that is [expected](Self::expected)
    /// detects it.
    ///
    /// ```
    /// let options = shamir::DecryptOptions::new().passphrase("TREZOR");
    /// # let _ = options;
    /// ```
    pub fn passphrase<Text: AsRef<[u8]> + ?Sized>(self, passphrase: &'a Text) -> DecryptOptions<'a> {
        DecryptOptions { passphrase: passphrase.as_ref(), ..self }
    }

    /// Sets the [fingerprint](crate::Fingerprint) that the secret should have: eight hexadecimal digits, in lower or upper case.
    /// [`decrypt`] refuses a secret with another fingerprint.
    ///
    /// ```
    /// use shamir::{DecryptOptions, Error, decrypt, encrypted};
    ///
    /// # fn main() -> Result<(), Error> {
    /// # let line = "duckling enlarge academic academic agency result length solution fridge kidney coal piece deal husband erode duke ajar critical decision keyboard";
    /// let noted = DecryptOptions::new().expected("df41d8fe");
    /// assert_eq!(decrypt(&encrypted(line)?, &noted.passphrase("TREZOR"))?.as_bytes().len(), 16);
    /// assert_eq!(decrypt(&encrypted(line)?, &noted.passphrase("trezor")), Err(Error::OtherSecret));
    /// # Ok(())
    /// # }
    /// ```
    pub fn expected<Text: AsRef<[u8]> + ?Sized>(self, fingerprint: &'a Text) -> DecryptOptions<'a> {
        DecryptOptions { expected: expected_of(fingerprint.as_ref()), ..self }
    }
}

impl fmt::Debug for DecryptOptions<'_> {
    fn fmt(&self, formatter: &mut fmt::Formatter<'_>) -> fmt::Result {
        let mut shown = formatter.debug_struct("DecryptOptions");
        shown.field("passphrase", &format_args!("..")).field("expected", &format_args!("..")).finish()
    }
}

/// Decrypts what [`encrypted`] gave, and gives the secret.
///
/// The call takes the iterations of [`recover`](crate::recover()), and no greatest exponent: the exponent is a field of the encrypted
/// secret.
///
/// Gives the first of these errors that applies: [`Error::OutOfRange`] (an identifier above 32767, or an exponent above 15),
/// [`Error::BadFingerprint`], [`Error::Passphrase`], [`Error::OtherSecret`].
///
/// ```
/// use shamir::{DecryptOptions, Error, decrypt, encrypted};
///
/// # fn main() -> Result<(), Error> {
/// # let line = "duckling enlarge academic academic agency result length solution fridge kidney coal piece deal husband erode duke ajar critical decision keyboard";
/// let mut kept = encrypted(line)?;
/// assert_eq!(decrypt(&kept, &DecryptOptions::new().passphrase("TREZOR"))?.as_bytes()[..4], [0xbb, 0x54, 0xaa, 0xc4]);
///
/// kept.exponent = 16;
/// assert_eq!(decrypt(&kept, &DecryptOptions::new()), Err(Error::OutOfRange));
/// # Ok(())
/// # }
/// ```
pub fn decrypt(encrypted: &EncryptedSecret, options: &DecryptOptions<'_>) -> Result<Secret, Error> {
    let parameters = encrypted.parameters();
    Secret::written_by(|room| ffi::decrypt(&parameters, encrypted.value.as_bytes(), options.passphrase, options.expected, room))
}

/// Undoes one of the four rounds of the cipher, and gives the text.
///
/// The rounds 3, 2, 1 and 0, in this order and each with the text of the one before as the value, give the secret that [`decrypt`] gives.
/// A call takes a quarter of its iterations. [`decrypt_rounds`] makes all four.
///
/// Gives the first of these errors that applies: [`Error::OutOfRange`] (an identifier above 32767, an exponent above 15, or a round above
/// 3), [`Error::Passphrase`].
///
/// ```
/// use shamir::{Error, decrypt_round, encrypted};
///
/// # fn main() -> Result<(), Error> {
/// # let line = "duckling enlarge academic academic agency result length solution fridge kidney coal piece deal husband erode duke ajar critical decision keyboard";
/// let mut text = encrypted(line)?;
/// for round in [3, 2, 1, 0] {
///     text.value = decrypt_round(&text, round, "TREZOR")?;
/// }
/// assert_eq!(text.value.as_bytes()[..4], [0xbb, 0x54, 0xaa, 0xc4]);
/// assert_eq!(decrypt_round(&text, 4, "TREZOR"), Err(Error::OutOfRange));
/// # Ok(())
/// # }
/// ```
pub fn decrypt_round(encrypted: &EncryptedSecret, round: u8, passphrase: impl AsRef<[u8]>) -> Result<Secret, Error> {
    let parameters = encrypted.parameters();
    Secret::written_by(|room| ffi::decrypt_round(&parameters, round, encrypted.value.as_bytes(), passphrase.as_ref(), room))
}

/// Decrypts what [`encrypted`] gave round by round, so that a program can show how far it is, and stop.
///
/// After each of the first three rounds, the closure gets how many of the four are undone, and says whether to go on. If it stops, there
/// is no secret. The texts between the rounds are cleared. No fingerprint is compared: compare that of the secret
/// ([`fingerprint`](crate::fingerprint)).
///
/// Gives the errors of [`decrypt_round`].
///
/// ```
/// use shamir::{decrypt_rounds, encrypted};
///
/// # fn main() -> Result<(), shamir::Error> {
/// # let line = "duckling enlarge academic academic agency result length solution fridge kidney coal piece deal husband erode duke ajar critical decision keyboard";
/// let kept = encrypted(line)?;
/// let secret = decrypt_rounds(&kept, "TREZOR", |undone| {
///     println!("{undone} of 4");
///     true
/// })?;
/// assert_eq!(secret.map(|secret| secret.as_bytes()[0]), Some(0xbb));
/// assert_eq!(decrypt_rounds(&kept, "TREZOR", |_| false)?, None);
/// # Ok(())
/// # }
/// ```
pub fn decrypt_rounds(
    encrypted: &EncryptedSecret,
    passphrase: impl AsRef<[u8]>,
    mut go_on: impl FnMut(u8) -> bool,
) -> Result<Option<Secret>, Error> {
    let mut text = decrypt_round(encrypted, 3, &passphrase)?;
    for round in [2, 1, 0] {
        if !go_on(3 - round) {
            return Ok(None);
        }
        text = decrypt_round(&EncryptedSecret { value: text, ..*encrypted }, round, &passphrase)?;
    }
    Ok(Some(text))
}
