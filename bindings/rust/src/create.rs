//! Creation of backups.
use core::fmt;

use crate::error::Error;
use crate::ffi;
use crate::plan::Plan;
use crate::secret::Secret;
use crate::text::text_of;

/// The greatest iteration exponent.
///
/// ```
/// use shamir::{CreateOptions, EXPONENT_MAX};
///
/// let slowest = CreateOptions::new().passphrase("TREZOR").exponent(EXPONENT_MAX);
/// # let _ = slowest;
/// ```
pub const EXPONENT_MAX: u32 = 15;

/// The greatest number of random bytes that a backup takes.
///
/// ```
/// # fn main() -> Result<(), shamir::Error> {
/// let plan: shamir::Plan = ["16/16of16", &",16of16".repeat(15)].concat().parse()?;
/// assert_eq!(plan.random_needed(shamir::SECRET_BYTES_MAX)?, shamir::RANDOM_BYTES_MAX);
/// # Ok(())
/// # }
/// ```
pub const RANDOM_BYTES_MAX: usize = 32574;

/// The greatest length of the mnemonics of a backup, with a line feed after each.
///
/// ```
/// let mut room = vec![0; shamir::MNEMONICS_BYTES_MAX];
/// # room.clear();
/// ```
pub const MNEMONICS_BYTES_MAX: usize = 253440;

/// The options of a creation: the passphrase, the iteration exponent and the extendable flag.
///
/// ```
/// use shamir::CreateOptions;
///
/// let options = CreateOptions::new().passphrase("TREZOR").exponent(1).extendable(true);
/// assert_eq!(format!("{options:?}"), "CreateOptions { passphrase: .., exponent: 1, extendable: true }");
/// ```
#[derive(Clone, Copy)]
#[must_use]
pub struct CreateOptions<'a> {
    passphrase: &'a [u8],
    exponent: u32,
    extendable: bool,
}

impl<'a> CreateOptions<'a> {
    /// Gives the options with no passphrase, the exponent 1, and the extendable flag: the defaults of python-shamir-mnemonic, the
    /// reference implementation of the standard.
    ///
    /// Leave the flag out if a wallet that has to read the backup may not know it. Without a passphrase, the exponent protects
    /// nothing.
    ///
    /// ```
    /// let options = shamir::CreateOptions::new();
    /// assert_eq!(format!("{options:?}"), "CreateOptions { passphrase: .., exponent: 1, extendable: true }");
    /// ```
    pub fn new() -> CreateOptions<'a> {
        CreateOptions { passphrase: b"", exponent: 1, extendable: true }
    }

    /// Sets the passphrase, an additional secret that a recovery needs too. It is printable ASCII, and may be empty.
    ///
    /// ```
    /// let options = shamir::CreateOptions::new().passphrase("TREZOR").exponent(1);
    /// # let _ = options;
    /// ```
    pub fn passphrase<Text: AsRef<[u8]> + ?Sized>(self, passphrase: &'a Text) -> CreateOptions<'a> {
        CreateOptions { passphrase: passphrase.as_ref(), ..self }
    }

    /// Sets the iteration exponent, 0 to 15. A creation takes 10,000 * 2^exponent iterations of PBKDF2, and twice as many for a
    /// secret of more than 64 bytes. So does each recovery, and each guess of the passphrase.
    ///
    /// ```
    /// let options = shamir::CreateOptions::new().passphrase("TREZOR").exponent(5);
    /// # let _ = options;
    /// ```
    pub fn exponent(self, exponent: u32) -> CreateOptions<'a> {
        CreateOptions { exponent, ..self }
    }

    /// Sets or clears the extendable flag, which leaves the backup's identifier out of the encryption.
    ///
    /// ```
    /// let options = shamir::CreateOptions::new().extendable(false);
    /// # let _ = options;
    /// ```
    pub fn extendable(self, extendable: bool) -> CreateOptions<'a> {
        CreateOptions { extendable, ..self }
    }
}

impl Default for CreateOptions<'_> {
    fn default() -> Self {
        CreateOptions::new()
    }
}

impl fmt::Debug for CreateOptions<'_> {
    fn fmt(&self, formatter: &mut fmt::Formatter<'_>) -> fmt::Result {
        let mut shown = formatter.debug_struct("CreateOptions");
        let shown = shown.field("passphrase", &format_args!("..")).field("exponent", &self.exponent);
        shown.field("extendable", &self.extendable).finish()
    }
}

/// Creates a backup of a secret, and writes its mnemonics into the caller's room. It needs no allocator.
///
/// The mnemonics are in the order of groups and members, with a line feed after each. [`MNEMONICS_BYTES_MAX`] bytes are always
/// enough. The caller clears the room.
///
/// `random` has exactly as many bytes as [`Plan::random_needed`] gives. They must be unpredictable, and no other backup may use
/// them.
///
/// Gives the first of these errors that applies: [`Error::OutOfRange`] (an exponent above 15), [`Error::Passphrase`],
/// [`Error::RandomLength`], [`Error::TooShort`]. After an error, the room is unchanged.
///
/// ```
/// use shamir::{CreateOptions, Plan, Secret, create_into};
///
/// # fn main() -> Result<(), shamir::Error> {
/// let plan: Plan = "1of1".parse()?;
/// # let random = [7; 2];
/// let mut room = [0; 1000];
/// let text = create_into(&plan, &Secret::new(&[7; 16])?, &CreateOptions::new(), &random, &mut room)?;
/// assert_eq!(text.lines().count(), 1);
/// # Ok(())
/// # }
/// ```
pub fn create_into<'room>(
    plan: &Plan,
    secret: &Secret,
    options: &CreateOptions<'_>,
    random: &[u8],
    room: &'room mut [u8],
) -> Result<&'room str, Error> {
    let written = written(plan, secret, options, random, room).checked()?.written();
    Ok(text_of(&room[..written]))
}

fn written(plan: &Plan, secret: &Secret, options: &CreateOptions<'_>, random: &[u8], room: &mut [u8]) -> ffi::Answer {
    let CreateOptions { passphrase, exponent, extendable } = *options;
    ffi::create(plan.as_str().as_bytes(), secret.as_bytes(), passphrase, exponent, extendable, random, room)
}

#[cfg(feature = "alloc")]
mod in_heap {
    use super::{CreateOptions, MNEMONICS_BYTES_MAX, written};
    use crate::error::Error;
    use crate::mnemonics::Mnemonics;
    use crate::plan::Plan;
    use crate::room::Room;
    use crate::secret::Secret;

    /// Creates a backup of a secret, and gives its mnemonics in the order of groups and members.
    ///
    /// `random` has exactly as many bytes as [`Plan::random_needed`] gives. They must be unpredictable, and no other backup may
    /// use them. [`create_with`] draws them.
    ///
    /// Gives the first of these errors that applies: [`Error::OutOfRange`] (an exponent above 15), [`Error::Passphrase`],
    /// [`Error::RandomLength`].
    ///
    /// ```
    /// use shamir::{CreateOptions, Error, Plan, Secret, create};
    ///
    /// # fn main() -> Result<(), Error> {
    /// let plan: Plan = "2of3".parse()?;
    /// let secret = Secret::new(&[7; 16])?;
    /// let options = CreateOptions::new().passphrase("TREZOR");
    /// # let random = [7; 14];
    /// let mnemonics = create(&plan, &secret, &options, &random)?;
    /// assert_eq!(mnemonics.len(), 3);
    /// let error = create(&plan, &secret, &options, &random[1..]).unwrap_err();
    /// assert_eq!(error, Error::RandomLength { needed: 14 });
    /// # Ok(())
    /// # }
    /// ```
    pub fn create(plan: &Plan, secret: &Secret, options: &CreateOptions<'_>, random: &[u8]) -> Result<Mnemonics, Error> {
        Mnemonics::written_by(MNEMONICS_BYTES_MAX, |room| written(plan, secret, options, random, room))
    }

    /// Creates a backup of a secret, with random bytes that a closure draws.
    ///
    /// The closure fills the slice with unpredictable bytes, such as those of the operating system. They are cleared afterwards. If
    /// the closure fails, its error is the result. The other errors are those of [`create`].
    ///
    /// ```
    /// use shamir::{CreateOptions, Plan, Secret, create_with};
    /// use std::{error::Error, fs::File, io::Read};
    ///
    /// # fn main() -> Result<(), Box<dyn Error>> {
    /// let mut source = File::open("/dev/urandom")?;
    /// let mut draw = |room: &mut [u8]| source.read_exact(room).map_err(Box::<dyn Error>::from);
    /// let secret = Secret::draw(16, &mut draw)?;
    /// let mnemonics = create_with(&"2of3".parse()?, &secret, &CreateOptions::new(), &mut draw)?;
    /// assert_eq!(mnemonics.len(), 3);
    /// # Ok(())
    /// # }
    /// ```
    pub fn create_with<E: From<Error>>(
        plan: &Plan,
        secret: &Secret,
        options: &CreateOptions<'_>,
        draw: impl FnOnce(&mut [u8]) -> Result<(), E>,
    ) -> Result<Mnemonics, E> {
        let mut random = Room::new(plan.random_needed(secret.as_bytes().len())?);
        draw(random.bytes_mut())?;
        Ok(create(plan, secret, options, random.bytes())?)
    }
}

#[cfg(feature = "alloc")]
pub use in_heap::{create, create_with};
