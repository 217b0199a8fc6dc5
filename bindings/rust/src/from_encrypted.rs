//! Backups of an encrypted secret.
use crate::encrypted::EncryptedSecret;
use crate::error::Error;
use crate::ffi;
use crate::plan::Plan;
use crate::text::text_of;

/// Creates a backup of the encrypted secret of an extendable backup, and writes its mnemonics into the caller's room. It needs no
/// allocator.
///
/// It is as `create_from_encrypted`, and gives [`Error::TooShort`] too, after all others.
/// [`MNEMONICS_BYTES_MAX`](crate::MNEMONICS_BYTES_MAX) bytes are always enough. After an error, the room is unchanged.
///
/// ```
/// use shamir::{EncryptedSecret, Error, Plan, Secret, create_from_encrypted_into};
///
/// # fn main() -> Result<(), Error> {
/// # let random = [7; 14];
/// let plan: Plan = "2of3".parse()?;
/// let kept = EncryptedSecret { id: 7945, extendable: true, exponent: 2, value: Secret::new(&[7; 16])? };
/// let mut room = [0; 1000];
/// assert_eq!(create_from_encrypted_into(&plan, &kept, &random, &mut room)?.lines().count(), 3);
/// assert_eq!(create_from_encrypted_into(&plan, &kept, &[], &mut room), Err(Error::RandomLength { needed: 14 }));
/// # Ok(())
/// # }
/// ```
pub fn create_from_encrypted_into<'room>(
    plan: &Plan,
    secret: &EncryptedSecret,
    random: &[u8],
    room: &'room mut [u8],
) -> Result<&'room str, Error> {
    let (plan, parameters) = (plan.as_str().as_bytes(), secret.parameters());
    let answer = ffi::create_from_encrypted(plan, &parameters, secret.value.as_bytes(), random, room);
    let written = answer.checked()?.written();
    Ok(text_of(&room[..written]))
}

#[cfg(feature = "alloc")]
mod in_heap {
    use crate::create::MNEMONICS_BYTES_MAX;
    use crate::encrypted::EncryptedSecret;
    use crate::error::Error;
    use crate::ffi;
    use crate::mnemonics::Mnemonics;
    use crate::plan::Plan;
    use crate::resplit::with_other_identifier;

    /// Creates a backup of the encrypted secret of an extendable backup, by a plan, and gives its mnemonics.
    ///
    /// `secret` is what [`encrypted`](crate::encrypted()) gave. The call needs no passphrase, and decrypts nothing. With each
    /// passphrase, the new backup gives what [`decrypt`](crate::decrypt) gives. `encrypted` and this call after it give what
    /// [`resplit`](crate::resplit()) gives. `random` is as for that, and [`create_from_encrypted_with`] draws it.
    ///
    /// Gives the first of these errors that applies: [`Error::OutOfRange`] (an identifier above 32767, or an exponent above 15),
    /// [`Error::NotExtendable`], [`Error::RandomLength`], [`Error::SameIdentifier`].
    ///
    /// ```
    /// use shamir::{CreateOptions, Plan, RecoverOptions, Secret, create, create_from_encrypted, encrypted, recover};
    ///
    /// # fn main() -> Result<(), shamir::Error> {
    /// let (old, new): (Plan, Plan) = ("2of3".parse()?, "2of2".parse()?);
    /// let secret = Secret::new(&[7; 16])?;
    /// # let (random, other) = ([7; 14], [1; 14]);
    /// let mnemonics = create(&old, &secret, &CreateOptions::new().extendable(true), &random)?;
    /// let kept = encrypted(&mnemonics)?;
    /// let renewed = create_from_encrypted(&new, &kept, &other)?;
    /// assert_eq!(recover(&renewed, &RecoverOptions::new())?, secret);
    /// # Ok(())
    /// # }
    /// ```
    pub fn create_from_encrypted(plan: &Plan, secret: &EncryptedSecret, random: &[u8]) -> Result<Mnemonics, Error> {
        let (plan, parameters) = (plan.as_str().as_bytes(), secret.parameters());
        Mnemonics::written_by(MNEMONICS_BYTES_MAX, |room| {
            ffi::create_from_encrypted(plan, &parameters, secret.value.as_bytes(), random, room)
        })
    }

    /// Creates a backup of the encrypted secret of an extendable backup, with random bytes that a closure draws.
    ///
    /// The closure is as for [`resplit_with`](crate::resplit_with). The other errors are those of [`create_from_encrypted`].
    ///
    /// ```
    /// use shamir::{EncryptedSecret, Secret, create_from_encrypted_with};
    /// use std::{error::Error, fs::File, io::Read};
    ///
    /// # fn main() -> Result<(), Box<dyn Error>> {
    /// let mut source = File::open("/dev/urandom")?;
    /// let kept = EncryptedSecret { id: 7945, extendable: true, exponent: 2, value: Secret::new(&[7; 16])? };
    /// let draw = |room: &mut [u8]| source.read_exact(room).map_err(Box::<dyn Error>::from);
    /// assert_eq!(create_from_encrypted_with(&"3of5".parse()?, &kept, draw)?.len(), 5);
    /// # Ok(())
    /// # }
    /// ```
    pub fn create_from_encrypted_with<E: From<Error>>(
        plan: &Plan,
        secret: &EncryptedSecret,
        draw: impl FnMut(&mut [u8]) -> Result<(), E>,
    ) -> Result<Mnemonics, E> {
        with_other_identifier(|random| create_from_encrypted(plan, secret, random), draw)
    }
}

#[cfg(feature = "alloc")]
pub use in_heap::{create_from_encrypted, create_from_encrypted_with};
