//! Backups whose encrypted secret is split anew.
use crate::error::Error;
use crate::ffi;
use crate::plan::Plan;
use crate::text::text_of;

/// Splits the encrypted secret of an extendable backup anew, and writes the mnemonics of the new backup into the caller's room. It
/// needs no allocator.
///
/// It is as `resplit`, and gives [`Error::TooShort`] too, after all others.
/// [`MNEMONICS_BYTES_MAX`](crate::MNEMONICS_BYTES_MAX) bytes are always enough. After an error, the room is unchanged.
///
/// ```
/// use shamir::{Error, Plan, resplit_into};
///
/// # fn main() -> Result<(), Error> {
/// # let old: Plan = "1of1".parse()?;
/// # let secret = shamir::Secret::new(&[7; 16])?;
/// # let mut kept = [0; 200];
/// # let options = shamir::CreateOptions::new().extendable(true);
/// # let lines = shamir::create_into(&old, &secret, &options, &[1, 1], &mut kept)?;
/// # let random = [7; 14];
/// let plan: Plan = "2of3".parse()?;
/// let mut room = [0; 1000];
/// assert_eq!(resplit_into(&plan, lines, &random, &mut room)?.lines().count(), 3);
/// assert_eq!(resplit_into(&plan, lines, &[], &mut room), Err(Error::RandomLength { needed: 14 }));
/// # Ok(())
/// # }
/// ```
pub fn resplit_into<'room>(
    plan: &Plan,
    lines: impl AsRef<[u8]>,
    random: &[u8],
    room: &'room mut [u8],
) -> Result<&'room str, Error> {
    let written = ffi::resplit(plan.as_str().as_bytes(), lines.as_ref(), random, room).checked()?.written();
    Ok(text_of(&room[..written]))
}

#[cfg(feature = "alloc")]
mod in_heap {
    use crate::create::MNEMONICS_BYTES_MAX;
    use crate::error::Error;
    use crate::ffi;
    use crate::mnemonics::Mnemonics;
    use crate::plan::Plan;
    use crate::room::Room;

    /// Random bytes are drawn so often at most. One draw in 32,768 gives the identifier of the old backup.
    const DRAWS: usize = 10;

    /// Splits the encrypted secret of an extendable backup anew, by another plan, and gives the mnemonics of this new backup.
    ///
    /// `plan` is the plan of the new backup. `lines` are mnemonics of the old backup that are enough, as for
    /// [`recover`](crate::recover()). The call needs no passphrase, and decrypts nothing. The new backup has the extendable flag and
    /// the exponent of the old one. With each passphrase, it gives the secret that the old one gives with it.
    ///
    /// `random` has exactly as many bytes as [`Plan::random_needed`] gives for a secret as long as the value of a mnemonic. They must
    /// be unpredictable, and no other backup may use them. The first two give the new identifier. [`resplit_with`] draws them.
    ///
    /// The old mnemonics go on giving the secret until they are destroyed. If somebody may have a quorum of them, use a new secret
    /// too.
    ///
    /// Gives the first of these errors that applies: that of the first refused line (with the codes 11 to 15, 21 to 28
    /// and 71), [`Error::NoShares`], [`Error::Incomplete`], [`Error::DigestMismatch`], [`Error::NotExtendable`],
    /// [`Error::RandomLength`], [`Error::SameIdentifier`].
    ///
    /// ```
    /// use shamir::{CreateOptions, Mnemonics, Plan, RecoverOptions, Secret, create, recover, resplit};
    ///
    /// # fn main() -> Result<(), shamir::Error> {
    /// let (old, new): (Plan, Plan) = ("2of3".parse()?, "3of5".parse()?);
    /// let secret = Secret::new(&[7; 16])?;
    /// # let (random, other) = ([7; 14], [1; 30]);
    /// let mnemonics = create(&old, &secret, &CreateOptions::new().extendable(true), &random)?;
    /// let split = resplit(&new, &mnemonics, &other)?;
    /// let three: Mnemonics = split.iter().skip(2).collect();
    /// assert_eq!(recover(&three, &RecoverOptions::new())?, secret);
    /// # Ok(())
    /// # }
    /// ```
    pub fn resplit(plan: &Plan, lines: impl AsRef<[u8]>, random: &[u8]) -> Result<Mnemonics, Error> {
        let (plan, lines) = (plan.as_str().as_bytes(), lines.as_ref());
        Mnemonics::written_by(MNEMONICS_BYTES_MAX, |room| ffi::resplit(plan, lines, random, room))
    }

    /// Splits the encrypted secret of an extendable backup anew, with random bytes that a closure draws.
    ///
    /// The closure fills the slice with unpredictable bytes, such as those of the operating system. They are cleared afterwards. If
    /// they give the identifier of the old backup, the closure draws others. If it fails, its error is the result. The other errors
    /// are those of [`resplit`].
    ///
    /// ```
    /// use shamir::{CreateOptions, Plan, Secret, create_with, resplit_with};
    /// use std::{error::Error, fs::File, io::Read};
    ///
    /// # fn main() -> Result<(), Box<dyn Error>> {
    /// let mut source = File::open("/dev/urandom")?;
    /// let mut draw = |room: &mut [u8]| source.read_exact(room).map_err(Box::<dyn Error>::from);
    /// let secret = Secret::draw(16, &mut draw)?;
    /// let mnemonics = create_with(&"2of3".parse()?, &secret, &CreateOptions::new().extendable(true), &mut draw)?;
    /// assert_eq!(resplit_with(&"3of5".parse()?, &mnemonics, &mut draw)?.len(), 5);
    /// # Ok(())
    /// # }
    /// ```
    pub fn resplit_with<E: From<Error>>(
        plan: &Plan,
        lines: impl AsRef<[u8]>,
        draw: impl FnMut(&mut [u8]) -> Result<(), E>,
    ) -> Result<Mnemonics, E> {
        let lines = lines.as_ref();
        with_other_identifier(|random| resplit(plan, lines, random), draw)
    }

    /// Makes mnemonics of an encrypted secret with random bytes that a closure draws. If they give the old identifier, it draws others.
    pub(crate) fn with_other_identifier<E: From<Error>>(
        make: impl Fn(&[u8]) -> Result<Mnemonics, Error>,
        mut draw: impl FnMut(&mut [u8]) -> Result<(), E>,
    ) -> Result<Mnemonics, E> {
        // A backup takes at least two random bytes, so without any the library says how many, or refuses something else.
        let needed = match make(&[]) {
            Err(Error::RandomLength { needed }) => needed as usize,
            other => return Ok(other?),
        };
        let mut random = Room::new(needed);
        for _ in 1..DRAWS {
            draw(random.bytes_mut())?;
            match make(random.bytes()) {
                Err(Error::SameIdentifier) => {}
                other => return Ok(other?),
            }
        }
        draw(random.bytes_mut())?;
        Ok(make(random.bytes())?)
    }
}

#[cfg(feature = "alloc")]
pub(crate) use in_heap::with_other_identifier;
#[cfg(feature = "alloc")]
pub use in_heap::{resplit, resplit_with};
