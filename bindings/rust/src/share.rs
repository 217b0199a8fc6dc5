//! The fields and the value of a mnemonic.
use core::str::FromStr;

use crate::error::Error;
use crate::ffi::{self, Fields};
use crate::name::Name;
use crate::secret::Secret;
use crate::text::one_line;

/// The fields and the value of a mnemonic, as SLIP-0039 has them in "Format of the share mnemonic".
///
/// The value is as secret as the mnemonic, so it is a [`Secret`], and `Debug` leaves its bytes out.
///
/// ```
/// use shamir::{Share, parse};
///
/// # fn main() -> Result<(), shamir::Error> {
/// let line = "shadow pistol academic always adequate wildlife fancy gross oasis cylinder mustang wrist rescue view short owner flip making coding armed";
/// let share: Share = parse(line)?;
/// assert_eq!((share.id, share.extendable, share.exponent), (25653, false, 2));
/// assert_eq!((share.group_index, share.group_threshold, share.group_count), (0, 1, 1));
/// assert_eq!((share.member_index, share.member_threshold), (2, 2));
/// assert_eq!(share.value.as_bytes().len(), 16);
/// # Ok(())
/// # }
/// ```
#[derive(Clone, Debug, PartialEq, Eq)]
#[non_exhaustive]
pub struct Share {
    /// The identifier of the backup, 0 to 32767.
    pub id: u16,
    /// The extendable flag.
    pub extendable: bool,
    /// The iteration exponent, 0 to 15.
    pub exponent: u8,
    /// The group, 0 to 15.
    pub group_index: u8,
    /// The group threshold, 1 to the group count.
    pub group_threshold: u8,
    /// The group count, 1 to 16.
    pub group_count: u8,
    /// The member of the group, 0 to 15.
    pub member_index: u8,
    /// The member threshold, 1 to 16.
    pub member_threshold: u8,
    /// The bytes that a recovery combines.
    pub value: Secret,
}

/// The fields of a mnemonic, without its value.
///
/// ```
/// use shamir::{ShareFields, judge};
///
/// # fn main() -> Result<(), shamir::Error> {
/// let line = "shadow pistol academic always adequate wildlife fancy gross oasis cylinder mustang wrist rescue view short owner flip making coding armed";
/// let share: ShareFields = judge("", line)?.share;
/// assert_eq!((share.id, share.exponent, share.member_threshold), (25653, 2, 2));
/// # Ok(())
/// # }
/// ```
#[derive(Clone, Copy, Debug, PartialEq, Eq, Hash)]
#[non_exhaustive]
pub struct ShareFields {
    /// The identifier of the backup, 0 to 32767.
    pub id: u16,
    /// The extendable flag.
    pub extendable: bool,
    /// The iteration exponent, 0 to 15.
    pub exponent: u8,
    /// The group, 0 to 15.
    pub group_index: u8,
    /// The group threshold, 1 to the group count.
    pub group_threshold: u8,
    /// The group count, 1 to 16.
    pub group_count: u8,
    /// The member of the group, 0 to 15.
    pub member_index: u8,
    /// The member threshold, 1 to 16.
    pub member_threshold: u8,
}

impl ShareFields {
    pub(crate) fn of(fields: &Fields) -> ShareFields {
        ShareFields {
            id: fields.id,
            extendable: fields.extendable != 0,
            exponent: fields.exponent,
            group_index: fields.group_index,
            group_threshold: fields.group_threshold,
            group_count: fields.group_count,
            member_index: fields.member_index,
            member_threshold: fields.member_threshold,
        }
    }

    /// Gives the name of the mnemonic.
    ///
    /// ```
    /// # fn main() -> Result<(), shamir::Error> {
    /// let line = "shadow pistol academic always adequate wildlife fancy gross oasis cylinder mustang wrist rescue view short owner flip making coding armed";
    /// assert_eq!(shamir::judge("", line)?.share.name().to_string(), "0.2");
    /// # Ok(())
    /// # }
    /// ```
    #[must_use]
    pub fn name(&self) -> Name {
        Name { group: self.group_index, member: self.member_index }
    }
}

impl Share {
    /// Gives the name of the mnemonic.
    ///
    /// ```
    /// # fn main() -> Result<(), shamir::Error> {
    /// let line = "shadow pistol academic always adequate wildlife fancy gross oasis cylinder mustang wrist rescue view short owner flip making coding armed";
    /// assert_eq!(shamir::parse(line)?.name().to_string(), "0.2");
    /// # Ok(())
    /// # }
    /// ```
    #[must_use]
    pub fn name(&self) -> Name {
        Name { group: self.group_index, member: self.member_index }
    }
}

impl From<&Share> for ShareFields {
    fn from(share: &Share) -> ShareFields {
        let Share { id, extendable, exponent, group_index, group_threshold, group_count, member_index, member_threshold, .. } =
            *share;
        ShareFields { id, extendable, exponent, group_index, group_threshold, group_count, member_index, member_threshold }
    }
}

impl FromStr for Share {
    type Err = Error;

    fn from_str(mnemonic: &str) -> Result<Share, Error> {
        parse(mnemonic)
    }
}

/// Reads one mnemonic, which is a line. A line feed may end it.
///
/// Any number of spaces, tabs and carriage returns may stand before, between and after the words. Upper-case letters count as
/// lower-case ones.
///
/// Gives the first of these errors that applies: [`Error::UnknownWord`], [`Error::WordCount`], [`Error::BadChecksum`],
/// [`Error::BadPadding`], [`Error::GroupThreshold`].
///
/// ```
/// use shamir::{Error, parse};
///
/// assert_eq!(parse("academic shamir").unwrap_err(), Error::UnknownWord { line: None, position: 2 });
/// ```
pub fn parse(mnemonic: impl AsRef<[u8]>) -> Result<Share, Error> {
    let mut fields = Fields::default();
    let value = Secret::written_by(|room| ffi::parse(one_line(mnemonic.as_ref()), &mut fields, room))?;
    let ShareFields { id, extendable, exponent, group_index, group_threshold, group_count, member_index, member_threshold } =
        ShareFields::of(&fields);
    Ok(Share { id, extendable, exponent, group_index, group_threshold, group_count, member_index, member_threshold, value })
}
