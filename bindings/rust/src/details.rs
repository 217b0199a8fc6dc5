//! The details of refusals.
use core::fmt;

use crate::error::Error;
use crate::name::Name;

/// As the first detail, this number stands for the digest of the group shares.
const OF_GROUPS: u64 = 16;

/// A detail of a refusal, which the answer of a call has as a number.
pub(crate) trait Detail: Sized {
    /// Gives the detail that a number stands for, or none if it is out of range.
    fn read(number: u64) -> Option<Self>;
    fn number(self) -> u64;
}

impl Detail for u64 {
    fn read(number: u64) -> Option<u64> {
        Some(number)
    }
    fn number(self) -> u64 {
        self
    }
}

impl Detail for u8 {
    fn read(number: u64) -> Option<u8> {
        u8::try_from(number).ok()
    }
    fn number(self) -> u64 {
        self.into()
    }
}

/// The number 0 stands for `None`.
impl Detail for Option<u64> {
    fn read(number: u64) -> Option<Option<u64>> {
        Some((number != 0).then_some(number))
    }
    fn number(self) -> u64 {
        self.unwrap_or(0)
    }
}

impl Detail for Mismatch {
    fn read(number: u64) -> Option<Mismatch> {
        if number == OF_GROUPS {
            return Some(Mismatch::OfGroups);
        }
        u8::read(number).map(|group| Mismatch::InGroup { group })
    }
    fn number(self) -> u64 {
        match self {
            Mismatch::InGroup { group } => group.into(),
            Mismatch::OfGroups => OF_GROUPS,
        }
    }
}

impl Detail for Name {
    fn read(number: u64) -> Option<Name> {
        Some(Name { group: u8::read(number >> 8)?, member: number as u8 })
    }
    fn number(self) -> u64 {
        u64::from(self.group) << 8 | u64::from(self.member)
    }
}

impl Detail for Counts {
    fn read(number: u64) -> Option<Counts> {
        let [members, member_threshold, groups, group_threshold] = u32::try_from(number).ok()?.to_be_bytes();
        Some(Counts { members, member_threshold, groups, group_threshold })
    }
    fn number(self) -> u64 {
        u32::from_be_bytes([self.members, self.member_threshold, self.groups, self.group_threshold]).into()
    }
}

/// A digest that doesn't match the values which combine to what it belongs to.
///
/// ```
/// use shamir::Mismatch;
///
/// assert_eq!(Mismatch::InGroup { group: 2 }.to_string(), "digest mismatch in group 2");
/// assert_eq!(Mismatch::OfGroups.to_string(), "digest mismatch of groups");
/// ```
#[derive(Clone, Copy, Debug, PartialEq, Eq, Hash)]
pub enum Mismatch {
    /// The digest of a group share, to which the members of this group combine. Groups are numbered from 0.
    InGroup {
        /// The group. In a drill it is the lowest group whose digest doesn't match.
        group: u8,
    },
    /// The digest of the encrypted secret, to which the group shares combine.
    OfGroups,
}

impl fmt::Display for Mismatch {
    fn fmt(&self, formatter: &mut fmt::Formatter<'_>) -> fmt::Result {
        formatter.pad(Error::DigestMismatch { mismatch: *self }.text().as_str())
    }
}

/// How many mnemonics are at hand for one that is lost, in [`Error::Undetermined`].
///
/// ```
/// use shamir::{Error, Plan, reissue};
///
/// # fn main() -> Result<(), Error> {
/// let plan: Plan = "2of3".parse()?;
/// let line = "shadow pistol academic always adequate wildlife fancy gross oasis cylinder mustang wrist rescue view short owner flip making coding armed";
/// let Err(Error::Undetermined { name, counts }) = reissue(&plan, "0.0", line) else { panic!() };
/// assert_eq!((name.member, counts.members, counts.member_threshold), (0, 1, 2));
/// # Ok(())
/// # }
/// ```
#[derive(Clone, Copy, Debug, PartialEq, Eq, Hash)]
pub struct Counts {
    /// The number of members of its group that are at hand.
    pub members: u8,
    /// The member threshold of its group.
    pub member_threshold: u8,
    /// The number of other groups that are complete.
    pub groups: u8,
    /// The group threshold.
    pub group_threshold: u8,
}
