//! Names of mnemonics.
use core::fmt;

/// The name of a mnemonic: its group, and its member in this group. Both are numbered from 0.
///
/// Names are ordered by group, and then by member.
///
/// ```
/// use shamir::Name;
///
/// let name = Name { group: 0, member: 10 };
/// assert_eq!(name.to_string(), "0.10");
/// assert!(Name { group: 0, member: 2 } < name);
/// ```
#[derive(Clone, Copy, Debug, PartialEq, Eq, PartialOrd, Ord, Hash)]
pub struct Name {
    /// The group, 0 to 15.
    pub group: u8,
    /// The member of the group, 0 to 15.
    pub member: u8,
}

impl fmt::Display for Name {
    fn fmt(&self, formatter: &mut fmt::Formatter<'_>) -> fmt::Result {
        write!(formatter, "{}.{}", self.group, self.member)
    }
}
