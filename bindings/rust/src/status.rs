//! Which mnemonics are at hand, and whether they are enough.
use core::fmt;

use crate::error::Error;
use crate::ffi;
use crate::name::Name;
use crate::text::{Text, small};

/// The greatest number of groups of a backup, and of members of a group.
const GROUPS_MAX: usize = 16;
/// The greatest length of a status of the library.
const STATUS_BYTES_MAX: usize = 1638;

/// A status as the library writes it.
pub(crate) type StatusText = Text<STATUS_BYTES_MAX>;

/// How many groups are complete, how many must be, and which members of each group are at hand.
///
/// A group is complete if the number of its members at hand is at least its member threshold.
///
/// ```
/// use shamir::status;
///
/// # fn main() -> Result<(), shamir::Error> {
/// let line = "shadow pistol academic always adequate wildlife fancy gross oasis cylinder mustang wrist rescue view short owner flip making coding armed";
/// let status = status(line)?;
/// assert_eq!((status.complete, status.required, status.is_enough()), (0, 1, false));
/// assert_eq!(status.groups()[0].members().collect::<Vec<_>>(), [2]);
/// # Ok(())
/// # }
/// ```
///
/// `Display` writes what the command `status` prints, without the last line feed.
#[derive(Clone, Copy, PartialEq, Eq, Hash)]
#[non_exhaustive]
pub struct Status {
    /// The number of complete groups.
    pub complete: u8,
    /// The group threshold.
    pub required: u8,
    groups: [GroupStatus; GROUPS_MAX],
    count: usize,
}

impl Status {
    /// Whether the mnemonics have a quorum. If they do, [`recover`](crate::recover()) doesn't refuse them as incomplete.
    ///
    /// ```
    /// # fn main() -> Result<(), shamir::Error> {
    /// # let line = "duckling enlarge academic academic agency result length solution fridge kidney coal piece deal husband erode duke ajar critical decision keyboard";
    /// assert!(shamir::status(line)?.is_enough());
    /// # Ok(())
    /// # }
    /// ```
    #[must_use]
    pub fn is_enough(&self) -> bool {
        self.complete >= self.required
    }

    /// Reads a status that the library wrote.
    pub(crate) fn read(text: &StatusText) -> Status {
        let mut rows = text.as_str().lines();
        let [_, complete, _, required] = words_of(rows.next().unwrap_or_default());
        let mut status = Status { complete: small(complete), required: small(required), groups: Default::default(), count: 0 };
        for (row, group) in rows.zip(&mut status.groups) {
            *group = group_status(row);
            status.count += 1;
        }
        status
    }

    /// Gives each group that has a member among the mnemonics, in ascending order.
    ///
    /// ```
    /// # fn main() -> Result<(), shamir::Error> {
    /// # let line = "duckling enlarge academic academic agency result length solution fridge kidney coal piece deal husband erode duke ajar critical decision keyboard";
    /// assert_eq!(shamir::status(line)?.groups().len(), 1);
    /// # Ok(())
    /// # }
    /// ```
    #[must_use]
    pub fn groups(&self) -> &[GroupStatus] {
        &self.groups[..self.count]
    }
}

impl fmt::Display for Status {
    fn fmt(&self, formatter: &mut fmt::Formatter<'_>) -> fmt::Result {
        write!(formatter, "groups {} of {}", self.complete, self.required)?;
        self.groups().iter().try_for_each(|group| write!(formatter, "\n{group}"))
    }
}

impl fmt::Debug for Status {
    fn fmt(&self, formatter: &mut fmt::Formatter<'_>) -> fmt::Result {
        let mut shown = formatter.debug_struct("Status");
        shown.field("complete", &self.complete).field("required", &self.required).field("groups", &self.groups()).finish()
    }
}

/// A group that has members among the mnemonics. `Display` writes its line of a status: `group 0 members 1 of 2 0.2`.
///
/// ```
/// # fn main() -> Result<(), shamir::Error> {
/// # let line = "shadow pistol academic always adequate wildlife fancy gross oasis cylinder mustang wrist rescue view short owner flip making coding armed";
/// let group = shamir::status(line)?.groups()[0];
/// assert_eq!((group.group, group.threshold, group.members().count()), (0, 2, 1));
/// # Ok(())
/// # }
/// ```
#[derive(Clone, Copy, Default, PartialEq, Eq, Hash)]
#[non_exhaustive]
pub struct GroupStatus {
    /// The group, 0 to 15.
    pub group: u8,
    /// The member threshold, 1 to 16.
    pub threshold: u8,
    /// Bit number `member` is set if this member is at hand.
    members: u16,
}

impl GroupStatus {
    /// Gives the members that are at hand, in ascending order.
    ///
    /// ```
    /// # fn main() -> Result<(), shamir::Error> {
    /// # let line = "duckling enlarge academic academic agency result length solution fridge kidney coal piece deal husband erode duke ajar critical decision keyboard";
    /// assert_eq!(shamir::status(line)?.groups()[0].members().next(), Some(0));
    /// # Ok(())
    /// # }
    /// ```
    pub fn members(&self) -> impl Iterator<Item = u8> + use<> {
        let members = self.members;
        (0..GROUPS_MAX as u8).filter(move |member| members >> member & 1 == 1)
    }

    /// Gives the names of these members.
    ///
    /// ```
    /// # fn main() -> Result<(), shamir::Error> {
    /// # let line = "duckling enlarge academic academic agency result length solution fridge kidney coal piece deal husband erode duke ajar critical decision keyboard";
    /// assert_eq!(shamir::status(line)?.groups()[0].names().next(), Some(shamir::Name { group: 0, member: 0 }));
    /// # Ok(())
    /// # }
    /// ```
    pub fn names(&self) -> impl Iterator<Item = Name> + use<> {
        let group = self.group;
        self.members().map(move |member| Name { group, member })
    }
}

impl fmt::Display for GroupStatus {
    fn fmt(&self, formatter: &mut fmt::Formatter<'_>) -> fmt::Result {
        write!(formatter, "group {} members {} of {}", self.group, self.members().count(), self.threshold)?;
        self.names().enumerate().try_for_each(|(at, name)| write!(formatter, "{}{name}", if at == 0 { ' ' } else { '+' }))
    }
}

impl fmt::Debug for GroupStatus {
    fn fmt(&self, formatter: &mut fmt::Formatter<'_>) -> fmt::Result {
        let mut shown = formatter.debug_struct("GroupStatus");
        shown.field("group", &self.group).field("threshold", &self.threshold).field("members", &Members(self)).finish()
    }
}

struct Members<'a>(&'a GroupStatus);

impl fmt::Debug for Members<'_> {
    fn fmt(&self, formatter: &mut fmt::Formatter<'_>) -> fmt::Result {
        formatter.debug_list().entries(self.0.members()).finish()
    }
}

/// Reports how many members of each group are among mnemonics, and whether the mnemonics are enough for a recovery.
///
/// `lines` is as for [`recover`](crate::recover()). The call needs no passphrase, and decrypts nothing. A repeated mnemonic counts
/// once. Mnemonics without a quorum are no error.
///
/// Gives the error of the first refused line (with the codes 11 to 15, 21 to 28 and 71), or else [`Error::NoShares`] if no
/// line holds a mnemonic.
///
/// ```
/// use shamir::{Error, status};
///
/// # fn main() -> Result<(), Error> {
/// let line = "duckling enlarge academic academic agency result length solution fridge kidney coal piece deal husband erode duke ajar critical decision keyboard";
/// assert!(status(line)?.is_enough());
/// assert_eq!(status("# no mnemonic").unwrap_err(), Error::NoShares);
/// # Ok(())
/// # }
/// ```
pub fn status(lines: impl AsRef<[u8]>) -> Result<Status, Error> {
    Ok(Status::read(&Text::written_by(|room| ffi::status(lines.as_ref(), room))?))
}

/// Reads a line `group G members N of T NAMES`.
fn group_status(row: &str) -> GroupStatus {
    let [_, group, _, _, _, threshold, names] = words_of(row);
    let members = names.split('+').filter_map(|name| name.split_once('.'));
    let members = members.fold(0, |members, (_, member)| members | 1 << small(member));
    GroupStatus { group: small(group), threshold: small(threshold), members }
}

/// Gives the words of a line that the library wrote.
fn words_of<const COUNT: usize>(line: &str) -> [&str; COUNT] {
    let mut words = line.split(' ');
    core::array::from_fn(|_| words.next().unwrap_or_default())
}
