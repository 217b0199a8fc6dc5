//! What a mnemonic is beside others.
use core::fmt;

use crate::error::Error;
use crate::ffi::{self, Judged};
use crate::share::ShareFields;
use crate::status::Status;
use crate::text::{Text, one_line};

/// What a mnemonic is beside others.
///
/// ```
/// use shamir::judge;
///
/// # fn main() -> Result<(), shamir::Error> {
/// let line = "shadow pistol academic always adequate wildlife fancy gross oasis cylinder mustang wrist rescue view short owner flip making coding armed";
/// let judgement = judge(line, line)?;
/// assert_eq!((judgement.share.id, judgement.again, judgement.status.is_enough()), (25653, true, false));
/// assert_eq!(judgement.to_string(), "again\ngroups 0 of 1\ngroup 0 members 1 of 2 0.2");
/// # Ok(())
/// # }
/// ```
///
/// `Display` writes the status, after a line `again` if the share is among the others already.
#[derive(Clone, Copy, Debug, PartialEq, Eq, Hash)]
#[non_exhaustive]
pub struct Judgement {
    /// The fields of the mnemonic.
    pub share: ShareFields,
    /// Whether its share is among the others already.
    pub again: bool,
    /// What its backup has with it.
    pub status: Status,
}

impl fmt::Display for Judgement {
    fn fmt(&self, formatter: &mut fmt::Formatter<'_>) -> fmt::Result {
        write!(formatter, "{}{}", if self.again { "again\n" } else { "" }, self.status)
    }
}

/// Judges a mnemonic beside those that came before it: whether it can be taken, whether it is there already, and what its backup has
/// with it.
///
/// `lines` is as for [`recover`](crate::recover()), but its mnemonics may be of several backups. Those with the same identifier are
/// taken for those of one backup. `mnemonic` is as for [`parse`](crate::parse). The status is that of the lines with its identifier,
/// and of itself. `Papers` keeps the lines.
///
/// Gives the first of these errors that applies: one with the code 71, if the mnemonic has more than 1,024 bytes; what `parse` gives for
/// it; the error of the first refused line (with the codes 11 to 15, 22 to 28 and 71); an error with a code from 22 to 28 and without a
/// line, if the share of the mnemonic can't join those of the lines with its identifier.
///
/// ```
/// use shamir::{Error, judge};
///
/// # fn main() -> Result<(), Error> {
/// let one = "shadow pistol academic acid actress prayer class unknown daughter sweater depict flip twice unkind craft early superior advocate guest smoking";
/// let other = "shadow pistol academic always adequate wildlife fancy gross oasis cylinder mustang wrist rescue view short owner flip making coding armed";
/// let of_another_backup = "duckling enlarge academic academic agency result length solution fridge kidney coal piece deal husband erode duke ajar critical decision keyboard";
/// let judgement = judge(format!("{of_another_backup}\n{one}"), other)?;
/// assert!(judgement.status.is_enough() && !judgement.again);
/// assert_eq!(judge(one, "academic shamir").unwrap_err(), Error::UnknownWord { line: None, position: 2 });
/// # Ok(())
/// # }
/// ```
pub fn judge(lines: impl AsRef<[u8]>, mnemonic: impl AsRef<[u8]>) -> Result<Judgement, Error> {
    let mut judged = Judged::default();
    let text = Text::written_by(|room| ffi::judge(lines.as_ref(), one_line(mnemonic.as_ref()), &mut judged, room))?;
    Ok(Judgement { share: ShareFields::of(&judged.share), again: judged.again != 0, status: Status::read(&text) })
}
