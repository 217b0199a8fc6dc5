//! Lost mnemonics.
use crate::error::Error;
use crate::ffi;
use crate::plan::Plan;
use crate::text::text_of;

/// Computes lost mnemonics of a backup, and writes them into the caller's room. It needs no allocator.
///
/// It is as `reissue`, and gives [`Error::TooShort`] too, after all others.
/// [`MNEMONICS_BYTES_MAX`](crate::MNEMONICS_BYTES_MAX) bytes are always enough. After an error, the room is unchanged.
///
/// ```
/// use shamir::{Plan, reissue_into};
///
/// # fn main() -> Result<(), shamir::Error> {
/// let plan: Plan = "1of1".parse()?;
/// let line = "duckling enlarge academic academic agency result length solution fridge kidney coal piece deal husband erode duke ajar critical decision keyboard";
/// let mut room = [0; 1000];
/// assert_eq!(reissue_into(&plan, "0.0", line, &mut room)?, format!("{line}\n"));
/// # Ok(())
/// # }
/// ```
pub fn reissue_into<'room>(
    plan: &Plan,
    names: impl AsRef<[u8]>,
    lines: impl AsRef<[u8]>,
    room: &'room mut [u8],
) -> Result<&'room str, Error> {
    let written = ffi::reissue(plan.as_str().as_bytes(), names.as_ref(), lines.as_ref(), room).checked()?.written();
    Ok(text_of(&room[..written]))
}

/// Computes lost mnemonics of a backup from other mnemonics of it, and gives them in the order of `names`.
///
/// `plan` is the plan of the backup, or that plan with more members in some groups. The added members are new members of this
/// backup. `names` are the names of the wanted mnemonics, each once and in ascending order, joined by plus signs, such as
/// `0.1+2.0`. `lines` is as for [`recover`](crate::recover()). The call needs no passphrase, and decrypts nothing.
///
/// This call is for mnemonics that were destroyed. If somebody else may have a lost mnemonic, create a new backup. If that person
/// may have a quorum, use a new secret too.
///
/// Gives the first of these errors that applies: [`Error::BadNames`], [`Error::NotInPlan`], that of the first refused line (with
/// the codes 11 to 15, 21 to 28 and 71), [`Error::NoShares`], [`Error::OtherPlan`], then for each name in turn
/// [`Error::Undetermined`] or [`Error::DigestMismatch`].
///
/// ```
/// use shamir::{Mnemonics, Plan, reissue};
/// # use shamir::{CreateOptions, Secret, create};
///
/// # fn main() -> Result<(), shamir::Error> {
/// let plan: Plan = "2of3".parse()?;
/// # let mnemonics = create(&plan, &Secret::new(&[7; 16])?, &CreateOptions::new(), &[7; 14])?;
/// let left: Mnemonics = mnemonics.iter().skip(1).collect();
/// let lost = reissue(&plan, "0.0", &left)?;
/// assert!(lost.iter().eq(mnemonics.iter().take(1)));
/// # Ok(())
/// # }
/// ```
#[cfg(feature = "alloc")]
pub fn reissue(plan: &Plan, names: impl AsRef<[u8]>, lines: impl AsRef<[u8]>) -> Result<crate::Mnemonics, Error> {
    let (plan, names, lines) = (plan.as_str().as_bytes(), names.as_ref(), lines.as_ref());
    crate::Mnemonics::written_by(crate::MNEMONICS_BYTES_MAX, |room| ffi::reissue(plan, names, lines, room))
}
