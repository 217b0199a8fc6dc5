//! Mnemonics of several backups, kept apart.
use alloc::collections::BTreeSet;
use alloc::string::{String, ToString};
use alloc::vec::Vec;
use core::fmt;

use crate::drill::{Drill, Found, Names, Outcome};
use crate::error::Error;
use crate::judge::{Judgement, judge};
use crate::mnemonics::Mnemonics;
use crate::name::Name;
use crate::quorums::quorums;
use crate::recover::{RecoverOptions, recover};
use crate::repair::repair;
use crate::secret::Secret;

/// A recovery from papers tries so many quorums at most.
const QUORUMS_TRIED: usize = 1 << 16;

/// What papers recover.
///
/// ```
/// use shamir::{Error, Papers, RecoverOptions, Recovered};
///
/// # fn main() -> Result<(), Error> {
/// # let line = "duckling enlarge academic academic agency result length solution fridge kidney coal piece deal husband erode duke ajar critical decision keyboard";
/// let mut papers = Papers::new();
/// papers.add(line)?;
/// let Recovered { secret, doubtful, .. } = papers.recover(&RecoverOptions::new().passphrase("TREZOR"))?;
/// assert_eq!((secret.as_bytes().len(), doubtful.len()), (16, 0));
/// # Ok(())
/// # }
/// ```
#[derive(Clone, Debug, PartialEq, Eq)]
#[non_exhaustive]
pub struct Recovered {
    /// The secret.
    pub secret: Secret,
    /// The quorums of which a digest doesn't match. If the first quorum is right, no other one is tried, and there are none.
    pub failed: Vec<Names>,
    /// The papers that are in a quorum that failed, and in none that is right: the wrong ones are among them.
    pub doubtful: Vec<Name>,
}

/// Mnemonics as they come, one after the other, of one backup or of several. The library decides about each.
///
/// If the first ones are of another backup than the rest, they stay apart from it. `Debug` says how many mnemonics of which backups
/// there are. They are cleared when they are dropped.
///
/// ```
/// use shamir::{Papers, RecoverOptions};
///
/// # fn main() -> Result<(), shamir::Error> {
/// # let of_another_backup = "duckling enlarge academic academic agency result length solution fridge kidney coal piece deal husband erode duke ajar critical decision keyboard";
/// # let one = "shadow pistol academic acid actress prayer class unknown daughter sweater depict flip twice unkind craft early superior advocate guest smoking";
/// # let other = "shadow pistol academic always adequate wildlife fancy gross oasis cylinder mustang wrist rescue view short owner flip making coding armed";
/// let mut papers = Papers::new();
/// for paper in [of_another_backup, one, other] {
///     println!("{}", papers.add_and_tell(paper));
/// }
/// assert!(papers.is_enough());
/// let secret = papers.recover(&RecoverOptions::new().passphrase("TREZOR"))?.secret;
/// assert_eq!((secret.as_bytes().len(), papers.ids().count()), (16, 2));
/// # Ok(())
/// # }
/// ```
#[derive(Default)]
pub struct Papers {
    all: Mnemonics,
    /// Which paper each of these is: the identifier of its backup, and its name.
    names: Vec<(u16, Name)>,
    /// The identifier of each backup, and its mnemonics, in the order in which the first of each came.
    backups: Vec<(u16, Mnemonics)>,
    none: Mnemonics,
    /// The identifier of the mnemonic that came last, and whether its backup has enough.
    last: Option<u16>,
    enough: bool,
}

impl Papers {
    /// Makes a collection without mnemonics.
    ///
    /// ```
    /// assert_eq!(shamir::Papers::new().ids().count(), 0);
    /// ```
    #[must_use]
    pub fn new() -> Papers {
        Papers::default()
    }

    /// Judges a mnemonic beside all that are here, as [`judge`] does, and keeps it unless it is here already.
    ///
    /// It is kept in lower-case words with single spaces. If it is refused, nothing is kept.
    ///
    /// ```
    /// use shamir::{Error, Papers};
    ///
    /// # fn main() -> Result<(), Error> {
    /// # let line = "duckling enlarge academic academic agency result length solution fridge kidney coal piece deal husband erode duke ajar critical decision keyboard";
    /// let mut papers = Papers::new();
    /// assert!(papers.add("academic shamir").is_err());
    /// assert!(!papers.add(line)?.again && papers.add(line.to_uppercase())?.again);
    /// assert_eq!(papers.lines(7945).len(), 1);
    /// # Ok(())
    /// # }
    /// ```
    pub fn add(&mut self, mnemonic: impl AsRef<[u8]>) -> Result<Judgement, Error> {
        let judgement = judge(&self.all, &mnemonic)?;
        if !judgement.again {
            let respelled = repair(&mnemonic)?;
            self.all.push(&respelled);
            self.names.push((judgement.share.id, judgement.share.name()));
            self.backup(judgement.share.id).push(&respelled);
        }
        (self.last, self.enough) = (Some(judgement.share.id), judgement.status.is_enough());
        Ok(judgement)
    }

    /// Adds a mnemonic as [`add`](Papers::add) does, and gives the text of the judgement, or of the error.
    ///
    /// ```
    /// # let line = "duckling enlarge academic academic agency result length solution fridge kidney coal piece deal husband erode duke ajar critical decision keyboard";
    /// let mut papers = shamir::Papers::new();
    /// assert_eq!(papers.add_and_tell("academic shamir"), "11 unknown word 2");
    /// assert_eq!(papers.add_and_tell(line), "groups 1 of 1\ngroup 0 members 1 of 1 0.0");
    /// ```
    pub fn add_and_tell(&mut self, mnemonic: impl AsRef<[u8]>) -> String {
        self.add(mnemonic).map_or_else(|error| error.to_string(), |judgement| judgement.to_string())
    }

    /// Whether the backup of the mnemonic that came last has enough for a recovery. A mnemonic that is refused changes nothing.
    ///
    /// ```
    /// # fn main() -> Result<(), shamir::Error> {
    /// # let line = "duckling enlarge academic academic agency result length solution fridge kidney coal piece deal husband erode duke ajar critical decision keyboard";
    /// let mut papers = shamir::Papers::new();
    /// assert!(!papers.is_enough());
    /// papers.add(line)?;
    /// assert!(papers.is_enough());
    /// # Ok(())
    /// # }
    /// ```
    #[must_use]
    pub fn is_enough(&self) -> bool {
        self.enough
    }

    /// Takes out the mnemonic with this name in the backup with an identifier, and gives whether it was here.
    ///
    /// So a forged one can make room for the right one, which is refused with [`Error::ConflictingShare`] beside it. The only error is
    /// [`Error::NoMemory`]. Then nothing is taken out.
    ///
    /// ```
    /// use shamir::{Name, Papers};
    ///
    /// # fn main() -> Result<(), shamir::Error> {
    /// # let line = "duckling enlarge academic academic agency result length solution fridge kidney coal piece deal husband erode duke ajar critical decision keyboard";
    /// let mut papers = Papers::new();
    /// papers.add(line)?;
    /// assert!(papers.remove(7945, Name { group: 0, member: 0 })? && !papers.is_enough());
    /// # Ok(())
    /// # }
    /// ```
    pub fn remove(&mut self, id: u16, name: Name) -> Result<bool, Error> {
        let is_other = |paper: &(u16, Name)| *paper != (id, name);
        if self.names.iter().all(is_other) {
            return Ok(false);
        }
        let (all, of_backup) = (self.kept(is_other), self.kept(|paper| paper.0 == id && is_other(paper)));
        if self.last == Some(id) {
            self.enough = !of_backup.is_empty() && quorums(&of_backup)? > 0;
        }
        self.all = all;
        self.names.retain(is_other);
        if of_backup.is_empty() {
            self.backups.retain(|(other, _)| *other != id);
        } else {
            *self.backup(id) = of_backup;
        }
        Ok(true)
    }

    /// Recovers the secret of the backup of the mnemonic that came last, and gives what that shows of its papers.
    ///
    /// If a digest of the first quorum doesn't match, the other quorums are tried too, but at most 65,536, and the secret is that of
    /// the first whose digests match. So one wrong paper doesn't hide what the others give. If none matches, the error is that of the
    /// first quorum. Otherwise it gives the errors of [`recover`](crate::recover()).
    ///
    /// ```
    /// use shamir::{Error, Papers, RecoverOptions};
    ///
    /// # fn main() -> Result<(), Error> {
    /// # let line = "duckling enlarge academic academic agency result length solution fridge kidney coal piece deal husband erode duke ajar critical decision keyboard";
    /// let mut papers = Papers::new();
    /// assert_eq!(papers.recover(&RecoverOptions::new()), Err(Error::NoShares));
    /// papers.add(line)?;
    /// assert!(papers.recover(&RecoverOptions::new().passphrase("TREZOR").expected("df41d8fe"))?.failed.is_empty());
    /// # Ok(())
    /// # }
    /// ```
    pub fn recover(&self, options: &RecoverOptions<'_>) -> Result<Recovered, Error> {
        let lines = self.last.map_or(&self.none, |id| self.lines(id));
        let first = match recover(lines, options) {
            Ok(secret) => return Ok(Recovered { secret, failed: Vec::new(), doubtful: Vec::new() }),
            Err(error @ Error::DigestMismatch { .. }) => error,
            Err(error) => return Err(error),
        };
        let (mut failed, mut right) = (Vec::new(), Vec::new());
        for outcome in Drill::new(lines, &RecoverOptions { expected: b"", ..*options }).fingerprints().take(QUORUMS_TRIED) {
            let Outcome { names, found } = outcome?;
            if matches!(found, Found::Mismatch(_)) { failed.push(names) } else { right.push(names) }
        }
        let chosen: Vec<Name> = right.first().ok_or(first)?.iter().collect();
        let secret = recover(self.kept(|(id, name)| Some(*id) == self.last && chosen.contains(name)), options)?;
        let sound: BTreeSet<Name> = right.iter().flat_map(Names::iter).collect();
        let doubtful: BTreeSet<Name> = failed.iter().flat_map(Names::iter).filter(|name| !sound.contains(name)).collect();
        Ok(Recovered { secret, failed, doubtful: doubtful.into_iter().collect() })
    }

    /// Gives the identifiers of the backups, in the order in which they came.
    ///
    /// ```
    /// # fn main() -> Result<(), shamir::Error> {
    /// # let line = "duckling enlarge academic academic agency result length solution fridge kidney coal piece deal husband erode duke ajar critical decision keyboard";
    /// let mut papers = shamir::Papers::new();
    /// papers.add(line)?;
    /// assert_eq!(papers.ids().collect::<Vec<_>>(), [7945]);
    /// # Ok(())
    /// # }
    /// ```
    pub fn ids(&self) -> impl Iterator<Item = u16> {
        self.backups.iter().map(|(id, _)| *id)
    }

    /// Gives the mnemonics of the backup with an identifier, in the order in which they came. If there are none, it gives no lines.
    ///
    /// ```
    /// # fn main() -> Result<(), shamir::Error> {
    /// # let line = "duckling enlarge academic academic agency result length solution fridge kidney coal piece deal husband erode duke ajar critical decision keyboard";
    /// let mut papers = shamir::Papers::new();
    /// papers.add(line)?;
    /// assert!(papers.lines(7945).iter().eq([line]) && papers.lines(1).is_empty());
    /// # Ok(())
    /// # }
    /// ```
    #[must_use]
    pub fn lines(&self, id: u16) -> &Mnemonics {
        self.backups.iter().find(|(other, _)| *other == id).map_or(&self.none, |(_, lines)| lines)
    }

    /// Gives the mnemonics for which a condition holds.
    fn kept(&self, holds: impl Fn(&(u16, Name)) -> bool) -> Mnemonics {
        self.all.iter().zip(&self.names).filter(|(_, paper)| holds(paper)).map(|(line, _)| line).collect()
    }

    /// Gives the mnemonics of the backup with an identifier, to which more can be added.
    fn backup(&mut self, id: u16) -> &mut Mnemonics {
        let at = self.backups.iter().position(|(other, _)| *other == id).unwrap_or_else(|| {
            self.backups.push((id, Mnemonics::default()));
            self.backups.len() - 1
        });
        &mut self.backups[at].1
    }
}

impl fmt::Debug for Papers {
    fn fmt(&self, formatter: &mut fmt::Formatter<'_>) -> fmt::Result {
        formatter.debug_map().entries(self.backups.iter().map(|(id, lines)| (id, lines))).finish()
    }
}
