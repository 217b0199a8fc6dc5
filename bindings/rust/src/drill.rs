//! Drills, which try every quorum.
use alloc::string::{String, ToString};
use alloc::vec::Vec;
use core::fmt;
use core::iter::FusedIterator;

use crate::details::Mismatch;
use crate::error::Error;
use crate::ffi;
use crate::name::Name;
use crate::recover::RecoverOptions;
use crate::room::Room;
use crate::secret::{Fingerprint, Secret};
use crate::text::{small, text_of};

/// The forms in which a drill tells secrets: their digits, their fingerprints, or whether one is expected.
const FORM_DIGITS: u32 = 0;
const FORM_FINGERPRINTS: u32 = 1;
const FORM_EXPECTED: u32 = 2;
/// One call of the library lists as many quorums as fit into this room. Each call decrypts anew.
const ROOM: usize = 1 << 16;
const MORE: &[u8] = b"more after ";

/// What one quorum of a drill recovers.
///
/// ```
/// use shamir::{Drill, Found, RecoverOptions};
///
/// # fn main() -> Result<(), shamir::Error> {
/// # let lines = "duckling enlarge academic academic agency result length solution fridge kidney coal piece deal husband erode duke ajar critical decision keyboard";
/// for outcome in Drill::new(lines, &RecoverOptions::new().passphrase("TREZOR")) {
///     let outcome = outcome?;
///     match &outcome.found {
///         Found::Secret(secret) => println!("{}: a secret of {} bytes", outcome.names, secret.as_bytes().len()),
///         Found::Mismatch(mismatch) => println!("{}: {mismatch}", outcome.names),
///         other => println!("{}: {other:?}", outcome.names),
///     }
/// }
/// # Ok(())
/// # }
/// ```
#[derive(Clone, Debug, PartialEq, Eq)]
#[non_exhaustive]
pub struct Outcome {
    /// The names of the quorum.
    pub names: Names,
    /// What it recovers.
    pub found: Found,
}

/// What a quorum recovers, as a drill tells it. A later version may have more variants.
///
/// ```
/// use shamir::{Drill, Found, Mismatch, RecoverOptions};
///
/// # fn main() -> Result<(), shamir::Error> {
/// let lines = "academic academic academic acid disease prepare husky home result arcade lunar cover shame email oven tension nylon carpet prospect hand
/// academic academic academic agency dragon mineral broken simple lips custody flame cylinder ending prune party scout beaver enlarge glasses bundle";
/// let outcome = Drill::new(lines, &RecoverOptions::new()).next().unwrap()?;
/// assert_eq!(outcome.found, Found::Mismatch(Mismatch::InGroup { group: 0 }));
/// # Ok(())
/// # }
/// ```
#[derive(Clone, Debug, PartialEq, Eq)]
#[non_exhaustive]
pub enum Found {
    /// The secret.
    Secret(Secret),
    /// The fingerprint of the secret, in a drill that lists [fingerprints](Drill::fingerprints).
    Fingerprint(Fingerprint),
    /// The secret has the [expected](RecoverOptions::expected) fingerprint.
    AsExpected,
    /// The secret has another fingerprint than the expected one.
    OtherSecret,
    /// A digest that doesn't match, so the mnemonics don't belong together.
    Mismatch(Mismatch),
}

/// The names of a quorum in ascending order.
///
/// `Display` writes them joined by plus signs. This text is what [`Drill::after`] takes.
///
/// ```
/// use shamir::{Drill, Name, RecoverOptions};
///
/// # fn main() -> Result<(), shamir::Error> {
/// # let lines = "shadow pistol academic always adequate wildlife fancy gross oasis cylinder mustang wrist rescue view short owner flip making coding armed
/// # shadow pistol academic acid actress prayer class unknown daughter sweater depict flip twice unkind craft early superior advocate guest smoking";
/// let names = Drill::new(lines, &RecoverOptions::new()).next().unwrap()?.names;
/// assert_eq!(names.to_string(), "0.0+0.2");
/// assert_eq!(names.iter().last(), Some(Name { group: 0, member: 2 }));
/// # Ok(())
/// # }
/// ```
#[derive(Clone, Debug, PartialEq, Eq, Hash)]
pub struct Names(String);

impl Names {
    /// Gives the names as one text, joined by plus signs.
    ///
    /// ```
    /// # use shamir::{Drill, RecoverOptions};
    /// # fn main() -> Result<(), shamir::Error> {
    /// # let lines = "duckling enlarge academic academic agency result length solution fridge kidney coal piece deal husband erode duke ajar critical decision keyboard";
    /// let outcome = Drill::new(lines, &RecoverOptions::new()).next().unwrap()?;
    /// assert_eq!(outcome.names.as_str(), "0.0");
    /// # Ok(())
    /// # }
    /// ```
    #[must_use]
    pub fn as_str(&self) -> &str {
        &self.0
    }

    /// Gives the names one after the other.
    ///
    /// ```
    /// # use shamir::{Drill, RecoverOptions};
    /// # fn main() -> Result<(), shamir::Error> {
    /// # let lines = "duckling enlarge academic academic agency result length solution fridge kidney coal piece deal husband erode duke ajar critical decision keyboard";
    /// let outcome = Drill::new(lines, &RecoverOptions::new()).next().unwrap()?;
    /// assert_eq!(outcome.names.iter().count(), 1);
    /// # Ok(())
    /// # }
    /// ```
    pub fn iter(&self) -> impl Iterator<Item = Name> {
        self.0.split('+').filter_map(|name| {
            let (group, member) = name.split_once('.')?;
            Some(Name { group: small(group), member: small(member) })
        })
    }
}

impl fmt::Display for Names {
    fn fmt(&self, formatter: &mut fmt::Formatter<'_>) -> fmt::Result {
        formatter.pad(&self.0)
    }
}

impl AsRef<str> for Names {
    fn as_ref(&self) -> &str {
        &self.0
    }
}

impl AsRef<[u8]> for Names {
    fn as_ref(&self) -> &[u8] {
        self.0.as_bytes()
    }
}

/// A drill: it tries the quorums of mnemonics one after the other, and gives the [`Outcome`] of each.
///
/// Quorums come in ascending order: they are compared by their first names, then by their second names, and so on. A digest
/// mismatch is an outcome, and no error. After an error the drill ends.
///
/// The first call of `next` gives any error, except that each part can give [`Error::NoMemory`]. It is the first of these that
/// applies: [`Error::BadCursor`], [`Error::BadFingerprint`], [`Error::Passphrase`], that of the first refused line (with
/// the codes 11 to 15, 21 to 28 and 71), [`Error::NoShares`], [`Error::Incomplete`], [`Error::HighExponent`], [`Error::NotAQuorum`].
///
/// The library computes the outcomes in parts. Each part has as many as fit into 64 KiB of text. This text is cleared when the
/// next part comes, and when the drill is dropped.
///
/// ```
/// use shamir::{CreateOptions, Drill, Found, Plan, RecoverOptions, Secret, create};
///
/// # fn main() -> Result<(), shamir::Error> {
/// let plan: Plan = "2of3".parse()?;
/// let secret = Secret::new(&[7; 16])?;
/// # let random = [7; 14];
/// let mnemonics = create(&plan, &secret, &CreateOptions::new(), &random)?;
/// for outcome in Drill::new(&mnemonics, &RecoverOptions::new()) {
///     assert_eq!(outcome?.found, Found::Secret(secret.clone()));
/// }
/// # Ok(())
/// # }
/// ```
#[must_use]
pub struct Drill<'a> {
    lines: &'a [u8],
    options: RecoverOptions<'a>,
    form: u32,
    /// The names of the last outcome, after which the drill goes on. No names are the start.
    after: Vec<u8>,
    /// The part that the library listed last.
    room: Room,
    /// The place of the next outcome in the room, and the place after the last one.
    next: usize,
    end: usize,
    /// Whether no part is left.
    is_last: bool,
}

impl<'a> Drill<'a> {
    /// Makes a drill that starts with the first quorum. `lines` and the options are as for [`recover`](crate::recover()). If a
    /// fingerprint is [expected](RecoverOptions::expected), each outcome says whether the secret has it.
    ///
    /// ```
    /// use shamir::{Drill, Found, RecoverOptions};
    ///
    /// # fn main() -> Result<(), shamir::Error> {
    /// # let lines = "duckling enlarge academic academic agency result length solution fridge kidney coal piece deal husband erode duke ajar critical decision keyboard";
    /// for outcome in Drill::new(lines, &RecoverOptions::new().passphrase("TREZOR").expected("df41d8fe")) {
    ///     assert_eq!(outcome?.found, Found::AsExpected);
    /// }
    /// # Ok(())
    /// # }
    /// ```
    pub fn new<Text: AsRef<[u8]> + ?Sized>(lines: &'a Text, options: &RecoverOptions<'a>) -> Drill<'a> {
        Drill {
            lines: lines.as_ref(),
            options: *options,
            form: if options.expected.is_empty() { FORM_DIGITS } else { FORM_EXPECTED },
            after: Vec::new(),
            room: Room::default(),
            next: 0,
            end: 0,
            is_last: false,
        }
    }

    /// Starts the drill with the quorum after this one, such as `0.0+0.2+1.0`. So a drill can go on later, or elsewhere. It doesn't
    /// matter which outcomes this drill has given.
    ///
    /// ```
    /// use shamir::{CreateOptions, Drill, RecoverOptions, Secret, create};
    ///
    /// # fn main() -> Result<(), shamir::Error> {
    /// # let random = [7; 14];
    /// let mnemonics = create(&"2of3".parse()?, &Secret::new(&[7; 16])?, &CreateOptions::new(), &random)?;
    /// let options = RecoverOptions::new();
    /// let first = Drill::new(&mnemonics, &options).next().unwrap()?;
    /// let rest = Drill::new(&mnemonics, &options).after(&first.names);
    /// assert_eq!(rest.count(), 2);
    /// # Ok(())
    /// # }
    /// ```
    pub fn after<Text: AsRef<[u8]> + ?Sized>(mut self, names: &Text) -> Drill<'a> {
        self.after.clear();
        self.after.extend_from_slice(names.as_ref());
        // For the library, no names are the start. An empty text names no quorum, so a plus sign, which the library refuses, takes
        // its place.
        if self.after.is_empty() {
            self.after.push(b'+');
        }
        self.begun_anew()
    }

    /// Makes the drill give the [fingerprint](Found::Fingerprint) of each secret in place of the secret. No secret leaves the
    /// library then, so a check of mnemonics needs no copy of the secret. A drill that has given outcomes goes on after them. If a
    /// fingerprint is [expected](RecoverOptions::expected), this changes nothing.
    ///
    /// ```
    /// use shamir::{Drill, Found, RecoverOptions};
    ///
    /// # fn main() -> Result<(), shamir::Error> {
    /// # let lines = "duckling enlarge academic academic agency result length solution fridge kidney coal piece deal husband erode duke ajar critical decision keyboard";
    /// let noted = "df41d8fe";
    /// for outcome in Drill::new(lines, &RecoverOptions::new().passphrase("TREZOR")).fingerprints() {
    ///     assert!(matches!(outcome?.found, Found::Fingerprint(fingerprint) if fingerprint.as_str() == noted));
    /// }
    /// # Ok(())
    /// # }
    /// ```
    pub fn fingerprints(mut self) -> Drill<'a> {
        if self.form == FORM_DIGITS {
            self.form = FORM_FINGERPRINTS;
        }
        self.begun_anew()
    }

    /// Forgets the part that is listed, so that the next outcome is listed anew.
    fn begun_anew(self) -> Drill<'a> {
        Drill { room: Room::default(), next: 0, end: 0, is_last: false, ..self }
    }

    /// Lets the library list the next part.
    fn list(&mut self) -> Result<(), Error> {
        let RecoverOptions { passphrase, max_exponent, expected } = self.options;
        let (lines, after, form) = (self.lines, &self.after, self.form);
        let mut last = 0;
        self.room = Room::written_by(ROOM, |room| {
            let answer = ffi::drill(lines, passphrase, max_exponent, after, form, expected, room);
            // The answer says where the last line begins.
            last = answer.second as usize;
            answer
        })?;
        (self.next, self.end) = (0, last);
        self.is_last = !self.room.bytes()[last..].starts_with(MORE);
        Ok(())
    }
}

impl Iterator for Drill<'_> {
    type Item = Result<Outcome, Error>;

    fn next(&mut self) -> Option<Result<Outcome, Error>> {
        while self.next == self.end {
            if self.is_last {
                return None;
            }
            if let Err(error) = self.list() {
                self.is_last = true;
                return Some(Err(error));
            }
        }
        let line = self.room.bytes()[self.next..self.end].split(|&byte| byte == b'\n').next()?;
        self.next += line.len() + 1;
        let outcome = outcome(text_of(line), self.form);
        self.after.clear();
        self.after.extend_from_slice(outcome.names.as_str().as_bytes());
        Some(Ok(outcome))
    }
}

impl FusedIterator for Drill<'_> {}

impl fmt::Debug for Drill<'_> {
    fn fmt(&self, formatter: &mut fmt::Formatter<'_>) -> fmt::Result {
        formatter.debug_struct("Drill").field("options", &self.options).finish_non_exhaustive()
    }
}

/// Reads a line of a drill: names, and a secret, a fingerprint, whether it is as expected, or a mismatch.
fn outcome(line: &str, form: u32) -> Outcome {
    let (names, told) = line.split_once(' ').expect("a line of a drill has names and a result");
    let found = match (mismatch(told), form) {
        (Some(mismatch), _) => Found::Mismatch(mismatch),
        (None, FORM_FINGERPRINTS) => Found::Fingerprint(Fingerprint::of_digits(told)),
        (None, FORM_EXPECTED) if told == "as expected" => Found::AsExpected,
        (None, FORM_EXPECTED) => Found::OtherSecret,
        (None, _) => Found::Secret(Secret::of_digits(told).expect("the library writes a secret in hexadecimal digits")),
    };
    Outcome { names: Names(names.to_string()), found }
}

/// Reads what a drill tells of a quorum with a digest mismatch.
fn mismatch(told: &str) -> Option<Mismatch> {
    if told == "digest mismatch of groups" {
        return Some(Mismatch::OfGroups);
    }
    told.strip_prefix("digest mismatch in group ").map(|group| Mismatch::InGroup { group: small(group) })
}
