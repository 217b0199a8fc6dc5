//! The refusals of the library.
use core::fmt;

use crate::details::{Counts, Detail, Mismatch};
use crate::ffi::{self, Answer};
use crate::name::Name;
use crate::text::Text;

/// The greatest length of a text of the library.
const TEXT_BYTES_MAX: usize = 64;
const DONE: u32 = 0;

/// Defines [`Error`]. Each variant has its code, and where the answer has its details.
macro_rules! refusals {
    ($(
        $(#[$says:meta])*
        $name:ident = $code:literal $({ $($(#[$detail:meta])* $field:ident: $type:ty = $place:ident),* })?;
    )*) => {
        /// Why the library refuses a call: the first cause that applies.
        ///
        /// `Display` writes the refused line, if there is one, the code, and the library's own text: `line 2: 13 bad checksum`.
        /// The command `shamir` prints the same, and uses the same codes, except 1 to 4. If the library as plain C has no memory
        /// for its text, `Display` writes `no memory for the text` in its place. No error holds a secret, a passphrase or a word of
        /// a mnemonic.
        ///
        /// A later version may have more variants.
        ///
        /// ```
        /// use shamir::{Error, RecoverOptions, recover};
        ///
        /// let lines = "duckling enlarge academic academic agency result length solution fridge kidney coal piece deal husband erode duke ajar critical decision kidney";
        /// let error = recover(lines, &RecoverOptions::new()).unwrap_err();
        /// assert_eq!(error, Error::BadChecksum { line: Some(1) });
        /// assert_eq!(error.to_string(), "line 1: 13 bad checksum");
        /// ```
        #[derive(Clone, Copy, Debug, PartialEq, Eq, Hash)]
        #[non_exhaustive]
        pub enum Error {
            $(
                $(#[$says])*
                #[doc = concat!("\n\nIts code is ", $code, ".")]
                $name $({ $($(#[$detail])* $field: $type),* })?,
            )*
            /// The library is a later one, and this version of the crate doesn't know its refusal.
            Other {
                /// The code of the refusal.
                code: u32,
                /// The refused line, counted from 1.
                line: Option<u64>,
                /// The first detail.
                first: u64,
                /// The second detail.
                second: u64,
            },
        }

        impl Error {
            /// Gives the refusal of an answer, or none if it isn't one of this version.
            fn known(answer: &Answer) -> Option<Error> {
                match answer.code {
                    $($code => Some(Error::$name $({ $($field: Detail::read(answer.$place)?),* })?),)*
                    _ => None,
                }
            }

            /// Gives the answer that has this refusal.
            fn answer(&self) -> Answer {
                match *self {
                    $(Error::$name $({ $($field),* })? => Answer { code: $code, $($($place: $field.number(),)*)? ..Answer::default() },)*
                    Error::Other { code, line, first, second } => Answer { code, line: line.number(), first, second, ..Answer::default() },
                }
            }
        }
    };
}

refusals! {
    /// The room for the output is too short.
    TooShort = 1 {
        /// How many bytes it needs.
        needed: u64 = first
    };
    /// A number is out of range.
    OutOfRange = 2;
    /// The exponent of the mnemonics is above the one that the caller accepts.
    HighExponent = 3 {
        /// The exponent of the mnemonics.
        exponent: u8 = first
    };
    /// No memory is left for the call. Only the library as plain C gives this.
    NoMemory = 4;
    /// A word isn't in the word list, or a mark stands for none of its words.
    UnknownWord = 11 {
        /// The refused line, counted from 1. It is `None` if the call takes one line.
        line: Option<u64> = line,
        /// Which word of the line it is, counted from 1.
        position: u64 = first
    };
    /// No mnemonic has this number of words.
    WordCount = 12 {
        /// The refused line, counted from 1. It is `None` if the call takes one line.
        line: Option<u64> = line,
        /// The number of words.
        words: u64 = first
    };
    /// The checksum is wrong.
    BadChecksum = 13 {
        /// The refused line, counted from 1. It is `None` if the call takes one line.
        line: Option<u64> = line
    };
    /// A padding bit isn't 0.
    BadPadding = 14 {
        /// The refused line, counted from 1. It is `None` if the call takes one line.
        line: Option<u64> = line
    };
    /// The group threshold is above the group count.
    GroupThreshold = 15 {
        /// The refused line, counted from 1. It is `None` if the call takes one line.
        line: Option<u64> = line
    };
    /// No mnemonic fits a line of marks.
    NoMnemonic = 17;
    /// The checksum is wrong, and another word in one place would make a mnemonic of the line.
    WrongWord = 18 {
        /// The position of this word, counted from 1.
        position: u64 = first
    };
    /// More than three places of a line are open.
    UnreadableWords = 19 {
        /// How many are.
        open: u64 = first
    };
    /// The identifier differs from that of earlier lines.
    OtherIdentifier = 21 {
        /// The refused line, counted from 1.
        line: Option<u64> = line
    };
    /// The extendable flag differs from that of earlier lines.
    OtherExtendable = 22 {
        /// The refused line, counted from 1.
        line: Option<u64> = line
    };
    /// The iteration exponent differs from that of earlier lines.
    OtherExponent = 23 {
        /// The refused line, counted from 1.
        line: Option<u64> = line
    };
    /// The group threshold differs from that of earlier lines.
    OtherGroupThreshold = 24 {
        /// The refused line, counted from 1.
        line: Option<u64> = line
    };
    /// The group count differs from that of earlier lines.
    OtherGroupCount = 25 {
        /// The refused line, counted from 1.
        line: Option<u64> = line
    };
    /// The length of the value differs from that of earlier lines.
    OtherLength = 26 {
        /// The refused line, counted from 1.
        line: Option<u64> = line
    };
    /// The group has another member threshold in earlier lines.
    OtherMemberThreshold = 27 {
        /// The refused line, counted from 1.
        line: Option<u64> = line,
        /// The group, numbered from 0.
        group: u8 = first
    };
    /// This name has another value in an earlier line.
    ConflictingShare = 28 {
        /// The refused line, counted from 1.
        line: Option<u64> = line,
        /// The group, numbered from 0.
        group: u8 = first,
        /// The member of the group, numbered from 0.
        member: u8 = second
    };
    /// No line holds a mnemonic.
    NoShares = 29;
    /// Too few groups are complete.
    Incomplete = 30 {
        /// How many groups are complete.
        complete: u8 = first,
        /// The group threshold.
        required: u8 = second
    };
    /// The text isn't a plan.
    BadPlan = 31;
    /// The plan has more than 16 groups, or fewer than its group threshold.
    PlanGroups = 32;
    /// A group of the plan has more than 16 members, or fewer than its threshold.
    PlanMembers = 33 {
        /// The group, numbered from 0.
        group: u8 = first
    };
    /// A group of the plan has several members and the member threshold 1.
    OneOfMany = 34 {
        /// The group, numbered from 0.
        group: u8 = first
    };
    /// A byte of the passphrase isn't printable ASCII.
    Passphrase = 41 {
        /// Which byte it is, counted from 1.
        position: u64 = first
    };
    /// A secret can't have this number of bytes.
    SecretLength = 42 {
        /// The number of bytes.
        bytes: u64 = first
    };
    /// The number of random bytes is wrong.
    RandomLength = 43 {
        /// How many bytes are needed.
        needed: u64 = first
    };
    /// The expected fingerprint isn't eight hexadecimal digits.
    BadFingerprint = 44;
    /// A digest doesn't match.
    DigestMismatch = 51 {
        /// Which digest it is.
        mismatch: Mismatch = first
    };
    /// The secret has another fingerprint than the expected one.
    OtherSecret = 52;
    /// The text after which a drill should start isn't a list of names.
    BadCursor = 61;
    /// The list of names after which a drill should start isn't a quorum of these mnemonics.
    NotAQuorum = 62;
    /// The text isn't a list of names.
    BadNames = 63;
    /// A name isn't in the plan.
    NotInPlan = 64 {
        /// The group, numbered from 0.
        group: u8 = first,
        /// The member of the group, numbered from 0.
        member: u8 = second
    };
    /// A mnemonic can't belong to a backup of this plan.
    OtherPlan = 65;
    /// The mnemonics at hand don't determine a mnemonic.
    Undetermined = 66 {
        /// The name of this mnemonic.
        name: Name = first,
        /// How many mnemonics are at hand for it.
        counts: Counts = second
    };
    /// The mnemonics don't have the extendable flag, so they can't be split anew.
    NotExtendable = 67;
    /// The random bytes give the identifier that the mnemonics have.
    SameIdentifier = 68;
    /// A line has more than 1,024 bytes.
    LineTooLong = 71 {
        /// The refused line, counted from 1.
        line: Option<u64> = line
    };
}

impl Error {
    /// Gives the code of the refusal, which `shamir.h` and the command `shamir` use too.
    ///
    /// ```
    /// assert_eq!(shamir::Error::Incomplete { complete: 0, required: 1 }.code(), 30);
    /// ```
    #[must_use]
    pub fn code(&self) -> u32 {
        self.answer().code
    }

    /// Gives the refused line, counted from 1, if a line of several was refused.
    ///
    /// ```
    /// assert_eq!(shamir::Error::BadChecksum { line: Some(2) }.line(), Some(2));
    /// assert_eq!(shamir::Error::NoShares.line(), None);
    /// ```
    #[must_use]
    pub fn line(&self) -> Option<u64> {
        Option::read(self.answer().line).flatten()
    }

    /// Gives the library's text, without the code and the line. As plain C, the library may have no memory for it.
    pub(crate) fn text(&self) -> Text<TEXT_BYTES_MAX> {
        Text::written_by(|room| ffi::text(&self.answer(), room)).unwrap_or_else(|_| Text::of(b"no memory for the text"))
    }
}

impl Answer {
    /// Gives the answer of a call that succeeded, or its refusal.
    pub(crate) fn checked(self) -> Result<Answer, Error> {
        if self.code == DONE {
            return Ok(self);
        }
        Err(Error::known(&self).unwrap_or(Error::Other {
            code: self.code,
            line: Option::read(self.line).flatten(),
            first: self.first,
            second: self.second,
        }))
    }

    /// Gives how many bytes the call wrote. They fit into its room, so their number is of the type `usize`.
    pub(crate) fn written(&self) -> usize {
        self.written as usize
    }
}

impl fmt::Display for Error {
    fn fmt(&self, formatter: &mut fmt::Formatter<'_>) -> fmt::Result {
        if let Some(line) = self.line() {
            write!(formatter, "line {line}: ")?;
        }
        write!(formatter, "{} {}", self.code(), self.text().as_str())
    }
}

impl core::error::Error for Error {}

#[cfg(test)]
mod tests {
    use super::{Answer, Error};

    #[test]
    fn an_answer_of_a_later_library_keeps_its_numbers() {
        let other = |code, first| Error::Other { code, line: Some(3), first, second: 7 };
        // The second and third of these codes are known, with smaller details.
        for (code, first) in [(99, 5), (30, 256), (66, 65536)] {
            let answer = Answer { code, line: 3, first, second: 7, ..Answer::default() };
            assert_eq!(answer.checked().unwrap_err(), other(code, first));
        }
    }
}
