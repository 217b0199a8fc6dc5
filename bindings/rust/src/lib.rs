//! [SLIP-0039](https://github.com/satoshilabs/slips/blob/master/slip-0039.md) backups of a master secret, by the library
//! `libshamir`.
//!
//! ```
//! use shamir::{CreateOptions, Drill, Found, Mnemonics, Plan, RecoverOptions, Secret, create_with, recover};
//! use std::{error::Error, fs::File, io::Read};
//!
//! # fn main() -> Result<(), Box<dyn Error>> {
//! let mut source = File::open("/dev/urandom")?;
//! let mut draw = |room: &mut [u8]| source.read_exact(room).map_err(Box::<dyn Error>::from);
//! let secret = Secret::draw(16, &mut draw)?;
//! let plan: Plan = "2of3".parse()?;
//! let mnemonics = create_with(&plan, &secret, &CreateOptions::new().passphrase("TREZOR"), &mut draw)?;
//!
//! let options = RecoverOptions::new().passphrase("TREZOR");
//! let two: Mnemonics = mnemonics.iter().skip(1).collect();
//! assert_eq!(recover(&two, &options)?, secret);
//! for outcome in Drill::new(&mnemonics, &options) {
//!     assert_eq!(outcome?.found, Found::Secret(secret.clone()));
//! }
//! # Ok(())
//! # }
//! ```
//!
//! A backup consists of mnemonics, which are lines of words. Each mnemonic is a member of a group. Groups and members are numbered
//! from 0, and the [`Name`] of a mnemonic has both numbers: 0.2 is member 2 of group 0. A [`Plan`] says how many groups and members
//! a backup has, and how many of them are needed.
//!
//! A group is complete if the number of its members at hand is at least its member threshold. Mnemonics are enough if the number of
//! complete groups is at least the group threshold. A quorum is a minimal set of mnemonics that is enough. A drill (`Drill`) tries
//! every quorum. `Papers` takes mnemonics as they come, keeps those of each backup apart, and recovers from them.
//!
//! A mnemonic has a value. The values of the members of a group combine to a group share, and the group shares combine to the
//! encrypted secret. A digest is four bytes by which the library usually detects values that don't belong together.
//!
//! The crate leaves everything about the format to the library, except that [`Status::is_enough`] compares two counts. Every
//! function of the library is proved to be safe, and to give the answer that its contract describes. The Rust code is tested, and
//! not proved.
//!
//! # Without an allocator
//!
//! The crate uses neither `std` nor another crate. Without the feature `alloc`, which is on by default, it uses no allocator
//! of Rust either. Then there are [`parse`], [`judge()`], [`recover()`], [`encrypted()`], [`decrypt`], [`decrypt_round`],
//! [`decrypt_rounds`], [`status()`], [`quorums()`], [`fingerprint`], [`version()`], and the calls that write into the caller's
//! room: [`create_into`], [`reissue_into`], [`resplit_into`], [`create_from_encrypted_into`], [`repair_into`] and [`words_into`].
//!
//! # The library
//!
//! `build.rs` compiles the library as plain C, or links a `libshamir.a`: README.md says how to choose. For plain
//! C, the proofs end at the sources of the WebAssembly module from which it is made, and each call takes a block of memory from
//! `malloc` ([`Error::NoMemory`]).
//!
//! # Secrets in memory
//!
//! A [`Secret`] clears itself when it is dropped. So do mnemonics, drills and random bytes that the crate keeps. Each call of the
//! library that gets a secret clears the stack that it used, which is tested. The caller clears its own texts.
//!
//! # Stack and threads
//!
//! A call uses at most 512 KiB of stack. In a thread with a smaller stack, a call can end the program. The threads of `std` have 2
//! MiB by default. Calls share no data, so any number of threads can make calls at once.
#![no_std]

#[cfg(feature = "alloc")]
extern crate alloc;

mod create;
mod details;
#[cfg(feature = "alloc")]
mod drill;
mod encrypted;
mod error;
mod ffi;
mod from_encrypted;
mod judge;
#[cfg(feature = "alloc")]
mod mnemonics;
mod name;
#[cfg(feature = "alloc")]
mod papers;
mod plan;
mod quorums;
mod recover;
mod reissue;
mod repair;
mod resplit;
#[cfg(feature = "alloc")]
mod room;
mod secret;
mod share;
mod status;
mod text;
mod version;
mod words;

/// The example of README.md is tested as those here are.
#[cfg(all(doctest, feature = "alloc"))]
#[doc = include_str!("../README.md")]
struct ReadMe;

pub use create::{CreateOptions, EXPONENT_MAX, MNEMONICS_BYTES_MAX, RANDOM_BYTES_MAX, create_into};
#[cfg(feature = "alloc")]
pub use create::{create, create_with};
pub use details::{Counts, Mismatch};
#[cfg(feature = "alloc")]
pub use drill::{Drill, Found, Names, Outcome};
pub use encrypted::{DecryptOptions, EncryptedSecret, decrypt, decrypt_round, decrypt_rounds, encrypted};
pub use error::Error;
pub use from_encrypted::create_from_encrypted_into;
#[cfg(feature = "alloc")]
pub use from_encrypted::{create_from_encrypted, create_from_encrypted_with};
pub use judge::{Judgement, judge};
#[cfg(feature = "alloc")]
pub use mnemonics::Mnemonics;
pub use name::Name;
#[cfg(feature = "alloc")]
pub use papers::{Papers, Recovered};
pub use plan::Plan;
#[cfg(feature = "alloc")]
pub use plan::PlanBuilder;
pub use quorums::quorums;
pub use recover::{RecoverOptions, recover};
#[cfg(feature = "alloc")]
pub use reissue::reissue;
pub use reissue::reissue_into;
#[cfg(feature = "alloc")]
pub use repair::repair;
pub use repair::{REPAIRED_BYTES_MAX, repair_into};
pub use resplit::resplit_into;
#[cfg(feature = "alloc")]
pub use resplit::{resplit, resplit_with};
pub use secret::{Fingerprint, SECRET_BYTES_MAX, SECRET_BYTES_MIN, Secret, fingerprint};
pub use share::{Share, ShareFields, parse};
pub use status::{GroupStatus, Status, status};
pub use version::{Version, version};
#[cfg(feature = "alloc")]
pub use words::words;
pub use words::{WORDS_BYTES_MAX, words_into};
