//! The version of the library.
use core::fmt;

use crate::ffi;
use crate::text::Text;

/// The version of the library. That of this crate is the one in its `Cargo.toml`.
///
/// ```
/// assert!(shamir::version().as_str().starts_with("1."));
/// ```
#[derive(Clone, Copy, PartialEq, Eq, Hash)]
pub struct Version(Text<64>);

impl Version {
    /// Gives the version as a text.
    ///
    /// ```
    /// assert_eq!(shamir::version().as_str().split('.').count(), 3);
    /// ```
    #[must_use]
    pub fn as_str(&self) -> &str {
        self.0.as_str()
    }
}

impl fmt::Display for Version {
    fn fmt(&self, formatter: &mut fmt::Formatter<'_>) -> fmt::Result {
        formatter.pad(self.as_str())
    }
}

impl fmt::Debug for Version {
    fn fmt(&self, formatter: &mut fmt::Formatter<'_>) -> fmt::Result {
        write!(formatter, "Version({})", self.as_str())
    }
}

/// Gives the version of the library that is linked.
///
/// ```
/// println!("libshamir {}", shamir::version());
/// ```
///
/// # Panics
///
/// It panics if the library is linked as plain C, and `malloc` gives no memory.
#[must_use]
pub fn version() -> Version {
    Version(Text::written_by(ffi::version).expect("the room is enough for a version"))
}
