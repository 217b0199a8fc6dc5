//! Secrets, and their fingerprints.
use core::fmt;
use core::hint::black_box;

use crate::error::Error;
use crate::ffi;
use crate::text::Text;

/// The least length of a secret in bytes.
///
/// ```
/// assert!(shamir::Secret::new(&[0; shamir::SECRET_BYTES_MIN - 1]).is_err());
/// ```
pub const SECRET_BYTES_MIN: usize = 16;

/// The greatest length of a secret in bytes.
///
/// ```
/// assert!(shamir::Secret::new(&[0; shamir::SECRET_BYTES_MAX]).is_ok());
/// ```
pub const SECRET_BYTES_MAX: usize = 128;

/// A move of a secret copies no byte of it, because its bytes stay where they are.
#[cfg(feature = "alloc")]
type Room = alloc::boxed::Box<[u8; SECRET_BYTES_MAX]>;
#[cfg(not(feature = "alloc"))]
type Room = [u8; SECRET_BYTES_MAX];

/// A master secret, or the value of a mnemonic: an even number of bytes, 16 to 128.
///
/// It doesn't print its bytes, and clears them when it is dropped. A comparison of two secrets looks at all bytes, and no branch of it
/// depends on them.
///
/// With the feature `alloc`, its bytes have a place of their own in the heap, so a move leaves no copy behind. Without this
/// feature, a move may leave one.
///
/// ```
/// use shamir::Secret;
///
/// # fn main() -> Result<(), shamir::Error> {
/// let secret = Secret::new(&[7; 32])?;
/// assert_eq!(secret.as_bytes(), [7; 32]);
/// assert_eq!(secret, secret.clone());
/// assert_eq!(format!("{secret:?}"), "Secret(32 bytes)");
/// # Ok(())
/// # }
/// ```
pub struct Secret {
    room: Room,
    len: usize,
}

impl Secret {
    /// Copies the bytes of a secret. The caller's own copy stays as it is.
    ///
    /// Gives [`Error::SecretLength`] if their number is odd, or not from 16 to 128.
    ///
    /// ```
    /// use shamir::{Error, Secret};
    ///
    /// assert!(Secret::new(b"0123456789abcdef").is_ok());
    /// assert_eq!(Secret::new(b"too short").err(), Some(Error::SecretLength { bytes: 9 }));
    /// ```
    pub fn new(bytes: &[u8]) -> Result<Secret, Error> {
        Secret::draw(bytes.len(), |room| {
            room.copy_from_slice(bytes);
            Ok(())
        })
    }

    /// Makes a secret of this many bytes, which a closure writes. So no other copy of it need be made.
    ///
    /// Gives what the closure gives if it fails. Gives [`Error::SecretLength`], without a call of the closure, if the number is
    /// odd, or not from 16 to 128.
    ///
    /// ```
    /// use shamir::Secret;
    /// use std::{fs::File, io::Read};
    ///
    /// # fn main() -> Result<(), Box<dyn std::error::Error>> {
    /// let mut source = File::open("/dev/urandom")?;
    /// let secret = Secret::draw(16, |room| source.read_exact(room).map_err(Box::<dyn std::error::Error>::from))?;
    /// assert_eq!(secret.as_bytes().len(), 16);
    /// # Ok(())
    /// # }
    /// ```
    pub fn draw<E: From<Error>>(bytes: usize, draw: impl FnOnce(&mut [u8]) -> Result<(), E>) -> Result<Secret, E> {
        // Every plan tells whether it takes secrets of this length.
        ffi::random_needed(b"1of1", bytes).checked()?;
        let mut secret = Secret::room();
        draw(&mut secret.room[..bytes])?;
        secret.len = bytes;
        Ok(secret)
    }

    /// Gives the bytes of the secret.
    ///
    /// ```
    /// # fn main() -> Result<(), shamir::Error> {
    /// assert_eq!(shamir::Secret::new(&[1; 16])?.as_bytes(), &[1; 16]);
    /// # Ok(())
    /// # }
    /// ```
    #[must_use]
    pub fn as_bytes(&self) -> &[u8] {
        &self.room[..self.len]
    }

    /// Makes room for the longest secret.
    fn room() -> Secret {
        Secret { room: Room::from([0; SECRET_BYTES_MAX]), len: 0 }
    }

    /// Gives the secret that a call writes.
    pub(crate) fn written_by(call: impl FnOnce(&mut [u8]) -> ffi::Answer) -> Result<Secret, Error> {
        let mut secret = Secret::room();
        secret.len = call(&mut secret.room[..]).checked()?.written();
        Ok(secret)
    }

    /// Reads the digits of a secret, which the library wrote.
    #[cfg(feature = "alloc")]
    pub(crate) fn of_digits(digits: &str) -> Option<Secret> {
        let mut secret = Secret::room();
        for (pair, byte) in digits.as_bytes().chunks_exact(2).zip(secret.room.iter_mut()) {
            *byte = value(pair[0])? << 4 | value(pair[1])?;
        }
        secret.len = digits.len() / 2;
        Some(secret)
    }
}

/// Gives the value of a lower-case hexadecimal digit.
#[cfg(feature = "alloc")]
fn value(digit: u8) -> Option<u8> {
    match digit {
        b'0'..=b'9' => Some(digit - b'0'),
        b'a'..=b'f' => Some(digit - b'a' + 10),
        _ => None,
    }
}

impl Drop for Secret {
    fn drop(&mut self) {
        ffi::wipe(&mut self.room[..]);
    }
}

impl Clone for Secret {
    fn clone(&self) -> Secret {
        let mut other = Secret::room();
        other.room.copy_from_slice(&self.room[..]);
        other.len = self.len;
        other
    }
}

impl PartialEq for Secret {
    fn eq(&self, other: &Secret) -> bool {
        let pairs = self.room.iter().zip(other.room.iter());
        let differing = pairs.fold(0, |bits, (one, other)| black_box(bits | (one ^ other)));
        self.len == other.len && differing == 0
    }
}

impl Eq for Secret {}

impl fmt::Debug for Secret {
    fn fmt(&self, formatter: &mut fmt::Formatter<'_>) -> fmt::Result {
        write!(formatter, "Secret({} bytes)", self.len)
    }
}

impl AsRef<[u8]> for Secret {
    fn as_ref(&self) -> &[u8] {
        self.as_bytes()
    }
}

impl TryFrom<&[u8]> for Secret {
    type Error = Error;

    fn try_from(bytes: &[u8]) -> Result<Secret, Error> {
        Secret::new(bytes)
    }
}

/// The fingerprint of a secret, by which its owner can recognise the secret without seeing it.
///
/// It is the first four bytes of the HMAC-SHA256 of the secret with the key `shamir fingerprint`, in eight lower-case hexadecimal
/// digits. Whoever has it can test guesses of the secret with it, so `Debug` doesn't print it. `Display` does.
///
/// ```
/// # fn main() -> Result<(), shamir::Error> {
/// let secret = shamir::Secret::new(&std::array::from_fn::<u8, 16, _>(|place| place as u8))?;
/// let fingerprint = shamir::fingerprint(&secret);
/// assert_eq!(fingerprint.as_str(), "2282bae5");
/// assert_eq!(fingerprint.to_string(), "2282bae5");
/// assert_eq!(format!("{fingerprint:?}"), "Fingerprint(..)");
/// # Ok(())
/// # }
/// ```
#[derive(Clone, Copy, PartialEq, Eq, Hash)]
pub struct Fingerprint(Text<8>);

impl Fingerprint {
    /// Gives the eight digits.
    ///
    /// ```
    /// # fn main() -> Result<(), shamir::Error> {
    /// assert_eq!(shamir::fingerprint(&shamir::Secret::new(&[0; 16])?).as_str().len(), 8);
    /// # Ok(())
    /// # }
    /// ```
    #[must_use]
    pub fn as_str(&self) -> &str {
        self.0.as_str()
    }

    /// Takes the digits that the library wrote.
    #[cfg(feature = "alloc")]
    pub(crate) fn of_digits(digits: &str) -> Fingerprint {
        Fingerprint(Text::of(digits.as_bytes()))
    }
}

impl fmt::Display for Fingerprint {
    fn fmt(&self, formatter: &mut fmt::Formatter<'_>) -> fmt::Result {
        formatter.pad(self.as_str())
    }
}

/// [`RecoverOptions::expected`](crate::RecoverOptions::expected) takes it.
impl AsRef<[u8]> for Fingerprint {
    fn as_ref(&self) -> &[u8] {
        self.as_str().as_bytes()
    }
}

impl fmt::Debug for Fingerprint {
    fn fmt(&self, formatter: &mut fmt::Formatter<'_>) -> fmt::Result {
        formatter.write_str("Fingerprint(..)")
    }
}

/// Computes the fingerprint of a secret.
///
/// ```
/// use shamir::{Secret, fingerprint};
///
/// # fn main() -> Result<(), shamir::Error> {
/// let noted = "2282bae5";
/// let secret = Secret::new(b"\x00\x01\x02\x03\x04\x05\x06\x07\x08\x09\x0a\x0b\x0c\x0d\x0e\x0f")?;
/// assert_eq!(fingerprint(&secret).as_str(), noted);
/// # Ok(())
/// # }
/// ```
///
/// # Panics
///
/// It panics if the library is linked as plain C, and `malloc` gives no memory.
#[must_use]
pub fn fingerprint(secret: &Secret) -> Fingerprint {
    let text = Text::written_by(|room| ffi::fingerprint(secret.as_bytes(), room));
    Fingerprint(text.expect("the library takes the length of every Secret"))
}
