//! A buffer in the heap that clears itself.
use alloc::vec;
use alloc::vec::Vec;

use crate::error::Error;
use crate::ffi::{self, Answer};

/// Bytes that are cleared when they are dropped.
#[derive(Clone, Default)]
pub(crate) struct Room(Vec<u8>);

impl Room {
    /// Makes a room of so many zeros.
    pub(crate) fn new(len: usize) -> Room {
        Room(vec![0; len])
    }

    /// Gives what a call writes into a room of this length.
    pub(crate) fn written_by(len: usize, call: impl FnOnce(&mut [u8]) -> Answer) -> Result<Room, Error> {
        let mut whole = vec![0; len];
        let written = call(&mut whole).checked()?.written();
        let part = Room(whole[..written].to_vec());
        // The call writes nothing after its output.
        ffi::wipe(&mut whole[..written]);
        Ok(part)
    }

    /// Adds bytes. If they need a larger piece of memory, the smaller one is cleared.
    pub(crate) fn push(&mut self, bytes: &[u8]) {
        let len = self.0.len() + bytes.len();
        if len > self.0.capacity() {
            let mut larger = Vec::with_capacity(2 * len);
            larger.extend_from_slice(&self.0);
            *self = Room(larger);
        }
        self.0.extend_from_slice(bytes);
    }

    pub(crate) fn bytes(&self) -> &[u8] {
        &self.0
    }

    pub(crate) fn bytes_mut(&mut self) -> &mut [u8] {
        &mut self.0
    }
}

impl Drop for Room {
    fn drop(&mut self) {
        ffi::wipe(&mut self.0);
    }
}
