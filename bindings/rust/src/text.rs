//! Short texts, which need no allocator.
use crate::error::Error;
use crate::ffi::Answer;

/// A text of at most `ROOM` bytes. The bytes after it are 0.
#[derive(Clone, Copy, PartialEq, Eq, Hash)]
pub(crate) struct Text<const ROOM: usize> {
    room: [u8; ROOM],
    len: usize,
}

impl<const ROOM: usize> Text<ROOM> {
    /// Copies a text of at most `ROOM` bytes.
    pub(crate) fn of(text: &[u8]) -> Text<ROOM> {
        let mut room = [0; ROOM];
        room[..text.len()].copy_from_slice(text);
        Text { room, len: text.len() }
    }

    /// Gives the text that a call writes.
    pub(crate) fn written_by(call: impl FnOnce(&mut [u8]) -> Answer) -> Result<Text<ROOM>, Error> {
        let mut room = [0; ROOM];
        let len = call(&mut room).checked()?.written();
        Ok(Text { room, len })
    }

    pub(crate) fn as_str(&self) -> &str {
        text_of(&self.room[..self.len])
    }
}

/// Gives the bytes of a text as a text.
pub(crate) fn text_of(bytes: &[u8]) -> &str {
    core::str::from_utf8(bytes).expect("the library writes ASCII, and a caller's text is UTF-8")
}

/// Gives a line without the line feed that may end it. The library takes none.
pub(crate) fn one_line(line: &[u8]) -> &[u8] {
    line.strip_suffix(b"\n").unwrap_or(line)
}

/// Gives a number that the library wrote, of at most 255.
pub(crate) fn small(digits: &str) -> u8 {
    digits.parse().expect("the library writes a number of at most 255")
}
