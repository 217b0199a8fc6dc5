//! The calls of the library over slices. All unsafe code of the crate is in this module.
//!
//! The text in quotation marks before each unsafe block is of `shamir.h`, and says what the block rests on. A slice is always a
//! pointer and a length that fit together. A slice that a call writes is borrowed exclusively, so it overlaps nothing.
#![allow(unsafe_code)]

use core::ffi::c_char;

/// `shamir_answer`.
#[repr(C)]
#[derive(Clone, Copy, Debug, Default)]
pub(crate) struct Answer {
    pub(crate) code: u32,
    pub(crate) mismatches: u32,
    pub(crate) line: u64,
    pub(crate) first: u64,
    pub(crate) second: u64,
    pub(crate) written: u64,
}

/// `shamir_share`.
#[repr(C)]
#[derive(Clone, Copy, Debug, Default)]
pub(crate) struct Fields {
    pub(crate) id: u16,
    pub(crate) extendable: u8,
    pub(crate) exponent: u8,
    pub(crate) group_index: u8,
    pub(crate) group_threshold: u8,
    pub(crate) group_count: u8,
    pub(crate) member_index: u8,
    pub(crate) member_threshold: u8,
}

/// `shamir_judgement`.
#[repr(C)]
#[derive(Clone, Copy, Debug, Default)]
pub(crate) struct Judged {
    pub(crate) share: Fields,
    pub(crate) again: u8,
}

/// `shamir_parameters`.
#[repr(C)]
#[derive(Clone, Copy, Debug, Default)]
pub(crate) struct Parameters {
    pub(crate) id: u16,
    pub(crate) extendable: u8,
    pub(crate) exponent: u8,
}

unsafe extern "C" {
    fn shamir_parse(line: *const c_char, line_bytes: usize, share: *mut Fields, value: *mut u8, value_bytes: usize) -> Answer;
    fn shamir_random_needed(plan: *const c_char, plan_bytes: usize, secret_bytes: usize) -> Answer;
    fn shamir_create(
        plan: *const c_char,
        plan_bytes: usize,
        secret: *const u8,
        secret_bytes: usize,
        passphrase: *const c_char,
        passphrase_bytes: usize,
        exponent: u32,
        extendable: u32,
        random: *const u8,
        random_bytes: usize,
        mnemonics: *mut c_char,
        mnemonics_bytes: usize,
    ) -> Answer;
    fn shamir_recover(
        lines: *const c_char,
        lines_bytes: usize,
        passphrase: *const c_char,
        passphrase_bytes: usize,
        max_exponent: u32,
        expected: *const c_char,
        expected_bytes: usize,
        secret: *mut u8,
        secret_bytes: usize,
    ) -> Answer;
    fn shamir_encrypted(
        lines: *const c_char,
        lines_bytes: usize,
        parameters: *mut Parameters,
        encrypted: *mut u8,
        encrypted_bytes: usize,
    ) -> Answer;
    fn shamir_decrypt(
        parameters: *const Parameters,
        encrypted: *const u8,
        encrypted_bytes: usize,
        passphrase: *const c_char,
        passphrase_bytes: usize,
        expected: *const c_char,
        expected_bytes: usize,
        secret: *mut u8,
        secret_bytes: usize,
    ) -> Answer;
    fn shamir_decrypt_round(
        parameters: *const Parameters,
        round: u8,
        encrypted: *const u8,
        encrypted_bytes: usize,
        passphrase: *const c_char,
        passphrase_bytes: usize,
        undone: *mut u8,
        undone_bytes: usize,
    ) -> Answer;
    fn shamir_status(lines: *const c_char, lines_bytes: usize, text: *mut c_char, text_bytes: usize) -> Answer;
    fn shamir_judge(
        lines: *const c_char,
        lines_bytes: usize,
        line: *const c_char,
        line_bytes: usize,
        judgement: *mut Judged,
        text: *mut c_char,
        text_bytes: usize,
    ) -> Answer;
    fn shamir_quorums(lines: *const c_char, lines_bytes: usize) -> Answer;
    fn shamir_reissue(
        plan: *const c_char,
        plan_bytes: usize,
        names: *const c_char,
        names_bytes: usize,
        lines: *const c_char,
        lines_bytes: usize,
        mnemonics: *mut c_char,
        mnemonics_bytes: usize,
    ) -> Answer;
    fn shamir_resplit(
        plan: *const c_char,
        plan_bytes: usize,
        lines: *const c_char,
        lines_bytes: usize,
        random: *const u8,
        random_bytes: usize,
        mnemonics: *mut c_char,
        mnemonics_bytes: usize,
    ) -> Answer;
    fn shamir_create_from_encrypted(
        plan: *const c_char,
        plan_bytes: usize,
        parameters: *const Parameters,
        encrypted: *const u8,
        encrypted_bytes: usize,
        random: *const u8,
        random_bytes: usize,
        mnemonics: *mut c_char,
        mnemonics_bytes: usize,
    ) -> Answer;
    fn shamir_repair(line: *const c_char, line_bytes: usize, mnemonics: *mut c_char, mnemonics_bytes: usize) -> Answer;
    fn shamir_fingerprint(secret: *const u8, secret_bytes: usize, text: *mut c_char, text_bytes: usize) -> Answer;
    fn shamir_words(letters: *const c_char, letters_bytes: usize, text: *mut c_char, text_bytes: usize) -> Answer;
    fn shamir_text(answer: *const Answer, text: *mut c_char, text_bytes: usize) -> Answer;
    fn shamir_version(text: *mut c_char, text_bytes: usize) -> Answer;
    fn shamir_wipe(buffer: *mut u8, buffer_bytes: usize);
}

#[cfg(feature = "alloc")]
unsafe extern "C" {
    fn shamir_drill(
        lines: *const c_char,
        lines_bytes: usize,
        passphrase: *const c_char,
        passphrase_bytes: usize,
        max_exponent: u32,
        after: *const c_char,
        after_bytes: usize,
        limit: u32,
        form: u32,
        expected: *const c_char,
        expected_bytes: usize,
        text: *mut c_char,
        text_bytes: usize,
    ) -> Answer;
}

/// Gives the pointer and the length of a text, as arguments of a call.
fn of(text: &[u8]) -> (*const c_char, usize) {
    (text.as_ptr().cast(), text.len())
}

/// Gives the pointer and the length of a room for a text.
fn room_of(room: &mut [u8]) -> (*mut c_char, usize) {
    (room.as_mut_ptr().cast(), room.len())
}

pub(crate) fn parse(line: &[u8], share: &mut Fields, value: &mut [u8]) -> Answer {
    let (line, line_bytes) = of(line);
    // SAFETY: "The fields go to *share, and the value goes to the start of value."
    unsafe { shamir_parse(line, line_bytes, share, value.as_mut_ptr(), value.len()) }
}

pub(crate) fn random_needed(plan: &[u8], secret_bytes: usize) -> Answer {
    let (plan, plan_bytes) = of(plan);
    // SAFETY: "A buffer is a pointer and a length in bytes. If the length is 0, the pointer isn't used and may be NULL."
    unsafe { shamir_random_needed(plan, plan_bytes, secret_bytes) }
}

pub(crate) fn create(
    plan: &[u8],
    secret: &[u8],
    passphrase: &[u8],
    exponent: u32,
    extendable: bool,
    random: &[u8],
    room: &mut [u8],
) -> Answer {
    let ((plan, plan_bytes), (passphrase, passphrase_bytes), (room, room_bytes)) = (of(plan), of(passphrase), room_of(room));
    let extendable = u32::from(extendable);
    // SAFETY: "An output buffer or an output struct must not overlap any other argument."
    unsafe {
        shamir_create(
            plan,
            plan_bytes,
            secret.as_ptr(),
            secret.len(),
            passphrase,
            passphrase_bytes,
            exponent,
            extendable,
            random.as_ptr(),
            random.len(),
            room,
            room_bytes,
        )
    }
}

pub(crate) fn recover(lines: &[u8], passphrase: &[u8], max_exponent: u32, expected: &[u8], room: &mut [u8]) -> Answer {
    let ((lines, lines_bytes), (passphrase, passphrase_bytes)) = (of(lines), of(passphrase));
    let (expected, expected_bytes) = of(expected);
    // SAFETY: "An output buffer or an output struct must not overlap any other argument."
    unsafe {
        shamir_recover(
            lines,
            lines_bytes,
            passphrase,
            passphrase_bytes,
            max_exponent,
            expected,
            expected_bytes,
            room.as_mut_ptr(),
            room.len(),
        )
    }
}

pub(crate) fn encrypted(lines: &[u8], parameters: &mut Parameters, room: &mut [u8]) -> Answer {
    let (lines, lines_bytes) = of(lines);
    // SAFETY: "An output buffer or an output struct must not overlap any other argument."
    unsafe { shamir_encrypted(lines, lines_bytes, parameters, room.as_mut_ptr(), room.len()) }
}

pub(crate) fn decrypt(parameters: &Parameters, encrypted: &[u8], passphrase: &[u8], expected: &[u8], room: &mut [u8]) -> Answer {
    let ((passphrase, passphrase_bytes), (expected, expected_bytes)) = (of(passphrase), of(expected));
    // SAFETY: "An output buffer or an output struct must not overlap any other argument."
    unsafe {
        shamir_decrypt(
            parameters,
            encrypted.as_ptr(),
            encrypted.len(),
            passphrase,
            passphrase_bytes,
            expected,
            expected_bytes,
            room.as_mut_ptr(),
            room.len(),
        )
    }
}

pub(crate) fn decrypt_round(parameters: &Parameters, round: u8, encrypted: &[u8], passphrase: &[u8], room: &mut [u8]) -> Answer {
    let (passphrase, passphrase_bytes) = of(passphrase);
    // SAFETY: "An output buffer or an output struct must not overlap any other argument."
    unsafe {
        shamir_decrypt_round(
            parameters,
            round,
            encrypted.as_ptr(),
            encrypted.len(),
            passphrase,
            passphrase_bytes,
            room.as_mut_ptr(),
            room.len(),
        )
    }
}

/// Lists as many quorums as fit into the room.
#[cfg(feature = "alloc")]
pub(crate) fn drill(
    lines: &[u8],
    passphrase: &[u8],
    max_exponent: u32,
    after: &[u8],
    form: u32,
    expected: &[u8],
    room: &mut [u8],
) -> Answer {
    let ((lines, lines_bytes), (passphrase, passphrase_bytes)) = (of(lines), of(passphrase));
    let ((after, after_bytes), (expected, expected_bytes)) = (of(after), of(expected));
    let (room, room_bytes) = room_of(room);
    // SAFETY: "Copy the cursor before the next call, because it must not overlap the output buffer."
    unsafe {
        shamir_drill(
            lines,
            lines_bytes,
            passphrase,
            passphrase_bytes,
            max_exponent,
            after,
            after_bytes,
            u32::MAX,
            form,
            expected,
            expected_bytes,
            room,
            room_bytes,
        )
    }
}

pub(crate) fn status(lines: &[u8], room: &mut [u8]) -> Answer {
    let ((lines, lines_bytes), (room, room_bytes)) = (of(lines), room_of(room));
    // SAFETY: "An output buffer or an output struct must not overlap any other argument."
    unsafe { shamir_status(lines, lines_bytes, room, room_bytes) }
}

pub(crate) fn judge(lines: &[u8], line: &[u8], judged: &mut Judged, room: &mut [u8]) -> Answer {
    let ((lines, lines_bytes), (line, line_bytes), (room, room_bytes)) = (of(lines), of(line), room_of(room));
    // SAFETY: "An output buffer or an output struct must not overlap any other argument."
    unsafe { shamir_judge(lines, lines_bytes, line, line_bytes, judged, room, room_bytes) }
}

pub(crate) fn quorums(lines: &[u8]) -> Answer {
    let (lines, lines_bytes) = of(lines);
    // SAFETY: "A buffer is a pointer and a length in bytes."
    unsafe { shamir_quorums(lines, lines_bytes) }
}

pub(crate) fn reissue(plan: &[u8], names: &[u8], lines: &[u8], room: &mut [u8]) -> Answer {
    let ((plan, plan_bytes), (names, names_bytes)) = (of(plan), of(names));
    let ((lines, lines_bytes), (room, room_bytes)) = (of(lines), room_of(room));
    // SAFETY: "An output buffer or an output struct must not overlap any other argument."
    unsafe { shamir_reissue(plan, plan_bytes, names, names_bytes, lines, lines_bytes, room, room_bytes) }
}

pub(crate) fn resplit(plan: &[u8], lines: &[u8], random: &[u8], room: &mut [u8]) -> Answer {
    let ((plan, plan_bytes), (lines, lines_bytes), (room, room_bytes)) = (of(plan), of(lines), room_of(room));
    // SAFETY: "An output buffer or an output struct must not overlap any other argument."
    unsafe { shamir_resplit(plan, plan_bytes, lines, lines_bytes, random.as_ptr(), random.len(), room, room_bytes) }
}

pub(crate) fn create_from_encrypted(
    plan: &[u8],
    parameters: &Parameters,
    encrypted: &[u8],
    random: &[u8],
    room: &mut [u8],
) -> Answer {
    let ((plan, plan_bytes), (room, room_bytes)) = (of(plan), room_of(room));
    // SAFETY: "An output buffer or an output struct must not overlap any other argument."
    unsafe {
        shamir_create_from_encrypted(
            plan,
            plan_bytes,
            parameters,
            encrypted.as_ptr(),
            encrypted.len(),
            random.as_ptr(),
            random.len(),
            room,
            room_bytes,
        )
    }
}

pub(crate) fn repair(line: &[u8], room: &mut [u8]) -> Answer {
    let ((line, line_bytes), (room, room_bytes)) = (of(line), room_of(room));
    // SAFETY: "An output buffer or an output struct must not overlap any other argument."
    unsafe { shamir_repair(line, line_bytes, room, room_bytes) }
}

pub(crate) fn fingerprint(secret: &[u8], room: &mut [u8]) -> Answer {
    let (room, room_bytes) = room_of(room);
    // SAFETY: "An output buffer or an output struct must not overlap any other argument."
    unsafe { shamir_fingerprint(secret.as_ptr(), secret.len(), room, room_bytes) }
}

pub(crate) fn words(letters: &[u8], room: &mut [u8]) -> Answer {
    let ((letters, letters_bytes), (room, room_bytes)) = (of(letters), room_of(room));
    // SAFETY: "An output buffer or an output struct must not overlap any other argument."
    unsafe { shamir_words(letters, letters_bytes, room, room_bytes) }
}

pub(crate) fn text(answer: &Answer, room: &mut [u8]) -> Answer {
    let (room, room_bytes) = room_of(room);
    // SAFETY: "A pointer to a struct must not be NULL."
    unsafe { shamir_text(answer, room, room_bytes) }
}

pub(crate) fn version(room: &mut [u8]) -> Answer {
    let (room, room_bytes) = room_of(room);
    // SAFETY: "No call writes a terminating NUL."
    unsafe { shamir_version(room, room_bytes) }
}

/// Writes zeros over bytes. The library does it, so the compiler of this crate can't leave it out.
pub(crate) fn wipe(bytes: &mut [u8]) {
    // SAFETY: "Clears a buffer of the caller, such as one that held a secret: every byte of it becomes 0."
    unsafe { shamir_wipe(bytes.as_mut_ptr(), bytes.len()) }
}
