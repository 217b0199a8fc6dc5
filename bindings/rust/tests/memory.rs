//! What is left in memory after a secret is gone. The allocator of these tests looks at each piece of memory before it is freed.
#![allow(unsafe_code)]
mod given;

use given::{ONE_SECRET, bytes};
use shamir::Secret;
use std::alloc::{GlobalAlloc, Layout, System};
use std::cell::Cell;
use std::mem::MaybeUninit;

/// The secret of these tests is that of `ONE`: no doc example and no other value holds four of its bytes.
const LOOKED_FOR: [u8; 16] = *b"\xbb\x54\xaa\xc4\xb8\x9d\xc8\x68\xba\x37\xd9\xcc\x21\xb2\xce\xce";

thread_local! {
    /// How many freed pieces of memory held a secret, its digits, a mnemonic of it or random bytes, since `left_by` began.
    static FOUND: Cell<usize> = const { Cell::new(0) };
    static LOOKS: Cell<bool> = const { Cell::new(false) };
}

struct Looking;

#[global_allocator]
static ALLOCATOR: Looking = Looking;

/// Whether memory holds eight bytes of the secret, eight of its digits, or a word of a mnemonic with a space after it.
fn tells(memory: &[u8]) -> bool {
    let parts: [&[u8]; 4] = [&LOOKED_FOR[..8], b"bb54aac4", b"academic ", &RANDOM[..8]];
    parts.iter().any(|part| memory.windows(part.len()).any(|window| window == *part))
}

const RANDOM: [u8; 14] = *b"random bytes..";

// SAFETY: every piece of memory comes from the allocator of the system, and goes back to it. It is read before that, when it is still
// allocated.
unsafe impl GlobalAlloc for Looking {
    unsafe fn alloc(&self, layout: Layout) -> *mut u8 {
        // All of it is read later, so all of it is initialized.
        unsafe { System.alloc_zeroed(layout) }
    }

    unsafe fn dealloc(&self, memory: *mut u8, layout: Layout) {
        if LOOKS.get() && tells(unsafe { std::slice::from_raw_parts(memory, layout.size()) }) {
            FOUND.set(FOUND.get() + 1);
        }
        unsafe { System.dealloc(memory, layout) }
    }
}

/// Runs something, and gives how many of the pieces of memory that it freed told a secret.
fn left_by<T>(run: impl FnOnce() -> T) -> usize {
    FOUND.set(0);
    LOOKS.set(true);
    drop(run());
    LOOKS.set(false);
    FOUND.get()
}

#[test]
fn the_allocator_finds_what_is_left() {
    assert_eq!(left_by(|| bytes(ONE_SECRET)), 1);
    assert_eq!(left_by(|| String::from("bb54aac4")), 1);
    assert_eq!(left_by(|| vec![0; 16]), 0);
}

#[test]
fn a_secret_leaves_nothing() {
    assert_eq!(left_by(|| Secret::new(&LOOKED_FOR).unwrap()), 0);
    assert_eq!(left_by(|| Secret::new(&LOOKED_FOR).unwrap().clone()), 0);
}

/// Writes a secret in this place, drops it there, and gives the bytes of the place. What lies between fields isn't looked at.
#[test]
fn a_dropped_secret_is_zeros() {
    let mut place = MaybeUninit::new(Secret::new(&LOOKED_FOR).unwrap());
    // SAFETY: the place holds a secret, which is dropped once. Its bytes are within the place, or in memory that the allocator looks at.
    let held = unsafe {
        let within = place.assume_init_ref().as_bytes().as_ptr();
        let start = place.as_ptr().cast::<u8>();
        let is_within = (start as usize..start as usize + size_of::<Secret>()).contains(&(within as usize));
        LOOKS.set(true);
        FOUND.set(0);
        std::ptr::drop_in_place(place.as_mut_ptr());
        LOOKS.set(false);
        is_within.then(|| std::slice::from_raw_parts(within, LOOKED_FOR.len()).to_vec())
    };
    assert_eq!(held.is_none(), cfg!(feature = "alloc"));
    assert_eq!((held.unwrap_or_default().iter().all(|&byte| byte == 0), FOUND.get()), (true, 0));
}

#[cfg(feature = "alloc")]
mod in_heap {
    use super::{LOOKED_FOR, RANDOM, given, left_by};
    use given::{FIVE, ONE, TWO_RANDOM, bytes};
    use shamir::{
        CreateOptions, DecryptOptions, Drill, Error, Mnemonics, Name, Papers, RecoverOptions, Secret, create,
        create_from_encrypted_with, create_with, decrypt, decrypt_rounds, encrypted, judge, parse, recover, reissue, repair,
        resplit_with,
    };

    fn trezor() -> RecoverOptions<'static> {
        RecoverOptions::new().passphrase("TREZOR")
    }

    #[test]
    fn a_recovery_and_a_share_leave_nothing() {
        assert_eq!(left_by(|| recover(ONE, &trezor()).unwrap()), 0);
        assert_eq!(left_by(|| parse(ONE).unwrap().clone()), 0);
        assert_eq!(left_by(|| decrypt(&encrypted(ONE).unwrap(), &DecryptOptions::new().passphrase("TREZOR")).unwrap()), 0);
        let kept = encrypted(ONE).unwrap();
        assert_eq!(left_by(|| decrypt_rounds(&kept, "TREZOR", |_| true).unwrap()), 0);
    }

    #[test]
    fn a_drill_leaves_nothing() {
        let lines = FIVE.join("\n");
        assert_eq!(left_by(|| Drill::new(&lines, &trezor()).count()), 0);
        assert_eq!(left_by(|| Drill::new(&lines, &trezor()).collect::<Vec<_>>()), 0);
        assert_eq!(left_by(|| Drill::new(&lines, &trezor()).next().unwrap().unwrap()), 0);
        assert_eq!(left_by(|| Drill::new(&lines, &trezor().expected("df41d8fe")).collect::<Vec<_>>()), 0);
    }

    #[test]
    fn mnemonics_leave_nothing() {
        let (plan, secret, options) = ("2of3".parse().unwrap(), Secret::new(&LOOKED_FOR).unwrap(), CreateOptions::new());
        assert_eq!(left_by(|| create(&plan, &secret, &options, &bytes(TWO_RANDOM)).unwrap()), 0);
        assert_eq!(left_by(|| FIVE.iter().collect::<Mnemonics>()), 0);
        assert_eq!(left_by(|| reissue(&plan, "0.0", ONE)), 0);
        assert_eq!(left_by(|| reissue(&"1of1".parse().unwrap(), "0.0", ONE).unwrap()), 0);
        let marks = ONE.replace("keyboard", "?");
        assert_eq!(left_by(|| repair(&marks).unwrap()), 0);
    }

    #[test]
    fn papers_leave_nothing() {
        let lines = FIVE.join("\n");
        assert_eq!(left_by(|| judge(&lines, FIVE[0]).unwrap()), 0);
        let kept = || {
            let mut papers = Papers::new();
            FIVE.iter().for_each(|paper| _ = papers.add(paper).unwrap());
            papers
        };
        assert_eq!(left_by(kept), 0);
        assert_eq!(left_by(|| kept().add(ONE)), 0);
        assert_eq!(left_by(|| kept().recover(&trezor()).unwrap()), 0);
        assert_eq!(left_by(|| kept().remove(1, Name { group: 0, member: 0 }).unwrap()), 0);
        assert_eq!(left_by(|| kept().lines(1).clone()), 0);
    }

    #[test]
    fn random_bytes_leave_nothing() {
        let (plan, secret) = ("2of3".parse().unwrap(), Secret::new(&LOOKED_FOR).unwrap());
        let draw = |room: &mut [u8]| {
            room.copy_from_slice(&RANDOM);
            Ok::<(), Error>(())
        };
        assert_eq!(left_by(|| create_with(&plan, &secret, &CreateOptions::new(), draw).unwrap()), 0);
        let lines = create(&plan, &secret, &CreateOptions::new().extendable(true), &bytes(TWO_RANDOM)).unwrap();
        assert_eq!(left_by(|| resplit_with(&plan, &lines, draw).unwrap()), 0);
        let kept = encrypted(&lines).unwrap();
        assert_eq!(left_by(|| create_from_encrypted_with(&plan, &kept, draw).unwrap()), 0);
        let failing = |room: &mut [u8]| draw(room).and(Err(Error::NoShares));
        assert_eq!(left_by(|| create_with(&plan, &secret, &CreateOptions::new(), failing).unwrap_err()), 0);
        let failing = |room: &mut [u8]| {
            room.copy_from_slice(&LOOKED_FOR);
            Err(Error::NoShares)
        };
        assert_eq!(left_by(|| Secret::draw(16, failing).unwrap_err()), 0);
    }
}
