//! What a dropped secret leaves in the heap. In optimized code, a compiler leaves out writes to memory that is freed next, unless
//! another library makes them. So this test looks at the memory after it is freed, and `tools/rust` runs it with optimization across crates.
#![allow(unsafe_code)]
use shamir::{SECRET_BYTES_MAX, Secret};
use std::alloc::{Layout, alloc, dealloc};
use std::hint::black_box;

const BYTE: u8 = 0xa5;
/// The allocator writes into the first bytes of a piece of memory that is freed.
const FIRST: usize = 16;

/// Asks for memory of the length of a secret, and counts the bytes in it that earlier contents left. The allocator gives the piece that
/// was freed last.
fn left() -> usize {
    let layout = Layout::new::<[u8; SECRET_BYTES_MAX]>();
    // SAFETY: the memory has this length, and the volatile reads take its bytes as they are.
    unsafe {
        let memory = alloc(layout);
        let count = (FIRST..SECRET_BYTES_MAX).filter(|&place| memory.add(place).read_volatile() == BYTE).count();
        dealloc(memory, layout);
        count
    }
}

#[inline(never)]
fn drop_plain_bytes() {
    black_box(&vec![BYTE; SECRET_BYTES_MAX]);
}

#[inline(never)]
fn drop_a_secret() {
    black_box(&Secret::new(&[BYTE; SECRET_BYTES_MAX]).unwrap());
}

fn main() {
    drop_plain_bytes();
    assert_eq!(left(), SECRET_BYTES_MAX - FIRST);
    drop_a_secret();
    assert_eq!(left(), 0);
}
