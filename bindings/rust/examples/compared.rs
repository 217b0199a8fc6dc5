//! Compares secrets whose bytes valgrind takes for undefined. `tools/rust` runs it under valgrind, which finds each branch and each
//! address that depends on them. With the argument `plainly`, it compares them as slices.
//!
//! It prints 1 for equal secrets and 0 for others.
#![allow(unsafe_code)]

#[cfg(target_arch = "x86_64")]
use shamir::Secret;

/// The requests of memcheck that make bytes undefined, and defined again.
#[cfg(target_arch = "x86_64")]
mod memcheck {
    pub(crate) const UNDEFINED: usize = 0x4d43_0001;
    pub(crate) const DEFINED: usize = 0x4d43_0002;

    /// Makes a request for bytes. Without valgrind it does nothing.
    pub(crate) fn request(code: usize, bytes: &[u8]) {
        let words = [code, bytes.as_ptr() as usize, bytes.len(), 0, 0, 0];
        // SAFETY: these instructions rotate a register by 128 bits, and exchange a register with itself. So they change nothing.
        unsafe {
            std::arch::asm!(
                "rol rdi, 3",
                "rol rdi, 13",
                "rol rdi, 61",
                "rol rdi, 51",
                "xchg rbx, rbx",
                in("rax") words.as_ptr(),
                inout("rdx") 0_usize => _,
                options(nostack)
            );
        }
    }
}

#[cfg(target_arch = "x86_64")]
fn main() -> Result<(), shamir::Error> {
    use memcheck::{DEFINED, UNDEFINED, request};
    let is_plain = std::env::args().nth(1).is_some_and(|word| word == "plainly");
    let mut far = [1; 32];
    far[31] = 2;
    for other in [[1; 32], [2; 32], far] {
        let (one, other) = (Secret::new(&[1; 32])?, Secret::new(&other)?);
        request(UNDEFINED, one.as_bytes());
        request(UNDEFINED, other.as_bytes());
        let is_equal = if is_plain { one.as_bytes() == other.as_bytes() } else { one == other };
        let told = std::hint::black_box([u8::from(is_equal)]);
        request(DEFINED, &told);
        println!("{}", told[0]);
    }
    Ok(())
}

#[cfg(not(target_arch = "x86_64"))]
fn main() {}
