//! The program `shamir`. Its `main` is that of `program.c`, the program as plain C, which `build.rs` compiles and links.
#![no_main]
