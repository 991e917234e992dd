//! Calls the program's `main`, from C's: Rust's own start takes memory, and ends the process if that is refused.
#![no_main]

use dwexpr_cli::HostRuntime;
use std::ffi::{c_char, c_int};

/// # Safety
///
/// The C library calls it, once.
#[unsafe(no_mangle)]
unsafe extern "C" fn main(count: c_int, words: *const *const c_char) -> c_int {
    // SAFETY: C's `main` is handed as many texts.
    let host = unsafe { HostRuntime::new(count, words) };
    dwexpr_cli::main(host)
}
