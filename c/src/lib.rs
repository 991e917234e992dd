//! Decodes and evaluates DWARF expressions, as a library for C. `include/dwexpr.h` declares it.
//!
//! The module `sources` is made from proved Rattle sources. The exports are written by hand: they make references and
//! slices from what C passes in.
#![no_std]
#![deny(unsafe_op_in_unsafe_fn)]

// The sources name `std` and `arrayvec`. They use only what `core` and this crate have.
extern crate core as std;
extern crate self as arrayvec;

/// A condition on sizes. The prover checks it in the sources; rustc checks it here, on machines with 64-bit words.
macro_rules! prove {
    ($($holds:tt)*) => {
        assert!(size_of::<usize>() != 8 || $($holds)*)
    };
}

// The module `sources`, which the build script writes. Each line has the same number as in the proved source.
include!(concat!(env!("OUT_DIR"), "/lib.rs"));

#[path = "../../rust/src/casts.rs"]
mod casts;
mod exports;
mod lists;

use lists::ArrayVec;

// Functions of rustc's own library name the function that runs while a panic unwinds. No panic unwinds here.
#[cfg(not(any(windows, target_vendor = "apple")))]
core::arch::global_asm!(".weak rust_eh_personality", ".hidden rust_eh_personality", ".set rust_eh_personality, 0");
#[cfg(target_vendor = "apple")]
core::arch::global_asm!(".private_extern _rust_eh_personality", "_rust_eh_personality:", ".byte 0");

/// It is proved that nothing panics. If something does all the same, this stops the program by a write to address 0,
/// since there may be no C library to call.
#[panic_handler]
fn stop(_: &core::panic::PanicInfo) -> ! {
    loop {
        // SAFETY: no object is at address 0. Where such a write is refused, it changes nothing.
        unsafe { core::ptr::null_mut::<u8>().write_volatile(0) }
    }
}
