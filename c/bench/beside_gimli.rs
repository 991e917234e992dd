//! Times the library for C beside gimli: the target `bench` of CMake builds and runs it.

extern crate gimli_0_34 as gimli;

// The lists, gimli's half and the clock are those of the Rust crate's benchmark.
#[path = "../../rust/benches/beside_gimli.rs"]
#[allow(dead_code)]
mod rust;

use rust::{Case, Row, UnitEncoding, all, theirs};
use std::process::ExitCode;

macro_rules! from_c {
    ($($name:ident: $call:ident,)+) => {
        unsafe extern "C" {
            $(fn $call(bytes: *const u8, length: usize, encoding: UnitEncoding) -> u64;)+
        }
        $(fn $name(cases: &[Case], times: u32) -> u64 {
            // SAFETY: calls.c reads the bytes of one slice, and keeps none.
            all(cases, times, |case| unsafe { $call(case.bytes.as_ptr(), case.bytes.len(), case.encoding) })
        })+
    };
}

from_c!(decode: bench_decode, evaluate: bench_evaluate, run: bench_run,);

fn main() -> ExitCode {
    let pieces = theirs::pieces;
    rust::measure(
        "From C",
        &[
            Row { name: "decode", timed: [theirs::decode::<false>, decode], summed: [theirs::decode::<false>, decode] },
            Row { name: "evaluate", timed: [theirs::on_heap::<false>, evaluate], summed: [pieces, evaluate] },
            Row { name: "`dwexpr_run`", timed: [theirs::on_heap::<false>, run], summed: [pieces, run] },
        ],
        true,
    )
}
