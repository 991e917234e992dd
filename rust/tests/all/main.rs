//! What gimli's own tests don't show: calls out of turn, storages, a user's readers, errors.

#[cfg(feature = "gimli")]
extern crate gimli_0_34 as gimli;

mod ends;
mod evaluations;
mod generic;
// The modules of versions have the same files.
#[cfg(feature = "gimli-0_32")]
#[allow(clippy::duplicate_mod)]
mod gimli_0_32;
#[cfg(feature = "gimli-0_34")]
#[allow(clippy::duplicate_mod)]
mod gimli_0_34;
mod integers;
mod plain;
mod ranges;
mod reading;
mod storages;

use dwexpr::{Encoding, EndianSlice, Evaluation, Format, LittleEndian};
use std::panic::{AssertUnwindSafe, catch_unwind};

const ENCODING: Encoding = Encoding { address_size: 8, format: Format::Dwarf32, version: 5 };

type Little<'a> = EndianSlice<'a, LittleEndian>;

fn little(bytes: &[u8]) -> Little<'_> {
    EndianSlice::new(bytes, LittleEndian)
}

fn evaluation(bytes: &[u8]) -> Evaluation<Little<'_>> {
    Evaluation::new(little(bytes), ENCODING)
}

fn panics<T>(call: impl FnOnce() -> T) -> bool {
    catch_unwind(AssertUnwindSafe(call)).is_err()
}
