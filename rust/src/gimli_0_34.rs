//! Readers and types of gimli 0.34.

use ::gimli_0_34 as gimli;

/// Takes the first of two texts: gimli has a name for each operation, request and error.
macro_rules! if_all_have_names {
    ({ $($then:tt)* } else { $($other:tt)* }) => { $($then)* };
}

// The modules of versions have the same files.
#[allow(clippy::duplicate_mod)]
#[path = "interop/mod.rs"]
mod interop;

pub use interop::*;
