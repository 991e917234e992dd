//! Readers and types of gimli 0.33.
//!
//! Only the names of 0.32 are used. So operations and requests convert by `TryFrom`, and the error `InvalidPieceSize`
//! becomes `InvalidExpression(DW_OP_piece)`.

use ::gimli_0_33 as gimli;

/// Takes the second of two texts: gimli has no name for some operations, requests and errors.
macro_rules! if_all_have_names {
    ({ $($then:tt)* } else { $($other:tt)* }) => { $($other)* };
}

// The modules of versions have the same files.
#[allow(clippy::duplicate_mod)]
#[path = "interop/mod.rs"]
mod interop;

pub use interop::*;
