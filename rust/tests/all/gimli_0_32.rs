//! gimli 0.32.

use dwexpr::gimli_0_32::{Answer, GimliOffset, GimliReader, Outcome, Settings, evaluate_with_floats};
use gimli_0_32 as gimli;

const HAS_ALL_NAMES: bool = false;

/// Answers a request of WebAssembly, which gimli never makes.
macro_rules! wasm_answered {
    ($both:ident, $value:expr, $theirs:expr) => {
        unreachable!()
    };
}

#[path = "floats.rs"]
mod floats;
#[path = "interop.rs"]
mod interop;
#[path = "readers.rs"]
mod readers;
