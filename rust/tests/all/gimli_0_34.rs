//! gimli 0.34.

use dwexpr::gimli_0_34::{Answer, GimliOffset, GimliReader, Outcome, Settings, evaluate_with_floats};
use gimli_0_34 as gimli;

const HAS_ALL_NAMES: bool = true;

/// Answers a request of WebAssembly.
macro_rules! wasm_answered {
    ($both:ident, $value:expr, $theirs:expr) => {
        $both!(resume_with_wasm_value($value, $theirs))
    };
}

#[path = "clones.rs"]
mod clones;
#[path = "floats.rs"]
mod floats;
#[path = "interop.rs"]
mod interop;
#[path = "readers.rs"]
mod readers;
