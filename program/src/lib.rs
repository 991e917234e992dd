//! The program `dwexpr`: it decodes and evaluates DWARF expressions. The build script makes the module `sources` from
//! proved sources, over the Rust crate `dwexpr`. The rest is written by hand: what the sources take of the library of
//! the Rattle kit, and of the process.

// The module `sources`, which the build script writes. Each line has the same number as in the proved source.
include!(concat!(env!("OUT_DIR"), "/lib.rs"));

use dwexpr as library;

mod host;
mod kit;

pub use host::HostRuntime;
pub use sources::program::main;
