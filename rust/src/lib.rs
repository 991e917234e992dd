//! Decodes and evaluates DWARF expressions (DWARF 5, sections 2.5 and 2.6), with the names of the crate
//! [gimli](https://github.com/gimli-rs/gimli) 0.34. The code comes from proved sources, but their contracts are taken
//! out, so nothing is proved of this crate itself.
//!
//! The sources are in Rattle. It is proved that each of their calls returns, and gives what a separate specification
//! says. The module `sources` is made from them: their contracts are put in comments, and a few types, bounds,
//! attributes and names are replaced. The rest is written by hand: it checks the preconditions of the calls, and adds
//! what else gimli's types have. Tests show that the crate does what is proved of the sources.
//!
//! ```
//! # #[cfg(feature = "alloc")] {
//! use dwexpr::{EndianSlice, Encoding, Evaluation, EvaluationResult, Format, LittleEndian, Location};
//!
//! let encoding = Encoding { address_size: 8, format: Format::Dwarf32, version: 5 };
//! // DW_OP_fbreg -16, in a frame at 0x3000.
//! let mut evaluation = Evaluation::new(EndianSlice::new(&[0x91, 0x70], LittleEndian), encoding);
//! assert_eq!(evaluation.evaluate(), Ok(EvaluationResult::RequiresFrameBase));
//! assert_eq!(evaluation.resume_with_frame_base(0x3000), Ok(EvaluationResult::Complete));
//! assert_eq!(evaluation.as_result()[0].location, Location::Address { address: 0x2ff0 });
//! # }
//! ```
//!
//! Features:
//!
//! - `alloc`, a default feature: lists on the heap. Without it the crate doesn't allocate, see [`StoreInSlices`].
//! - `arrayvec`: an evaluation can keep its lists in arrays, see [`EvaluationStorage`].
//! - `gimli-0_32`, `gimli-0_33`, `gimli-0_34`: the `GimliReader` in the module of that name reads from any
//!   `gimli::Reader` of that version, and the types of both crates convert. They may be on together.
//! - `gimli`: the newest of these, whose `GimliReader` is also [here](crate).
//! - `small`: smaller code by `opt-level = "z"`.
// Its unit test counts allocations, and so has an allocator.
#![cfg_attr(not(test), no_std)]
#![cfg_attr(not(test), forbid(unsafe_code))]
#![cfg_attr(docsrs, feature(doc_cfg))]
#![warn(missing_docs)]

#[cfg(feature = "alloc")]
extern crate alloc;
// The sources name `std`, and use only what `core` has.
#[cfg(not(test))]
extern crate core as std;

// Each line has the same number as in the proved source.
include!(concat!(env!("OUT_DIR"), "/lib.rs"));

#[macro_use]
// The features decide which of the macros are used.
#[allow(unused_macros)]
mod lists;

mod casts;
// It implements sealed traits.
#[cfg(all(test, feature = "alloc", target_pointer_width = "64"))]
#[path = "../tests/cost.rs"]
mod cost;
mod errors;
mod evaluation;
#[cfg(feature = "gimli-0_32")]
pub mod gimli_0_32;
#[cfg(feature = "gimli-0_33")]
pub mod gimli_0_33;
#[cfg(feature = "gimli-0_34")]
pub mod gimli_0_34;
#[cfg(feature = "alloc")]
mod heap;
#[cfg(all(test, feature = "alloc"))]
#[path = "../tests/lists.rs"]
mod long_lists;
mod names;
mod operations;
mod orders;
mod slices;
mod storage;
#[cfg(feature = "alloc")]
mod unproved_growth;
mod values;

/// The numbers that DWARF gives to operations and encodings, by the standard's names.
pub mod constants {
    pub use crate::names::*;
    pub use crate::sources::base::constants::*;
}

/// Decoding and evaluation.
pub mod read {
    #[cfg(feature = "gimli")]
    pub use crate::gimli_0_34::{GimliOffset, GimliReader};
    #[cfg(feature = "alloc")]
    pub use crate::heap::StoreOnHeap;
    pub use crate::sources::base::{EndianSlice, Error, Reader, ReaderOffset, ReaderOffsetId, Result, UnitOffset};
    pub use crate::sources::eval::eval::{Evaluation, Status, WaitingKind};
    pub use crate::sources::eval::op::{
        DieReference, EvaluationResult, Expression, Location, Operation, OperationIter, Piece,
    };
    pub use crate::sources::eval::store::SliceVec;
    pub use crate::sources::value::{Value, ValueType, is_addr_mask};
    pub use crate::storage::{ArrayLike, EvaluationStorage, StoreInSlices};
}

pub use crate::constants::*;
pub use crate::read::*;
pub use crate::sources::base::{
    BigEndian, DebugAddrIndex, DebugInfoOffset, Encoding, Endianity, Format, LittleEndian, Register, RunTimeEndian,
};

/// This machine's byte order.
#[cfg(target_endian = "little")]
pub type NativeEndian = LittleEndian;
/// This machine's byte order.
#[cfg(target_endian = "big")]
pub type NativeEndian = BigEndian;
/// This machine's byte order.
#[cfg(target_endian = "little")]
#[allow(non_upper_case_globals)]
pub const NativeEndian: LittleEndian = LittleEndian;
/// This machine's byte order.
#[cfg(target_endian = "big")]
#[allow(non_upper_case_globals)]
pub const NativeEndian: BigEndian = BigEndian;

// `usize` is a type of offsets, and an offset has to hold each number of 32 bits.
const _: () = assert!(usize::BITS >= 32, "a machine's word has to have 32 bits or more");

#[cfg(all(doctest, feature = "alloc"))]
#[doc = include_str!("../README.md")]
struct Readme;
