//! A conformance suite for evaluators of DWARF expressions (DWARF 5, sections 2.5 and 2.6): evaluations, lists of
//! operations, operations with each operand, and calls on values. Results are worked out by hand from the standard.
//!
//! It runs on any [`Implementation`]. For a crate with the names of gimli 0.34 a macro implements it:
//!
//! ```ignore
//! dwexpr_conformance::implementation!(over_gimli = gimli);
//!
//! let read = |bytes, order| gimli::EndianSlice::new(bytes, order);
//! for difference in dwexpr_conformance::differences(&over_gimli::Over(read)) {
//!     println!("{difference}");
//! }
//! ```

#![warn(missing_docs)]

mod adapter;
mod cases;
#[doc(hidden)]
pub mod json;
mod values;

pub use cases::{Case, Computation, Decoding, Encoding, Operation, Step, cases, computations, decodings};
#[allow(unused_imports, reason = "this repository's tests include the suite as a module")]
pub(crate) use cases::{bytes_of, steps_of, variant_of};
pub use values::{Call, Value, ValueType};

use std::fmt;
use std::panic::{AssertUnwindSafe, catch_unwind};

/// What the suite runs on. A fault is its name in gimli's `Error`, and its number if it has one, as in
/// `BadBranchTarget 17`. A call that isn't allowed has to panic.
pub trait Implementation {
    /// The width of an offset. Some rows are only for one of 32 bits or of 64.
    const OFFSET_BITS: u32;

    /// Evaluates an expression, and gives a line for each reply, piece and value, as the rows have them.
    fn evaluate(&self, bytes: &[u8], encoding: Encoding, steps: &[Step]) -> String;

    /// Lists the operations of an expression, a line for each, with its place and its bytes.
    fn list(&self, bytes: &[u8], encoding: Encoding) -> String;

    /// Decodes the first operation.
    ///
    /// # Errors
    ///
    /// Its fault.
    fn decode(&self, bytes: &[u8], encoding: Encoding) -> Result<Operation, String>;

    /// Makes a call on values.
    ///
    /// # Errors
    ///
    /// Its fault.
    fn compute(&self, call: &Call) -> Result<Value, String>;
}

/// A row that has another result.
#[derive(Clone, Debug, PartialEq, Eq)]
pub struct Difference {
    /// The row's name.
    pub name: String,
    /// The result.
    pub result: String,
    /// The result in the row.
    pub wanted: String,
}

impl fmt::Display for Difference {
    fn fmt(&self, f: &mut fmt::Formatter<'_>) -> fmt::Result {
        write!(f, "{}: {:?}, and {:?} is wanted", self.name, self.result, self.wanted)
    }
}

/// Runs a row. A panic is a result, too.
fn difference(name: &str, result: impl FnOnce() -> String, wanted: String) -> Option<Difference> {
    let result = catch_unwind(AssertUnwindSafe(result)).unwrap_or_else(|_| "a panic".into());
    (result != wanted).then(|| Difference { name: name.into(), result, wanted })
}

fn case_difference<I: Implementation>(it: &I, case: &Case) -> Option<Difference> {
    let result = || match &case.steps {
        Some(steps) => it.evaluate(&case.bytes, case.encoding, steps),
        None => it.list(&case.bytes, case.encoding),
    };
    let difference = difference(&case.name, result, case.wanted.clone())?;
    // Offsets of 32 bits are too small for some rows, and branches wrap there.
    let is_narrow = ["UnsupportedOffset", "BadBranchTarget"].iter().any(|it| difference.result.contains(it));
    (I::OFFSET_BITS != 32 || !is_narrow).then_some(difference)
}

/// An operation as text, or the fault.
fn shown(result: Result<Operation, String>) -> String {
    result.map_or_else(|fault| fault, |it| format!("{} {:?}, {} bytes", it.name, it.fields, it.length))
}

fn decoding_difference<I: Implementation>(it: &I, row: &Decoding) -> Option<Difference> {
    if row.bits.is_some_and(|bits| bits != I::OFFSET_BITS) {
        return None;
    }
    let eof = || Err("UnexpectedEof".to_owned());
    // What is cut off has to be at the end; other operations are in front of two more.
    let more: &[u8] = if row.wanted == eof() { &[] } else { &[0x96; 2] };
    let bytes = [&row.bytes, more].concat();
    let whole = difference(&row.name, || shown(it.decode(&bytes, row.encoding)), shown(row.wanted.clone()));
    let is_narrow = |it: &Difference| I::OFFSET_BITS == 32 && row.bits.is_none() && it.result == "UnsupportedOffset";
    if whole.is_some() || row.wanted.is_err() {
        return whole.filter(|it| !is_narrow(it));
    }
    let front_difference = |length| {
        let front = &row.bytes[..length];
        difference(&format!("{}, cut to {length}", row.name), || shown(it.decode(front, row.encoding)), shown(eof()))
    };
    (0..row.bytes.len()).find_map(front_difference)
}

fn computation_difference<I: Implementation>(it: &I, row: &Computation) -> Option<Difference> {
    let shown = |result: Result<Value, String>| result.map_or_else(|fault| fault, |value| value.to_string());
    difference(&row.name, || shown(it.compute(&row.call)), shown(row.wanted.clone()))
}

/// Runs all rows, and gives those that have another result.
pub fn differences<I: Implementation>(it: &I) -> Vec<Difference> {
    let (cases, decodings, computations) = (cases(), decodings(), computations());
    let cases = cases.iter().filter_map(|case| case_difference(it, case));
    let decodings = decodings.iter().filter_map(|row| decoding_difference(it, row));
    cases.chain(decodings).chain(computations.iter().filter_map(|row| computation_difference(it, row))).collect()
}
