//! Runs the conformance suite on this crate over each reader, and on gimli, and also the vectors of calls that gimli
//! doesn't have.

#[cfg(feature = "gimli")]
extern crate gimli_0_34 as gimli;

mod bounds;
mod calls;
#[allow(dead_code)]
#[path = "../../../tests/conformance/src/lib.rs"]
mod conformance;
#[cfg(feature = "gimli")]
mod gimlis;
mod lists;
mod readers;

// The suite's macro names these from the crate.
use conformance::{Call, Case, Encoding, Implementation, Operation, Step, Value, ValueType};
use conformance::{cases, computations, decodings, differences, json::Json};
use dwexpr::{EndianSlice, RunTimeEndian};
use readers::Own;

implementation!(ours = dwexpr);

fn slice(bytes: &'static [u8], order: RunTimeEndian) -> EndianSlice<'static, RunTimeEndian> {
    EndianSlice::new(bytes, order)
}

/// The vectors of a file in the folder `tests/vectors`, as many as there should be, so that none gets lost.
fn vectors(kind: &str, text: &str) -> Vec<Json> {
    let vectors = Json::of(text).items().to_vec();
    assert_eq!(vectors.len() as u64, Json::of(include_str!("../../../tests/counts.json")).number(kind), "{kind}");
    vectors
}

/// Expects each row to be as it says.
fn assert_conforms(name: &str, it: &impl Implementation) {
    let differences = differences(it);
    assert!(differences.is_empty(), "{name}: {}: {}", differences.len(), differences[0]);
}

#[test]
fn the_crate_conforms_over_each_reader() {
    assert_conforms("slices", &ours::Over(slice));
    assert_conforms("a reader with 64 bits", &ours::Over(Own::<u64>::of));
    assert_conforms("a reader with 32 bits", &ours::Over(Own::<u32>::of));
    #[cfg(feature = "gimli")]
    {
        use dwexpr::GimliReader;
        assert_conforms("gimli's slices", &ours::Over(|bytes, order| GimliReader(gimlis::slice(bytes, order))));
        assert_conforms("gimli's EndianArcSlice", &ours::Over(|bytes, order| GimliReader(gimlis::arc(bytes, order))));
        assert_conforms("gimli's EndianRcSlice", &ours::Over(|bytes, order| GimliReader(gimlis::rc(bytes, order))));
    }
}

#[test]
fn no_row_gets_lost() {
    assert!(cases().len() > 1840, "{}", cases().len());
    let count = |kind| Json::of(include_str!("../../../tests/counts.json")).number(kind);
    assert_eq!((decodings().len() as u64, computations().len() as u64), (count("decode"), count("values")));
    let sum = cases().len() + decodings().len() + computations().len();
    let shown = format!("{},{:03} rows", sum / 1000, sum % 1000);
    assert!(include_str!("../../../tests/conformance/gimli.md").contains(&shown), "{shown}");
}

/// Does as the crate, but for one result of each call.
struct Wrong;

impl Implementation for Wrong {
    const OFFSET_BITS: u32 = 64;

    fn evaluate(&self, bytes: &[u8], encoding: Encoding, steps: &[Step]) -> String {
        ours::Over(slice).evaluate(bytes, encoding, steps).replace("value i8:-128", "value i8:127")
    }

    fn list(&self, bytes: &[u8], encoding: Encoding) -> String {
        assert!(bytes != [0x31, 0x93], "a panic on purpose");
        ours::Over(slice).list(bytes, encoding)
    }

    fn decode(&self, bytes: &[u8], encoding: Encoding) -> Result<Operation, String> {
        let mut operation = ours::Over(slice).decode(bytes, encoding)?;
        operation.length += usize::from(operation.name == "Rot");
        Ok(operation)
    }

    fn compute(&self, call: &Call) -> Result<Value, String> {
        ours::Over(slice).compute(call).map_err(|fault| fault.replace("DivisionByZero", "TypeMismatch"))
    }
}

#[test]
fn differences_are_found() {
    let found = differences(&Wrong);
    let has =
        |result: &str, wanted: &str| found.iter().any(|it| it.result.contains(result) && it.wanted.contains(wanted));
    assert!(has("value i8:127", "value i8:-128") && has("TypeMismatch", "DivisionByZero"), "{found:?}");
    assert!(has("Rot {}, 2 bytes", "Rot {}, 1 bytes") && has("a panic", "UnsignedConstant"), "{found:?}");
}
