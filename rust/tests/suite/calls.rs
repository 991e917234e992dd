//! Makes the calls that vectors say and that gimli doesn't have: on masks of addresses, types, offsets and numbers.

use crate::conformance::{bytes_of, json::Json};
use crate::{ours, slice, vectors};
use dwexpr::constants::DwAte;
use dwexpr::{Reader, ReaderOffset, Result, RunTimeEndian, ValueType, is_addr_mask};

/// The answer of a call.
fn answer_of(row: &Json) -> String {
    let word = |result: Result<u64>| result.map_or_else(ours::fault, |number| number.to_string());
    match row.get("call").unwrap().text() {
        "is_addr_mask" => is_addr_mask(row.number("mask")).to_string(),
        "from_encoding" => {
            let encoding = DwAte(row.number("encoding") as u8);
            let word = |it: ValueType| format!("{it:?}").to_lowercase();
            ValueType::from_encoding(encoding, row.number("size")).map_or("none".into(), word)
        }
        "u32_from_u64" => word(<u32 as ReaderOffset>::from_u64(row.number("number")).map(u64::from)),
        "read_fixed" => {
            let is_big = row.get("order").unwrap().text() == "be";
            let order = if is_big { RunTimeEndian::Big } else { RunTimeEndian::Little };
            let bytes = bytes_of(row.get("bytes").unwrap().text()).expect("pairs of digits");
            word(slice(bytes.leak(), order).read_fixed(row.number("size") as u8))
        }
        call => panic!("the call {call}"),
    }
}

#[test]
fn other_calls_are_as_their_vectors_say() {
    for row in vectors("calls", include_str!("../../../tests/vectors/calls.json")) {
        assert_eq!(answer_of(&row), row.get("answer").unwrap().text(), "{row:?}");
    }
}
