//! What gimli's bounds allow in generic code.

use super::{ENCODING, little};
use dwexpr::{EndianSlice, Endianity, EvaluationStorage, Expression, LittleEndian, Reader, RunTimeEndian};
use dwexpr::{SliceVec, StoreInSlices, StoreOnHeap};
use std::fmt::Debug;

/// All operations of an expression, as `Debug` shows them.
fn shown<R: Reader>(expression: Expression<R>) -> Vec<String> {
    expression.operations(ENCODING).map(|operation| format!("{operation:?}")).collect()
}

/// Whether two expressions begin with the same bytes in the same order.
fn are_equal<E: Endianity>(one: EndianSlice<'_, E>, other: EndianSlice<'_, E>) -> bool {
    assert_eq!(one.endian().is_little_endian(), !one.endian().is_big_endian());
    one == other && E::default() == E::default()
}

fn storage_shown<R: Reader, S: EvaluationStorage<R> + Debug>(storage: &S) -> String {
    format!("{storage:?}")
}

#[test]
fn what_any_reader_and_any_order_has() {
    fn is_shown<T: Debug>() {}
    is_shown::<StoreInSlices>();
    assert_eq!(storage_shown::<EndianSlice<LittleEndian>, _>(&StoreOnHeap), "StoreOnHeap");
    assert_eq!(format!("{:?}", SliceVec::new(&mut [1, 2])), "[]");
    assert_eq!(shown(Expression(little(&[0x91, 0x6c, 0x96]))), ["Ok(FrameOffset { offset: -20 })", "Ok(Nop)"]);
    assert!(are_equal(little(&[1, 2]), little(&[1, 2])) && !are_equal(little(&[1, 2]), little(&[1])));
    let [little, big] = [RunTimeEndian::Little, RunTimeEndian::Big].map(|order| EndianSlice::new(&[1, 2], order));
    assert!(!are_equal(little, big));
}
