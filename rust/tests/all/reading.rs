//! Operations, slices, and masks of addresses.

use super::{ENCODING, little, panics};
use dwexpr::constants::DwOp;
use dwexpr::{Error, Expression, Operation, Register, Value, ValueType};
use std::borrow::Cow;

#[test]
fn operations_end_with_the_bytes_or_an_error() {
    let expression = Expression(little(&[0x96, 0x01, 0x96]));
    let mut operations = expression.operations(ENCODING);
    assert_eq!(operations.next(), Ok(Some(Operation::Nop)));
    assert_eq!(operations.offset_from(&expression), 1);
    assert!(panics(|| operations.offset_from(&Expression(little(&[0x96])))));
    assert_eq!(operations.next(), Err(Error::InvalidExpression(DwOp(1))));
    assert_eq!(operations.next(), Ok(None));
    assert_eq!(operations.offset_from(&expression), 3);
}

#[test]
fn a_slice_has_gimlis_calls() {
    let bytes = [0x96, 0x0c, 1, 2];
    let whole = little(&bytes);
    let rest = whole.range_from(1..);
    assert_eq!((rest.slice(), rest.offset_from(whole)), (&bytes[1..], 1));
    assert_eq!((whole.range(1..3), whole.range_to(..2)), (little(&[0x0c, 1]), little(&[0x96, 0x0c])));
    assert_eq!((whole.find(1), whole.find(3), little(&[7, 1, 1]).find(1)), (Some(2), None, Some(1)));
    assert_eq!((whole[1], &whole[2..], whole.first()), (0x0c, &[1, 2][..], Some(&0x96)));
    assert!(panics(|| whole.range_from(5..)) && panics(|| whole.offset_from(rest)));
    let [at_end, after] = [4, 5].map(|place| dwexpr::ReaderOffsetId(whole.offset_id().0 + place));
    assert_eq!((whole.lookup_offset_id(at_end), whole.lookup_offset_id(after)), (Some(4), None));
    assert_eq!((whole.to_slice(), <&[u8]>::from(whole)), (Ok(Cow::Borrowed(&bytes[..])), &bytes[..]));
    // DW_OP_const4u with two bytes.
    let cut_off = Operation::parse(&mut rest.clone(), ENCODING);
    assert_eq!(cut_off, Err(Error::UnexpectedEof(whole.range_from(2..).offset_id())));

    let mut front = whole;
    assert_eq!(front.truncate(5), Err(Error::UnexpectedEof(whole.offset_id())));
    assert_eq!((front.truncate(3), front.slice()), (Ok(()), &bytes[..3]));
}

#[test]
fn a_mask_is_two_to_a_width_less_one() {
    for addr_mask in [0, 2, 6, 0xffff_0000, u64::MAX - 1] {
        assert!(panics(|| Value::Generic(1).add(Value::Generic(1), addr_mask)));
        assert!(panics(|| Value::U8(1).to_u64(addr_mask)));
        assert!(panics(|| ValueType::U8.bit_size(addr_mask)));
    }
    assert_eq!(Register::from_u64(0x10000), Err(Error::UnsupportedRegister(0x10000)));
}
