//! Lengths and counts around each power of two.

use super::{ENCODING, evaluation, little};
use dwexpr::EvaluationResult::*;
use dwexpr::{Error, Expression, Location, Value};

/// Each power of two up to 2^`highest`, and both numbers beside it.
fn about_powers(highest: u32) -> impl Iterator<Item = usize> {
    (0..=highest).flat_map(|power| [(1 << power) - 1, 1 << power, (1 << power) + 1])
}

/// A number below 2^28 as unsigned LEB128.
fn uleb(number: usize) -> [u8; 4] {
    [0, 7, 14, 21].map(|place| (number >> place) as u8 & 0x7f | if place < 21 { 0x80 } else { 0 })
}

/// Bytes that differ from their neighbours.
fn bytes(length: usize) -> Vec<u8> {
    (0..length as u32).map(|place| (place.wrapping_mul(0x9e37_79b9) >> 24) as u8).collect()
}

/// A block has its length, and a branch behind it leads to its place.
#[test]
fn a_text_may_be_long() {
    let data = bytes((1 << 24) + 1);
    for length in about_powers(24) {
        let block = &data[..length];
        // DW_OP_implicit_value.
        let text = [&[0x9e][..], &uleb(length), block].concat();
        let mut it = evaluation(&text);
        assert_eq!(it.evaluate(), Ok(Complete));
        assert_eq!(it.as_result()[0].location, Location::Bytes { value: little(block) });
        assert_eq!(it.result()[0].location, Location::Bytes { value: little(block) });
        // DW_OP_entry_value, and DW_OP_skip over a byte that is no opcode to DW_OP_stack_value, or past the end.
        let text = [&[0xa3][..], &uleb(length), block, &[0x2f, 1, 0, 0x01, 0x9f]].concat();
        let end = text.len() as u64 - 1;
        for (text, reply) in [(&text[..], Ok(Complete)), (&text[..text.len() - 2], Err(Error::BadBranchTarget(end)))] {
            let mut it = evaluation(text);
            assert_eq!(it.evaluate(), Ok(RequiresEntryValue(Expression(little(block)))));
            assert_eq!(it.resume_with_entry_value(Value::Generic(9)), reply);
        }
    }
}

#[test]
fn a_branch_has_its_distance() {
    // DW_OP_skip to the last operation, over DW_OP_lit7 and a DW_OP_skip to the end; the last one skips back to the
    // DW_OP_lit7. The bytes between them are no opcodes.
    for distance in about_powers(14).filter(|it| *it > 0) {
        let skip = |distance: usize| [0x2f, distance as u8, (distance >> 8) as u8];
        let between = vec![0x01; distance];
        let [to_last, to_end, back] = [distance + 4, distance + 3, 0_usize.wrapping_sub(distance + 7)].map(skip);
        let text = [&to_last[..], &[0x37], &to_end, &between, &back].concat();
        let mut it = evaluation(&text);
        assert_eq!(it.evaluate(), Ok(Complete));
        assert_eq!(it.value_result(), Some(Value::Generic(7)));
    }
}

#[test]
fn a_place_in_memory_is_found() {
    let data = bytes((1 << 24) + 1);
    let whole = little(&data);
    for place in about_powers(24) {
        let (front, rest) = whole.split_at(place);
        assert_eq!((front.slice(), rest.slice()), data.split_at(place));
        assert_eq!((rest.offset_from(whole), front.lookup_offset_id(rest.offset_id())), (place, Some(place)));
        assert_eq!(rest.lookup_offset_id(whole.offset_id()), (place == 0).then_some(0));
    }
}

#[test]
fn a_maximum_is_exact() {
    for count in about_powers(18) {
        for (maximum, reply) in [(count, Ok(Complete)), (count.wrapping_sub(1), Err(Error::TooManyIterations))] {
            let text = vec![0x96; count];
            let mut it = evaluation(&text);
            it.set_initial_value(7);
            it.set_max_iterations(maximum as u32);
            assert_eq!(it.evaluate(), if count == 0 { Ok(Complete) } else { reply });
        }
    }
}

/// Values, callers and pieces around each power of two. After a restart there are none.
#[test]
fn a_list_holds_what_was_put_there_until_a_restart() {
    // DW_OP_lit1, DW_OP_plus, DW_OP_drop, and DW_OP_reg0 with a DW_OP_piece 1.
    let [values, sums, pieces] = [&[0x31][..], &[0x22], &[0x50, 0x93, 1]].map(|it| it.repeat((1 << 16) + 1));
    let call = little(&[0x98, 1, 0, 0x23, 1]);
    let mut kept = evaluation(&[]);
    for count in about_powers(16).filter(|it| *it > 0) {
        let text = [&values[..count], &sums[1..count]].concat();
        let mut it = evaluation(&text);
        assert_eq!(it.evaluate(), Ok(Complete));
        assert_eq!(it.value_result(), Some(Value::Generic(count as u64)));
        // `count` values are left.
        kept.restart(little(&values[..count]), ENCODING);
        assert_eq!(kept.evaluate(), Ok(Complete));
        kept.restart(little(&[0x13]), ENCODING);
        assert_eq!(kept.evaluate(), Err(Error::NotEnoughStackItems));
        kept.restart(little(&pieces[..3 * count]), ENCODING);
        assert_eq!(kept.evaluate(), Ok(Complete));
        assert_eq!(kept.as_result().len(), count);
        // Calls, each within the one before; the last has DW_OP_lit1, and each caller adds 1.
        kept.restart(call, ENCODING);
        let mut reply = kept.evaluate();
        for _ in 1..count {
            assert!(matches!(reply, Ok(RequiresAtLocation(_))));
            reply = kept.resume_with_at_location(call);
        }
        assert_eq!(kept.resume_with_at_location(little(&[0x31])), Ok(Complete));
        assert_eq!(kept.value_result(), Some(Value::Generic(count as u64 + 1)));
        assert_eq!(kept.as_result().len(), 1);
    }
}
