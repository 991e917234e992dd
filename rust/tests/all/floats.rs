//! Expressions with floating point, which gimli evaluates.

use super::gimli::{self, EndianSlice, LittleEndian, StoreOnHeap};
use super::{Answer, GimliReader, Outcome, Settings, evaluate_with_floats};
use crate::panics;
use dwexpr::EvaluationResult::*;
use dwexpr::{EvaluationResult, Piece};

type Little<'a> = EndianSlice<'a, LittleEndian>;
type Answered<'a> = gimli::Result<Answer<Little<'a>>>;

const ENCODING: gimli::Encoding = gimli::Encoding { address_size: 8, format: gimli::Format::Dwarf32, version: 5 };
const LIMITED: Settings = Settings { initial_value: None, object_address: None, max_iterations: Some(1000) };

fn little(bytes: &[u8]) -> Little<'_> {
    EndianSlice::new(bytes, LittleEndian)
}

/// Answers as a process would: types at 0x20 and 0x28 are `double` and `int`, and registers and memory have 1.5 or 7.
/// Adds the name of the request to a list.
fn answer<'a>(
    asked: &mut Vec<String>,
    called: &'a [u8],
    request: EvaluationResult<GimliReader<Little<'a>>>,
) -> Answered<'a> {
    asked.push(format!("{request:?}").split([' ', '(']).next().unwrap().into());
    let value_of = |base_type: u64| match base_type {
        0 => gimli::Value::Generic(7),
        0x20 => gimli::Value::F64(1.5),
        _ => gimli::Value::I32(7),
    };
    Ok(match request {
        RequiresBaseType(offset) if offset.0.0 == 0x20 => Answer::BaseType(gimli::ValueType::F64),
        RequiresBaseType(_) => Answer::BaseType(gimli::ValueType::I32),
        RequiresRegister { base_type, .. } => Answer::Value(value_of(base_type.0.0 as u64)),
        RequiresMemory { base_type, .. } => Answer::Value(value_of(base_type.0.0 as u64)),
        RequiresEntryValue(_) => Answer::Value(gimli::Value::F32(0.5)),
        RequiresAtLocation(_) => Answer::Expression(little(called)),
        RequiresFrameBase | RequiresCallFrameCfa => Answer::Address(0x7000),
        _ => return Err(gimli::Error::UnsupportedEvaluation),
    })
}

/// Evaluates, and gives the names of the requests.
fn evaluate<'a>(bytes: &'a [u8], called: &'a [u8]) -> (gimli::Result<Outcome<Little<'a>>>, Vec<String>) {
    let mut asked = Vec::new();
    let outcome = evaluate_with_floats::<StoreOnHeap, _, _>(little(bytes), ENCODING, LIMITED, |it| {
        answer(&mut asked, called, it)
    });
    (outcome, asked)
}

/// The only location of an expression that gimli evaluates.
fn in_gimli<'a>(bytes: &'a [u8], called: &'a [u8]) -> (gimli::Location<Little<'a>>, Vec<String>) {
    let (outcome, asked) = evaluate(bytes, called);
    let Ok(Outcome::InGimli { pieces, .. }) = outcome else { panic!("{outcome:?}") };
    let [gimli::Piece { size_in_bits: None, bit_offset: None, location }] = pieces[..] else { panic!("{pieces:?}") };
    (location, asked)
}

fn float(value: f64) -> gimli::Location<Little<'static>> {
    gimli::Location::Value { value: gimli::Value::F64(value) }
}

#[test]
fn integers_are_evaluated_here() {
    // DW_OP_fbreg -16, and DW_OP_regval_type of an integer.
    let (outcome, asked) = evaluate(&[0x91, 0x70], &[]);
    let Ok(Outcome::Here { pieces, value }) = outcome else { panic!("{outcome:?}") };
    let address = dwexpr::Location::Address { address: 0x6ff0 };
    assert_eq!(pieces, [Piece { size_in_bits: None, bit_offset: None, location: address }]);
    assert_eq!((value, &asked[..]), (Some(dwexpr::Value::Generic(0x6ff0)), &["RequiresFrameBase".into()][..]));
    let (outcome, asked) = evaluate(&[0xa5, 17, 0x28, 0x9f], &[]);
    let value = gimli::Value::I32(7);
    assert!(matches!(outcome, Ok(Outcome::Here { .. })));
    assert_eq!(outcome.unwrap().into_pieces()[0].location, gimli::Location::Value { value });
    assert_eq!(asked, ["RequiresRegister"]);
}

#[test]
fn a_float_is_evaluated_in_gimli_and_each_request_is_answered_once() {
    // DW_OP_call_frame_cfa and DW_OP_drop; DW_OP_regval_type, DW_OP_const_type of 2.25, and DW_OP_plus.
    let constant = [&[0xa4, 0x20, 8][..], &2.25_f64.to_le_bytes()].concat();
    let bytes = [&[0x9c, 0x13, 0xa5, 17, 0x20][..], &constant, &[0x22, 0x9f]].concat();
    let (location, asked) = in_gimli(&bytes, &[]);
    assert_eq!(location, float(3.75));
    assert_eq!(asked, ["RequiresCallFrameCfa", "RequiresRegister", "RequiresBaseType"]);
    // DW_OP_deref_type in a called expression, and DW_OP_convert to an integer.
    let (location, asked) = in_gimli(&[0x98, 5, 0, 0xa8, 0x28, 0x9f], &[0x31, 0xa6, 8, 0x20]);
    assert_eq!(location, gimli::Location::Value { value: gimli::Value::I32(1) });
    assert_eq!(asked, ["RequiresAtLocation", "RequiresMemory", "RequiresBaseType"]);
    // DW_OP_entry_value.
    let (location, asked) = in_gimli(&[0xa3, 1, 0x61, 0x9f], &[]);
    assert_eq!(location, gimli::Location::Value { value: gimli::Value::F32(0.5) });
    assert_eq!(asked, ["RequiresEntryValue"]);
}

#[test]
fn what_gimli_asks_differently_is_asked_anew() {
    // 1 shifted by 0x1_0000_0001, with addresses of 4 bytes, is an address: 2 here, and 0 in gimli.
    let bytes = [0x31, 0x0e, 1, 0, 0, 0, 1, 0, 0, 0, 0x24, 0xa6, 4, 0x28, 0x13, 0xa5, 17, 0x20, 0x9f];
    let encoding = gimli::Encoding { address_size: 4, ..ENCODING };
    let mut asked = Vec::new();
    let outcome =
        evaluate_with_floats::<StoreOnHeap, _, _>(little(&bytes), encoding, LIMITED, |it| answer(&mut asked, &[], it));
    assert_eq!(outcome.unwrap().into_pieces()[0].location, float(1.5));
    assert_eq!(asked, ["RequiresMemory", "RequiresRegister", "RequiresMemory", "RequiresRegister"]);
}

#[test]
fn settings_hold_in_both() {
    let settings = Settings { initial_value: Some(3), object_address: Some(4), max_iterations: Some(3) };
    let evaluate = |bytes| {
        evaluate_with_floats::<StoreOnHeap, _, gimli::Error>(little(bytes), ENCODING, settings, |_| {
            Ok(Answer::Value(gimli::Value::F64(1.5)))
        })
    };
    // DW_OP_push_object_address and DW_OP_plus; a loop of skips.
    let outcome = evaluate(&[0x97, 0x22]);
    assert!(matches!(outcome, Ok(Outcome::Here { value: Some(dwexpr::Value::Generic(7)), .. })), "{outcome:?}");
    assert_eq!(evaluate(&[0x2f, 0xfd, 0xff]).err(), Some(gimli::Error::TooManyIterations));
    // The same after DW_OP_regval_type of a float and DW_OP_drop.
    let outcome = evaluate(&[0xa5, 17, 0x20, 0x13, 0x97]);
    assert!(matches!(outcome, Ok(Outcome::InGimli { value: Some(gimli::Value::Generic(4)), .. })), "{outcome:?}");
    let outcome = evaluate(&[0xa5, 17, 0x20, 0x13]);
    assert!(matches!(outcome, Ok(Outcome::InGimli { value: Some(gimli::Value::Generic(3)), .. })), "{outcome:?}");
    let outcome = evaluate(&[0xa5, 17, 0x20, 0x2f, 0xfd, 0xff]);
    assert_eq!(outcome.err(), Some(gimli::Error::TooManyIterations));
}

#[test]
fn errors_are_those_of_the_crates_and_of_the_answers() {
    // DW_OP_drop of nothing, here and after a float; DW_OP_form_tls_address, which isn't answered.
    assert_eq!(evaluate(&[0x13], &[]).0.err(), Some(gimli::Error::NotEnoughStackItems));
    let [drop, tls] = [&[0xa5, 17, 0x20, 0x13, 0x13][..], &[0xa5, 17, 0x20, 0x31, 0x9b]];
    assert_eq!(evaluate(drop, &[]).0.err(), Some(gimli::Error::NotEnoughStackItems));
    assert_eq!(evaluate(&[0x31, 0x9b], &[]).0.err(), Some(gimli::Error::UnsupportedEvaluation));
    assert_eq!(evaluate(tls, &[]).0.err(), Some(gimli::Error::UnsupportedEvaluation));
    // An answer of another kind.
    let answered = |given: Answer<Little<'static>>| {
        panics(|| {
            evaluate_with_floats::<StoreOnHeap, _, gimli::Error>(little(&[0x91, 0]), ENCODING, LIMITED, |_| {
                Ok(given.clone())
            })
            .ok()
        })
    };
    assert!(answered(Answer::Value(gimli::Value::Generic(1))));
    assert!(answered(Answer::Value(gimli::Value::F32(1.0))));
    assert!(!answered(Answer::Address(1)));
}
