//! Compares how evaluations end, for addresses of each size, with a model that shares no code with the crate: all
//! sequences of a few operations, some of them in called expressions. The model follows DWARF 5, section 2.6.

use super::{ENCODING, Little, little};
use dwexpr::EvaluationResult::*;
use dwexpr::Location::{Address, Empty};
use dwexpr::{DieReference, Encoding, Error, Evaluation, Location, Piece, Register, Result, Value, ValueType};

/// What an operation does.
#[derive(Clone, Copy)]
enum Effect {
    Nothing,
    Push(Value),
    Drop,
    Locate(Register),
    LocateValue,
    EndPiece,
}

use Effect::*;

struct Step {
    text: &'static [u8],
    /// The expression that is called, if the operation is a call.
    called: &'static [u8],
    effect: Effect,
    /// Whether it may be the last operation after pieces.
    may_end: bool,
}

const fn step(text: &'static [u8], called: &'static [u8], effect: Effect, may_end: bool) -> Step {
    Step { text, called, effect, may_end }
}

// Most addresses are narrower.
const CONSTANT: Value = Value::Generic(0x8182_8384_8586_8788);
const CFA: u64 = 0x9192_9394_9596_9798;

// Each call has its index here as its operand.
const STEPS: [Step; 13] = [
    step(&[0x0e, 0x88, 0x87, 0x86, 0x85, 0x84, 0x83, 0x82, 0x81], &[], Push(CONSTANT), false),
    step(&[0x13], &[], Drop, false),
    step(&[0x96], &[], Nothing, false),
    step(&[0x9c], &[], Push(Value::Generic(CFA)), false),
    step(&[0xa4, 1, 1, 0x85], &[], Push(Value::U8(0x85)), false),
    step(&[0x53], &[], Locate(Register(3)), false),
    step(&[0x9f], &[], LocateValue, false),
    step(&[0x93, 2], &[], EndPiece, true),
    step(&[0x98, 8, 0], &[], Nothing, true),
    step(&[0x98, 9, 0], &[0x96], Nothing, false),
    step(&[0x98, 10, 0], &[0x9c], Push(Value::Generic(CFA)), false),
    step(&[0x98, 11, 0], &[0x53], Locate(Register(3)), false),
    step(&[0x98, 12, 0], &[0x93, 2], EndPiece, true),
];

/// The value and the pieces.
type Ended<'a> = Result<(Option<Value>, Vec<Piece<Little<'a>>>)>;

fn wanted<'a>(steps: &[&Step], address_size: u8) -> Ended<'a> {
    let address = |value| match value {
        Value::Generic(number) => Address { address: number & u64::MAX >> (64 - 8 * u32::from(address_size)) },
        Value::U8(number) => Address { address: number.into() },
        _ => unreachable!(),
    };
    let (mut stack, mut location, mut pieces) = (Vec::new(), None, Vec::new());
    let mut place = 0;
    for step in steps {
        place += step.text.len() as u64;
        let located = location.take();
        if located.is_some() && step.text[0] != 0x93 {
            return Err(Error::InvalidExpressionTerminator(place - 1));
        }
        match step.effect {
            Nothing => {}
            Push(value) => stack.push(value),
            Drop => drop(stack.pop().ok_or(Error::NotEnoughStackItems)?),
            Locate(register) => location = Some(Location::Register { register }),
            LocateValue => location = Some(Location::Value { value: stack.pop().ok_or(Error::NotEnoughStackItems)? }),
            EndPiece => {
                let location = located.unwrap_or_else(|| stack.pop().map_or(Empty, address));
                pieces.push(Piece { size_in_bits: Some(16), bit_offset: None, location });
            }
        }
    }
    let may_end = steps.last().is_none_or(|step| step.may_end);
    match (location, pieces.is_empty()) {
        (None, false) if may_end => Ok((None, pieces)),
        (_, false) => Err(Error::InvalidPiece),
        (Some(location), true) => Ok((None, vec![Piece { location, ..Piece::default() }])),
        (None, true) => {
            let top = stack.pop().ok_or(Error::NotEnoughStackItems)?;
            Ok((Some(top), vec![Piece { location: address(top), ..Piece::default() }]))
        }
    }
}

fn evaluated(text: &[u8], address_size: u8) -> Ended<'_> {
    let mut it = Evaluation::<_>::new(little(text), Encoding { address_size, ..ENCODING });
    let mut reply = it.evaluate()?;
    loop {
        reply = match reply {
            Complete => return Ok((it.value_result(), it.as_result().to_vec())),
            RequiresCallFrameCfa => it.resume_with_call_frame_cfa(CFA)?,
            RequiresBaseType(_) => it.resume_with_base_type(ValueType::U8)?,
            RequiresAtLocation(DieReference::UnitRef(index)) => {
                it.resume_with_at_location(little(STEPS[index.0].called))?
            }
            request => panic!("{request:?}"),
        };
    }
}

#[test]
fn evaluations_end_as_in_the_model() {
    for length in 0..=4 {
        for number in 0..STEPS.len().pow(length) {
            let step = |place| &STEPS[number / STEPS.len().pow(place) % STEPS.len()];
            let steps: Vec<_> = (0..length).map(step).collect();
            let text: Vec<_> = steps.iter().flat_map(|it| it.text).copied().collect();
            for address_size in 1..=8 {
                let wanted = wanted(&steps, address_size);
                assert_eq!(evaluated(&text, address_size), wanted, "{address_size}: {text:02x?}");
            }
        }
    }
}
