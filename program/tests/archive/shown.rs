//! What the crate takes and gives, as numbers of C.

use crate::calls::{self, Answer, Outcome, Piece};
use crate::conformance::{Encoding, Operation, Step, variant_of};
use crate::{Bytes, Reply, Taken, ours};
use dwexpr::{DieReference, EvaluationResult, Location, Value, ValueType};
use std::collections::BTreeMap;
use std::sync::LazyLock;

pub const BAD_ENCODING: u32 = 64;
pub const BAD_TEXT: u32 = 66;
pub const BAD_ANSWER: u32 = 67;
pub const MISPLACED: u32 = 68;
/// The request of an evaluation that is complete.
pub const COMPLETE: u32 = 1;
/// The types, by their numbers from 1 on.
pub const TYPES: [ValueType; 9] = {
    use ValueType::*;
    [Generic, I8, U8, I16, U16, I32, U32, I64, U64]
};

/// The variants of an enum in the header, by their numbers from 0 on.
fn variants(of: &str, prefix: &str) -> Vec<String> {
    let header = include_str!("../../../c/include/dwexpr.h");
    let (_, lines) = header.split_once(&format!("enum {of} {{\n")).expect("the header has the enum");
    let lines = lines.lines().map_while(|line| line.trim().strip_prefix(prefix));
    lines.map(|line| variant_of(line.split(' ').next().unwrap_or_default())).collect()
}

static CODES: LazyLock<Vec<String>> = LazyLock::new(|| variants("dwexpr_code", "DWEXPR_"));
static OPERATIONS: LazyLock<Vec<String>> = LazyLock::new(|| variants("dwexpr_operation_kind", "DWEXPR_OP_"));

/// The code of a fault, and the number that it carries.
pub fn code_of(fault: &str) -> (u32, u64) {
    let (name, number) = fault.split_once(' ').unwrap_or((fault, "0"));
    let code = CODES.iter().position(|it| it == name).expect("the header has each error");
    (code as u32, number.parse().expect("a number"))
}

pub fn encoding_of(encoding: Encoding) -> calls::Encoding {
    calls::Encoding {
        address_size: encoding.address_size,
        offset_size: if encoding.is_dwarf64 { 8 } else { 4 },
        big_endian: encoding.is_big_endian.into(),
        version: encoding.version as u8,
    }
}

/// An operation as the conformance suite has it: its fields other than 0.
pub fn operation_of(text: &[u8], it: &calls::Operation) -> Operation {
    let mut fields: BTreeMap<_, _> = [
        ("number", it.number.to_string()),
        ("signed_number", it.signed_number.to_string()),
        ("base_type", it.base_type.to_string()),
        ("register_number", it.register_number.to_string()),
        ("deref_size", it.deref_size.to_string()),
        ("flag", it.flag.to_string()),
        ("detail", it.detail.to_string()),
    ]
    .into();
    fields.retain(|_, number| number != "0");
    // The opcode is in front of each block, even of one without bytes.
    if it.block_offset > 0 {
        fields.insert("block", format!("{:x?}", &text[it.block_offset..][..it.block_length]));
    }
    Operation { name: OPERATIONS[it.kind as usize].clone(), fields, length: it.size }
}

fn number_of(value_type: ValueType) -> u32 {
    1 + TYPES.iter().position(|it| *it == value_type).expect("all types are there") as u32
}

/// The type and the content of a value.
fn value_of(value: Value) -> (u32, u64) {
    (number_of(value.value_type()), value.to_u64(u64::MAX).expect("the mask is one"))
}

/// The text in which a block is, and its offset there.
fn place_of(texts: &[&[u8]], block: &[u8]) -> (usize, usize) {
    let at = block.as_ptr() as usize;
    let is_in = |text: &&[u8]| !text.is_empty() && (0..=text.len()).contains(&at.wrapping_sub(text.as_ptr() as usize));
    let index = texts.iter().position(is_in).expect("a block is part of a text");
    (index, at - texts[index].as_ptr() as usize)
}

/// What a reply has to be. The value and the pieces of a complete evaluation aren't in it.
pub fn outcome_of(texts: &[&[u8]], reply: Reply<Bytes<'_>>) -> Outcome {
    use EvaluationResult::*;
    let blank = Outcome::default();
    match reply {
        Err(error) => {
            let (code, detail) = code_of(&ours::fault(error));
            Outcome { code, detail, ..blank }
        }
        Ok(Complete) => Outcome { request: COMPLETE, ..blank },
        Ok(RequiresMemory { address: number, size, space, base_type }) => Outcome {
            request: 2,
            number,
            size: size.into(),
            flag: space.is_some().into(),
            space: space.unwrap_or(0),
            base_type: base_type.0 as u64,
            ..blank
        },
        Ok(RequiresRegister { register, base_type }) => {
            Outcome { request: 3, register_number: register.0.into(), base_type: base_type.0 as u64, ..blank }
        }
        Ok(RequiresFrameBase) => Outcome { request: 4, ..blank },
        Ok(RequiresTls(number)) => Outcome { request: 5, number, ..blank },
        Ok(RequiresCallFrameCfa) => Outcome { request: 6, ..blank },
        Ok(RequiresAtLocation(DieReference::UnitRef(it))) => Outcome { request: 7, number: it.0 as u64, ..blank },
        Ok(RequiresAtLocation(DieReference::DebugInfoRef(it))) => {
            Outcome { request: 7, number: it.0 as u64, flag: 1, ..blank }
        }
        Ok(RequiresEntryValue(expression)) => {
            let block = expression.0.slice();
            let (block_text, block_offset) = place_of(texts, block);
            Outcome { request: 8, block_text, block_offset, block_length: block.len(), ..blank }
        }
        Ok(RequiresParameterRef(it)) => Outcome { request: 9, number: it.0 as u64, ..blank },
        Ok(RequiresRelocatedAddress(number)) => Outcome { request: 10, number, ..blank },
        Ok(RequiresIndexedAddress { index, relocate }) => {
            Outcome { request: 11, number: index.0 as u64, flag: relocate.into(), ..blank }
        }
        Ok(RequiresBaseType(it)) => Outcome { request: 12, base_type: it.0 as u64, ..blank },
        Ok(RequiresWasmLocal { index }) => Outcome { request: 13, number: index.into(), ..blank },
        Ok(RequiresWasmGlobal { index }) => Outcome { request: 14, number: index.into(), ..blank },
        Ok(RequiresWasmStack { index }) => Outcome { request: 15, number: index.into(), ..blank },
    }
}

/// The outcome of a complete evaluation.
pub fn complete(value: Option<Value>, pieces: usize) -> Outcome {
    let (value_type, value) = value.map_or((0, 0), value_of);
    Outcome { request: COMPLETE, value_type, value, pieces, ..Outcome::default() }
}

pub fn piece_of(texts: &[&[u8]], piece: dwexpr::Piece<Bytes<'_>>) -> Piece {
    let blank = Piece {
        has_size: piece.size_in_bits.is_some().into(),
        size_in_bits: piece.size_in_bits.unwrap_or(0),
        has_bit_offset: piece.bit_offset.is_some().into(),
        bit_offset: piece.bit_offset.unwrap_or(0),
        ..Piece::default()
    };
    match piece.location {
        Location::Empty => Piece { kind: 1, ..blank },
        Location::Register { register } => Piece { kind: 2, number: register.0.into(), ..blank },
        Location::Address { address } => Piece { kind: 3, number: address, ..blank },
        Location::Value { value } => {
            let (value_type, number) = value_of(value);
            Piece { kind: 4, value_type, number, ..blank }
        }
        Location::Bytes { value } => {
            let (block_text, block_offset) = place_of(texts, value.slice());
            Piece { kind: 5, block_text, block_offset, block_length: value.slice().len(), ..blank }
        }
        Location::ImplicitPointer { value, byte_offset } => {
            Piece { kind: 6, number: value.0 as u64, byte_offset, ..blank }
        }
    }
}

/// The answer that a step gives. `None` if it gives none.
pub fn answer_of(&(ref step, text): &Taken) -> Option<Answer> {
    let typed = |kind, value| {
        let (value_type, number) = value_of(ours::value_of(value));
        Answer { kind, value_type, number, text: 0 }
    };
    let plain = |kind, number| Answer { kind, number, ..Answer::default() };
    Some(match *step {
        Step::Memory(value) => typed(1, value),
        Step::Register(value) => typed(2, value),
        Step::WasmValue(value) => typed(3, value),
        Step::EntryValue(value) => typed(4, value),
        Step::FrameBase(address) => plain(5, address),
        Step::Tls(address) => plain(6, address),
        Step::CallFrameCfa(address) => plain(7, address),
        Step::ParameterRef(value) => plain(8, value),
        Step::RelocatedAddress(address) => plain(9, address),
        Step::IndexedAddress(address) => plain(10, address),
        Step::AtLocation(_) => Answer { kind: 11, text, ..Answer::default() },
        Step::BaseType(value_type) => {
            Answer { kind: 12, value_type: number_of(ours::type_of(value_type)), ..Answer::default() }
        }
        Step::InitialValue(_) | Step::ObjectAddress(_) | Step::MaxIterations(_) | Step::Evaluate => return None,
    })
}
