//! gimli's readers and types. Each operation and each request is gimli's, if it has a name for it.

#![allow(clippy::unnecessary_fallible_conversions, reason = "some can fail in another version")]

use super::gimli::{self, Reader as _};
use super::readers::{clones_of, own};
use super::{GimliOffset, GimliReader, HAS_ALL_NAMES};
use crate::plain::ERRORS;
use dwexpr::EvaluationResult::*;
use dwexpr::{DebugInfoOffset, UnitOffset, Value, ValueType};
use dwexpr::{Error, Evaluation, EvaluationResult, Location, Operation, Piece, ReaderOffset};
use std::collections::HashSet;

pub const ENCODING: gimli::Encoding = gimli::Encoding { address_size: 8, format: gimli::Format::Dwarf32, version: 5 };

/// Operands: numbers that differ, after each kind of WebAssembly index; LEB128 numbers of each length, also those that
/// are padded or too large; and such an offset as a reader refuses.
fn operands() -> Vec<Vec<u8>> {
    let plain = |first| [&[first][..], &[2, 3, 4, 5, 6, 7, 8, 9, 10, 11, 12]].concat();
    let leb128 = |(count, byte, last)| [&vec![byte; count][..], &[last, 1, 2, 0x85, 0x80, 0x7f, 4, 5]].concat();
    let numbers =
        (1..=10).flat_map(|count| [(count, 0x85, 1), (count, 0x80, 0), (count, 0xff, 0x7f), (count, 0x80, 0x7f)]);
    let refused = vec![0xfe, 0, 0, 0, 0xf0, 0, 0, 0, 0, 0, 0, 0];
    (0..=3).map(plain).chain(numbers.map(leb128)).chain([refused]).collect()
}

/// Whether a gimli without all names gives no error for a piece, but multiplies too large a size.
fn is_large_piece(bytes: &[u8], encoding: gimli::Encoding) -> bool {
    let operation = Operation::parse(&mut GimliReader(own(bytes)), encoding.into());
    !HAS_ALL_NAMES && matches!(operation, Err(Error::InvalidPieceSize(_)))
}

/// Whether gimli gives this error for an opcode whose operation has no name there.
fn is_nameless(error: gimli::Error) -> bool {
    let without_name = [gimli::DwOp(0xf0), gimli::DwOp(0xfd)].map(gimli::Error::InvalidExpression);
    !HAS_ALL_NAMES && without_name.contains(&error)
}

/// Decodes with both crates.
fn decode_both(bytes: &[u8], encoding: gimli::Encoding) {
    if is_large_piece(bytes, encoding) {
        return;
    }
    let (mut ours, mut theirs) = (GimliReader(own(bytes)), own(bytes));
    let (clones, operation) = clones_of(|| Operation::parse(&mut ours, encoding.into()));
    let wanted = gimli::Operation::parse(&mut theirs, encoding);
    assert_eq!(clones, 0, "{bytes:02x?}");
    match (operation, wanted) {
        (operation, Err(error)) if is_nameless(error) => {
            let converted = operation.map(gimli::Operation::try_from);
            assert!(
                matches!(converted, Ok(Err(_)) | Err(Error::UnexpectedEof(_) | Error::UnsupportedOffset)),
                "{bytes:02x?}"
            );
        }
        (Ok(operation), Ok(wanted)) => {
            assert_eq!(
                (format!("{operation:?}"), format!("{operation:#?}")),
                (format!("{wanted:?}"), format!("{wanted:#?}"))
            );
            assert_eq!(
                gimli::Operation::try_from(operation.clone()).as_ref(),
                Ok(&wanted),
                "{bytes:02x?}, {encoding:?}"
            );
            assert_eq!(Operation::try_from(wanted), Ok(operation), "{bytes:02x?}");
            assert_eq!(ours.0, theirs, "{bytes:02x?}");
        }
        (Err(error), Err(wanted)) => assert_eq!(gimli::Error::from(error), wanted, "{bytes:02x?}, {encoding:?}"),
        (operation, wanted) => panic!("{bytes:02x?}: {operation:?}, and {wanted:?} of gimli"),
    }
}

#[test]
fn an_operation_is_gimlis() {
    let encoding = |address_size, format, version| gimli::Encoding { address_size, format, version };
    for encoding in [
        ENCODING,
        encoding(4, gimli::Format::Dwarf64, 2),
        encoding(2, gimli::Format::Dwarf32, 2),
        encoding(1, gimli::Format::Dwarf64, 900),
        encoding(3, gimli::Format::Dwarf32, 0),
        encoding(0, gimli::Format::Dwarf64, u16::MAX),
    ] {
        for (opcode, operands) in (0..=255).flat_map(|opcode| operands().into_iter().map(move |it| (opcode, it))) {
            let bytes = [&[opcode][..], &operands].concat();
            (1..=bytes.len()).for_each(|length| decode_both(&bytes[..length], encoding));
        }
    }
}

/// Evaluates with both crates, up to the end or to a fault, and adds the names of the replies. This crate makes no more
/// clones than gimli.
fn evaluate_both(bytes: &[u8], called: &[u8], names: &mut HashSet<String>) {
    let (mut ours, mut theirs) =
        (Evaluation::new(GimliReader(own(bytes)), ENCODING.into()), gimli::Evaluation::new(own(bytes), ENCODING));
    let mut clones = [0; 2];
    macro_rules! both {
        ($call:ident($($argument:expr, $theirs:expr)?)) => {{
            let (more, reply) = clones_of(|| ours.$call($($argument)?));
            let (others, wanted) = clones_of(|| theirs.$call($($theirs)?));
            clones = [clones[0] + more, clones[1] + others];
            (reply, wanted)
        }};
    }
    let mut replies = both!(evaluate());
    let error = loop {
        let (reply, wanted) = match replies {
            (Ok(reply), wanted) => {
                names.insert(format!("{reply:?}").split([' ', '(']).next().unwrap().to_owned());
                let converted = gimli::EvaluationResult::try_from(reply.clone());
                if !HAS_ALL_NAMES && converted.is_err() {
                    assert_eq!(wanted, Err(gimli::Error::UnsupportedEvaluation), "{bytes:02x?}");
                    return;
                }
                assert_eq!(converted.as_ref().ok(), wanted.as_ref().ok(), "{bytes:02x?}");
                (reply, wanted.unwrap())
            }
            (Err(error), Err(wanted)) if is_nameless(wanted) => break Some(error),
            (Err(error), wanted) => {
                assert_eq!(Some(error.into()), wanted.err(), "{bytes:02x?}");
                break Some(error);
            }
        };
        assert_eq!(EvaluationResult::try_from(wanted).as_ref(), Ok(&reply), "{bytes:02x?}");
        let (value, their_value) = (Value::Generic(0x1234), gimli::Value::Generic(0x1234));
        replies = match reply {
            Complete => {
                assert_eq!(ours.value_result().map(gimli::Value::from), theirs.value_result(), "{bytes:02x?}");
                let (more, pieces) = clones_of(|| ours.result());
                let wanted = theirs.result();
                clones[0] += more;
                assert!(pieces.iter().cloned().map(gimli::Piece::from).eq(wanted.iter().cloned()), "{bytes:02x?}");
                assert_eq!(wanted.into_iter().map(Piece::try_from).collect::<Result<Vec<_>, _>>(), Ok(pieces));
                break None;
            }
            RequiresMemory { .. } => both!(resume_with_memory(value, their_value)),
            RequiresRegister { .. } => both!(resume_with_register(value, their_value)),
            RequiresFrameBase => both!(resume_with_frame_base(0x7000, 0x7000)),
            RequiresTls(_) => both!(resume_with_tls(0x7000, 0x7000)),
            RequiresCallFrameCfa => both!(resume_with_call_frame_cfa(0x7000, 0x7000)),
            RequiresAtLocation(_) => both!(resume_with_at_location(GimliReader(own(called)), own(called))),
            RequiresEntryValue(_) => both!(resume_with_entry_value(value, their_value)),
            RequiresParameterRef(_) => both!(resume_with_parameter_ref(0x7000, 0x7000)),
            RequiresRelocatedAddress(_) => both!(resume_with_relocated_address(0x7000, 0x7000)),
            RequiresIndexedAddress { .. } => both!(resume_with_indexed_address(0x7000, 0x7000)),
            RequiresBaseType(_) => both!(resume_with_base_type(ValueType::Generic, gimli::ValueType::Generic)),
            _ => wasm_answered!(both, value, their_value),
        };
    };
    let [ours, theirs] = clones;
    // A branch out of the text costs a clone here.
    let is_lost = ours == 1 && matches!(error, Some(Error::BadBranchTarget(_)));
    assert!(ours <= theirs || is_lost, "{bytes:02x?}: {ours} clones, gimli {theirs}");
}

#[test]
fn an_evaluation_is_gimlis() {
    let mut names = HashSet::new();
    for (opcode, operands) in (0..=255).flat_map(|opcode| operands().into_iter().map(move |it| (opcode, it))) {
        let bytes = [&[opcode][..], &operands].concat();
        if is_large_piece(&bytes, ENCODING) {
            continue;
        }
        let mut rest = own(&bytes);
        let size = gimli::Operation::parse(&mut rest, ENCODING).map_or(bytes.len(), |_| bytes.len() - rest.len());
        // After two literals: at the end, and in front of DW_OP_stack_value, DW_OP_piece and DW_OP_plus_uconst.
        for after in [&[][..], &[0x9f], &[0x93, 0x80, 0x80, 1], &[0x93, 1, 0x9e, 1, 2, 0x93, 1], &[0x23, 0x80, 0x80, 1]]
        {
            let bytes = [&[0x38, 0x34], &bytes[..size], after].concat();
            for called in [&[][..], &[0x22, 0x10, 0x80, 0x80, 1], &[0x03, 0x40, 0, 0, 0, 0, 0, 0, 0]] {
                evaluate_both(&bytes, called, &mut names);
            }
        }
    }
    assert_eq!(names.len(), 15, "{names:?}");
}

#[test]
fn an_error_without_a_name_says_where_the_read_begins() {
    // DW_OP_addr.
    let mut reader = GimliReader(own(&[0x03, 0xad, 0x0b, 0, 0, 0, 0, 0, 0]));
    let start = reader.0.offset_id().0;
    let error = Operation::parse(&mut reader, ENCODING.into()).err();
    assert_eq!(error, Some(Error::UnexpectedEof(dwexpr::ReaderOffsetId(start + 1))));
}

#[test]
fn an_offset_is_gimlis() {
    type Offset = GimliOffset<u32>;
    let highest = u64::from(u32::MAX);
    assert_eq!(Offset::BITS, 32);
    assert_eq!((Offset::from_u8(255), Offset::from_u16(65535)), (GimliOffset(255), GimliOffset(65535)));
    assert_eq!((Offset::from_i16(-1), Offset::from_u32(7)), (GimliOffset(u32::MAX), GimliOffset(7)));
    assert_eq!(Offset::from_u64(highest), Ok(GimliOffset(u32::MAX)));
    assert_eq!(Offset::from_u64(highest + 1), Err(Error::UnsupportedOffset));
    assert_eq!(Offset::from_i16(-1).wrapping_add(GimliOffset(3)), 2);
    assert_eq!(GimliOffset(u32::MAX).into_u64(), highest);
    assert_eq!(UnitOffset(GimliOffset(u32::MAX)).0.0 as u64, highest);
}

/// Both conversions of a value.
macro_rules! assert_both_ways {
    ($($name:ident $(($x:expr))? $(:: $variant:ident $(($y:expr))?)?;)+) => {
        $(
            let (ours, theirs) = (
                dwexpr::$name $(($x))? $(:: $variant $(($y.into()))?)?,
                gimli::$name $(($x))? $(:: $variant $(($y))?)?,
            );
            assert_eq!(gimli::$name::from(ours), theirs);
            assert_eq!(dwexpr::$name::try_from(theirs).unwrap(), ours);
        )+
    };
}

#[test]
fn types_convert() {
    assert_both_ways! {
        Register(7); DwOp(0x91); DwAte(5); ReaderOffsetId(9); UnitOffset(3_usize); DebugInfoOffset(3_usize);
        DebugAddrIndex(3_usize); RunTimeEndian::Little; RunTimeEndian::Big;
        LittleEndian; BigEndian; Format::Dwarf32; Format::Dwarf64; ValueType::Generic; ValueType::I8; ValueType::U8;
        ValueType::I16; ValueType::U16; ValueType::I32; ValueType::U32; ValueType::I64; ValueType::U64;
        Value::Generic(1_u64); Value::I8(-1_i8); Value::U8(1_u8); Value::I16(-1_i16); Value::U16(1_u16);
        Value::I32(-1_i32); Value::U32(1_u32); Value::I64(-1_i64); Value::U64(1_u64);
    }
    let ours = [dwexpr::DieReference::UnitRef(UnitOffset(3)), dwexpr::DieReference::DebugInfoRef(DebugInfoOffset(4))];
    let theirs = ours.map(gimli::DieReference::<usize>::from);
    let (unit, info) = (gimli::UnitOffset(3), gimli::DebugInfoOffset(4));
    assert_eq!(theirs, [gimli::DieReference::UnitRef(unit), gimli::DieReference::DebugInfoRef(info)]);
    assert_eq!(theirs.map(dwexpr::DieReference::<usize>::from), ours);
    let encoding = gimli::Encoding { address_size: 4, format: gimli::Format::Dwarf64, version: 3 };
    let ours = dwexpr::Encoding { address_size: 4, format: dwexpr::Format::Dwarf64, version: 3 };
    assert_eq!((dwexpr::Encoding::from(encoding), gimli::Encoding::from(ours)), (ours, encoding));
    assert_eq!(ValueType::try_from(gimli::ValueType::F64), Err(Error::UnsupportedTypeOperation));
    let location = gimli::Location::Value { value: gimli::Value::F64(3.0) };
    let theirs = gimli::Piece { size_in_bits: None, bit_offset: None, location };
    assert_eq!(Piece::<GimliReader<super::readers::Own>>::try_from(theirs), Err(Error::UnsupportedTypeOperation));
    // A piece with each field.
    let location = Location::ImplicitPointer { value: DebugInfoOffset(GimliOffset(3)), byte_offset: -4 };
    let ours = Piece { size_in_bits: Some(5), bit_offset: Some(6), location };
    let location = gimli::Location::ImplicitPointer { value: gimli::DebugInfoOffset(3), byte_offset: -4 };
    let theirs = gimli::Piece::<super::readers::Own> { size_in_bits: Some(5), bit_offset: Some(6), location };
    assert_eq!((gimli::Piece::from(ours.clone()), Piece::try_from(theirs.clone())), (theirs, Ok(ours)));
    for (error, _) in ERRORS {
        let has_name = HAS_ALL_NAMES || !matches!(error, Error::InvalidPieceSize(_));
        let wanted = if has_name { format!("{error:?}") } else { "InvalidExpression(DwOp(147))".into() };
        assert_eq!(format!("{:?}", gimli::Error::from(*error)), wanted);
    }
    let reader = GimliReader::from(own(&[1, 2, 3]));
    assert_eq!((reader.len(), &reader), (3, &GimliReader(own(&[1, 2, 3]))));
}
