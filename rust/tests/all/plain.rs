//! Errors, names, orders and hashes.

use dwexpr::constants::*;
use dwexpr::{
    BigEndian, DebugInfoOffset, Encoding, Error, Format, LittleEndian, NativeEndian, ReaderOffset, ReaderOffsetId,
    Register, RunTimeEndian, UnitOffset,
};
use std::collections::HashSet;
use std::fmt::Debug;
use std::fs;
use std::hash::{BuildHasher, BuildHasherDefault, DefaultHasher, Hash};
use std::path::Path;

/// Each error, and its message.
pub const ERRORS: &[(Error, &str)] = &[
    (Error::UnexpectedEof(ReaderOffsetId(5)), "the bytes end within an operation or a value"),
    (Error::BadUnsignedLeb128, "an unsigned LEB128 number is too large"),
    (Error::BadSignedLeb128, "a signed LEB128 number is too large"),
    (Error::UnsupportedAddressSize(9), "an address can't have this size in bytes: 9"),
    (Error::UnsupportedOffset, "an offset is too large"),
    (Error::UnsupportedRegister(65536), "a register's number is too large: 65536"),
    (Error::InvalidExpression(DwOp(1)), "the opcode is unknown: 0x01"),
    (Error::InvalidPieceSize(1 << 61), "a piece of this size in bytes is too large: 2305843009213693952"),
    (Error::UnsupportedTypeOperation, "the operation isn't defined for values of this type"),
    (Error::TypeMismatch, "two values have different types"),
    (Error::DivisionByZero, "division by zero"),
    (Error::InvalidShiftExpression, "shift by a negative number"),
    (Error::NotEnoughStackItems, "a value is missing on the stack"),
    (Error::InvalidDerefSize(16), "a dereference is larger than an address: 16"),
    (Error::InvalidPushObjectAddress, "no object address is set"),
    (Error::UnsupportedEvaluation, "the operation can be decoded, but not evaluated"),
    (Error::BadBranchTarget(18), "a branch leaves the expression: 0x12"),
    (Error::TooManyIterations, "the maximum of operations is reached"),
    (Error::InvalidPiece, "the last piece is missing"),
    (Error::InvalidExpressionTerminator(3), "a location is followed by another operation than a piece: 0x3"),
    (Error::StackFull, "a list is full, or memory is refused"),
];

#[test]
fn each_error_says_what_it_is() {
    // In the repository, and in a package.
    let sources = ["crates/dwarf_base/src/errors.rt", "src/sources/base/errors.rs"];
    let source = sources.iter().find_map(|it| fs::read_to_string(Path::new(env!("CARGO_MANIFEST_DIR")).join(it)).ok());
    let source = source.expect("the errors are in a source");
    let variants = source.lines().filter(|it| it.starts_with("    ") && !it.contains("//"));
    assert_eq!(ERRORS.len(), variants.count());
    for (error, text) in ERRORS {
        let source: &dyn std::error::Error = error;
        assert_eq!(source.to_string(), *text);
        assert!(text.starts_with(error.description()));
    }
}

#[test]
fn constants_have_their_names() {
    assert_eq!(format!("{:>20}|{:<20}|", DwAte(0x7f), DW_ATE_UTF), "  Unknown DwAte: 127|DW_ATE_UTF          |");
    // The opcodes of DWARF 5, of GNU and of WebAssembly.
    for number in 0..=255 {
        let is_standard = matches!(number, 0x03..=0xa9) && !matches!(number, 0x04 | 0x05 | 0x07);
        let is_extension = matches!(number, 0xe0 | 0xed | 0xf0 | 0xf2..=0xf7 | 0xf9..=0xfd);
        let name = DwOp(number).static_string();
        assert_eq!(name.is_some(), is_standard || is_extension, "{number:#x}");
        assert_eq!(DwOp(number).to_string(), name.map_or(format!("Unknown DwOp: {number}"), Into::into));
        #[cfg(feature = "gimli")]
        {
            assert!(name.is_none() || name == gimli::DwOp(number).static_string(), "{number:#x}");
            assert_eq!(DwAte(number).to_string(), gimli::DwAte(number).to_string());
            assert_eq!(DwAte(number).static_string(), gimli::DwAte(number).static_string());
        }
    }
}

/// Items with ascending numbers are ordered, and hashed, by these.
fn assert_numbered<T: Ord + Hash + Copy + Debug>(all: &[T]) {
    for (i, x) in all.iter().enumerate() {
        for (j, y) in all.iter().enumerate() {
            assert_eq!((x.cmp(y), x.partial_cmp(y)), (i.cmp(&j), Some(i.cmp(&j))), "{x:?} and {y:?}");
        }
    }
    assert_hashed(all);
}

/// Different items have different hashes.
fn assert_hashed<T: Hash>(all: &[T]) {
    let hashes: HashSet<_> = all.iter().map(|it| BuildHasherDefault::<DefaultHasher>::new().hash_one(it)).collect();
    assert_eq!(hashes.len(), all.len());
}

/// gimli's bounds are enough for offsets of any reader.
fn assert_offsets<O: ReaderOffset>(all: &[O]) {
    assert_numbered(&all.iter().copied().map(UnitOffset).collect::<Vec<_>>());
    assert_numbered(&all.iter().copied().map(DebugInfoOffset).collect::<Vec<_>>());
}

#[test]
fn orders_and_hashes_are_those_of_the_numbers() {
    let bytes = || 0..=u8::MAX;
    assert_numbered(&bytes().map(DwOp).collect::<Vec<_>>());
    assert_numbered(&bytes().map(DwAte).collect::<Vec<_>>());
    assert_numbered(&bytes().map(|byte| Register(u16::from(byte) << 8 | u16::from(!byte))).collect::<Vec<_>>());
    assert_offsets(&bytes().map(|byte| usize::from(byte) << 24 | usize::from(!byte)).collect::<Vec<_>>());
    assert_offsets(&bytes().map(|byte| u64::from(byte) << 56 | u64::from(!byte)).collect::<Vec<_>>());
    assert_hashed(&[Format::Dwarf32, Format::Dwarf64]);
    assert_eq!((Format::Dwarf32.word_size(), Format::Dwarf64.word_size()), (4, 8));
    let encodings = bytes().flat_map(|address_size| {
        [Format::Dwarf32, Format::Dwarf64].map(|format| Encoding { address_size, format, version: address_size.into() })
    });
    assert_hashed(&encodings.chain([Encoding { version: 900, ..super::ENCODING }]).collect::<Vec<_>>());
    let text = [1; 256];
    assert_hashed(&(0..256).map(|length| super::little(&text[..length])).collect::<Vec<_>>());
}

#[test]
fn a_byte_order_is_little_or_big() {
    assert!(LittleEndian.is_little_endian() && RunTimeEndian::Little.is_little_endian());
    assert!(!BigEndian.is_little_endian() && !RunTimeEndian::Big.is_little_endian());
    assert_eq!(NativeEndian::default().is_little_endian(), cfg!(target_endian = "little"));
}
