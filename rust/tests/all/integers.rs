//! Compares the calls on values and the operations that make them, for addresses of each width, with a table that
//! computes in 128 bits and shares no code with the crate. The table follows DWARF 5, section 2.5.1. Above the address
//! size a generic result is gimli's.

use super::{ENCODING, little};
use dwexpr::EvaluationResult::*;
use dwexpr::constants::{DW_ATE_signed, DW_ATE_unsigned, DwAte};
use dwexpr::{BigEndian, Encoding, EndianSlice, Error, Evaluation, LittleEndian, Result, Value, ValueType};

type Binary = fn(Value, Value, u64) -> Result<Value>;

/// Functions over all types, by Rust's type of integers for each.
macro_rules! types {
    ($($type:ident $integer:ident,)+) => {
        const TYPES: [ValueType; 9] = [ValueType::Generic, $(ValueType::$type),+];

        /// The number in a value. That of a generic one is cut to the width of an address.
        fn number_of(value: Value, width: u32, is_signed: bool) -> i128 {
            match value {
                Value::Generic(number) => wrapped(number.into(), width, is_signed),
                $(Value::$type(number) => number.into(),)+
            }
        }

        /// The number, wrapped to a value of a type.
        fn value_of(value_type: ValueType, number: i128) -> Value {
            match value_type {
                ValueType::Generic => Value::Generic(number as u64),
                $(ValueType::$type => Value::$type(number as $integer),)+
            }
        }

        /// How many bits a type has if an address has `width`, and whether it is signed.
        fn bits_of(value_type: ValueType, width: u32) -> (u32, bool) {
            match value_type {
                ValueType::Generic => (width, false),
                $(ValueType::$type => ($integer::BITS, $integer::MIN != 0),)+
            }
        }
    };
}

types! { I8 i8, U8 u8, I16 i16, U16 u16, I32 i32, U32 u32, I64 i64, U64 u64, }

fn wrapped(number: i128, bits: u32, is_signed: bool) -> i128 {
    let number = number.rem_euclid(1 << bits);
    if is_signed && number >> (bits - 1) == 1 { number - (1 << bits) } else { number }
}

/// The numbers, wrapped to values of each type.
fn of_each_type(numbers: impl Fn(ValueType) -> Vec<i128>) -> Vec<Value> {
    let mut distinct = Vec::new();
    for value in TYPES.into_iter().flat_map(|it| numbers(it).into_iter().map(move |number| value_of(it, number))) {
        // Many numbers are the same value of a small type.
        if !distinct.contains(&value) {
            distinct.push(value);
        }
    }
    distinct
}

/// Values near the ends of each type, and generic values with bits above the width.
fn values(width: u32) -> Vec<Value> {
    of_each_type(|value_type| {
        let edge = 1 << (bits_of(value_type, width).0 - 1);
        vec![0, 1, 3, -1, edge - 1, edge, 2 * edge - 1, 2 - edge, width.into(), 3 * edge, 2 * edge + 5]
    })
}

/// Lengths of shifts around the width of each type, and generic ones with bits above the width.
fn lengths(width: u32) -> Vec<Value> {
    let about = |bits| [bits - 1, bits, bits + 1, bits + (1 << width)];
    of_each_type(|_| [width.into(), 8, 16, 32, 64].into_iter().flat_map(about).chain([0, 1, -1, 1 << width]).collect())
}

/// Numbers around powers of two, of both signs.
fn constants() -> Vec<i128> {
    let about = |bits: u32| [-1_i128, 0, 1].map(|more| (1_i128 << bits) + more);
    let numbers: Vec<i128> = [0, 7, 8, 15, 16, 24, 31, 32, 40, 48, 56, 63, 64].into_iter().flat_map(about).collect();
    numbers.iter().copied().chain(numbers.iter().map(|it| -it)).collect()
}

/// An opcode and a number in LEB128.
fn with_number(opcode: u8, number: i128) -> Vec<u8> {
    let digit = |place| (number >> (7 * place)) as u8 & 0x7f | if place < 9 { 0x80 } else { 0 };
    [opcode].into_iter().chain((0..10).map(digit)).collect()
}

/// What an operation gives after these values are pushed. It may ask for a register, which has the first of them, and
/// for a type.
fn evaluated(operation: &[u8], width: u32, pushed: &[Value], asked: &[Value], base_type: ValueType) -> Result<Value> {
    // DW_OP_entry_value for each.
    let text = [&[0xa3, 0].repeat(pushed.len()), operation].concat();
    let mut it = Evaluation::<_>::new(little(&text), Encoding { address_size: (width / 8) as u8, ..ENCODING });
    let (mut reply, mut answers) = (it.evaluate()?, pushed.iter().chain(asked).copied());
    loop {
        reply = match reply {
            Complete => return Ok(it.value_result().expect("it is no location")),
            RequiresEntryValue(_) => it.resume_with_entry_value(answers.next().unwrap())?,
            RequiresRegister { .. } => it.resume_with_register(answers.next().unwrap())?,
            RequiresFrameBase => it.resume_with_frame_base(answers.next().unwrap().to_u64(u64::MAX)?)?,
            RequiresBaseType(_) => it.resume_with_base_type(base_type)?,
            request => panic!("{request:?}"),
        };
    }
}

/// Expects an operation on the values to give this, if an address can have the width.
fn assert_evaluates(opcode: u8, width: u32, values: &[Value], base_type: ValueType, wanted: Result<Value>) {
    if width % 8 == 0 {
        // DW_OP_convert and DW_OP_reinterpret have an operand.
        let operation = if opcode < 0xa0 { &[opcode][..] } else { &[opcode, 1] };
        let given = evaluated(operation, width, values, &[], base_type);
        assert_eq!(given, wanted, "{width}: {opcode:#x} of {values:?}, {base_type:?}");
    }
}

fn check_one(value: Value, width: u32, mask: u64) {
    let value_type = value.value_type();
    let (bits, is_signed) = bits_of(value_type, width);
    let is_generic = value_type == ValueType::Generic;
    let [unsigned, signed] = [false, true].map(|is_signed| number_of(value, width, is_signed));
    let negated = if is_signed || is_generic { Ok(-signed) } else { Err(Error::UnsupportedTypeOperation) };
    let named = format!("{width}: {value:?}");
    assert_eq!(value_type.bit_size(mask), bits);
    assert_eq!(value.to_u64(mask), Ok(unsigned as u64), "{named}");
    for (opcode, given, number) in [
        (0x19, value.abs(mask), Ok(signed.abs())),
        (0x20, value.not(mask), Ok(!unsigned)),
        (0x1f, value.neg(mask), negated),
    ] {
        let wanted = number.map(|number| value_of(value_type, number));
        assert_eq!(given, wanted, "{opcode:#x} of {named}");
        assert_evaluates(opcode, width, &[value], value_type, wanted);
    }
    for other in TYPES {
        let converted = Ok(value_of(other, unsigned));
        // Bits above the width stay.
        let same = value_of(other, number_of(value, 64, false));
        let reinterpreted = if bits_of(other, width).0 == bits { Ok(same) } else { Err(Error::TypeMismatch) };
        assert_eq!(value.convert(other, mask), converted, "{named} to {other:?}");
        assert_evaluates(0xa8, width, &[value], other, converted);
        assert_eq!(value.reinterpret(other, mask), reinterpreted, "{named} as {other:?}");
        assert_evaluates(0xa9, width, &[value], other, reinterpreted);
    }
}

fn check_two(left: Value, right: Value, width: u32, mask: u64) {
    let value_type = left.value_type();
    let is_generic = value_type == ValueType::Generic;
    let [[x, y], [signed_x, signed_y]] =
        [false, true].map(|is_signed| [left, right].map(|it| number_of(it, width, is_signed)));
    let unless_zero = |wanted| if y == 0 { Err(Error::DivisionByZero) } else { wanted };
    let same_type = |value| if right.value_type() == value_type { Ok(value) } else { Err(Error::TypeMismatch) };
    let number =
        |number| same_type(value_of(value_type, if is_generic { wrapped(number, width, false) } else { number }));
    let holds = |it: bool| same_type(Value::Generic(it.into()));
    // A quotient keeps all 64 bits.
    let quotient = same_type(value_of(value_type, signed_x.checked_div(signed_y).unwrap_or(0)));
    for (opcode, call, wanted) in [
        (0x1a, Value::and as Binary, number(x & y)),
        (0x21, Value::or, number(x | y)),
        (0x27, Value::xor, number(x ^ y)),
        (0x22, Value::add, number(x + y)),
        (0x1c, Value::sub, number(x - y)),
        (0x1e, Value::mul, number(x.wrapping_mul(y))),
        (0x1b, Value::div, unless_zero(quotient)),
        (0x1d, Value::rem, unless_zero(number(x.checked_rem(y).unwrap_or(0)))),
        (0x29, Value::eq, holds(signed_x == signed_y)),
        (0x2a, Value::ge, holds(signed_x >= signed_y)),
        (0x2b, Value::gt, holds(signed_x > signed_y)),
        (0x2c, Value::le, holds(signed_x <= signed_y)),
        (0x2d, Value::lt, holds(signed_x < signed_y)),
        (0x2e, Value::ne, holds(signed_x != signed_y)),
    ] {
        assert_eq!(call(left, right, mask), wanted, "{width}: {opcode:#x} of {left:?} and {right:?}");
        assert_evaluates(opcode, width, &[left, right], value_type, wanted);
    }
}

fn check_shift(value: Value, by: Value, width: u32, mask: u64) {
    let value_type = value.value_type();
    let (bits, is_signed) = bits_of(value_type, width);
    let is_generic = value_type == ValueType::Generic;
    let [unsigned, signed] = [false, true].map(|is_signed| number_of(value, width, is_signed));
    let length = number_of(by, width, false);
    let places = if (0..bits.into()).contains(&length) { length } else { 64 };
    for (opcode, call, is_defined, number) in [
        (0x24, Value::shl as Binary, true, unsigned << places),
        (0x25, Value::shr, !is_signed, unsigned >> places),
        (0x26, Value::shra, is_signed || is_generic, signed >> places),
    ] {
        let wanted = match (length < 0, is_defined) {
            (true, _) => Err(Error::InvalidShiftExpression),
            (false, false) => Err(Error::UnsupportedTypeOperation),
            (false, true) => Ok(value_of(value_type, number)),
        };
        assert_eq!(call(value, by, mask), wanted, "{width}: {opcode:#x} of {value:?} and {by:?}");
        assert_evaluates(opcode, width, &[value, by], value_type, wanted);
    }
}

/// Adds the operand of an operation: of DW_OP_plus_uconst, and of DW_OP_breg7 and DW_OP_fbreg after an answer.
fn check_sum(value: Value, constant: i128, width: u32) {
    let value_type = value.value_type();
    let sum = number_of(value, width, false) + constant;
    let is_generic = value_type == ValueType::Generic;
    let wanted = Ok(value_of(value_type, if is_generic { wrapped(sum, width, false) } else { sum }));
    let named = format!("{width}: {value:?} and {constant}");
    if u64::try_from(constant).is_ok() {
        let given = evaluated(&with_number(0x23, constant), width, &[value], &[], value_type);
        assert_eq!(given, wanted, "DW_OP_plus_uconst of {named}");
    }
    if i64::try_from(constant).is_ok() {
        let given = evaluated(&with_number(0x77, constant), width, &[], &[value], value_type);
        assert_eq!(given, wanted, "DW_OP_breg7 of {named}");
        // The sum with a frame base keeps all 64 bits.
        let wanted = Ok(value_of(ValueType::Generic, number_of(value, 64, false) + constant));
        let given = evaluated(&with_number(0x91, constant), width, &[], &[value], value_type);
        assert_eq!(given, wanted, "DW_OP_fbreg of {named}");
    }
}

#[test]
fn values_are_those_of_twos_complement() {
    for width in [1, 2, 7, 8, 16, 24, 31, 32, 33, 40, 48, 56, 63, 64] {
        let (values, mask) = (values(width), u64::MAX >> (64 - width));
        let (lengths, constants) = (lengths(width), if width % 8 == 0 { constants() } else { vec![] });
        for &value in &values {
            check_one(value, width, mask);
            values.iter().for_each(|&other| check_two(value, other, width, mask));
            lengths.iter().for_each(|&length| check_shift(value, length, width, mask));
            constants.iter().for_each(|&constant| check_sum(value, constant, width));
        }
    }
}

#[test]
fn values_are_read_in_each_byte_order() {
    for &value_type in &TYPES[1..] {
        let (bits, value) = (bits_of(value_type, 64).0, value_of(value_type, 0x8182_8384_8586_8788));
        let number = number_of(value, 64, false) as u64;
        let (little, big) = (number.to_le_bytes(), (number << (64 - bits)).to_be_bytes());
        assert_eq!(Value::parse(value_type, EndianSlice::new(&little, LittleEndian)), Ok(value));
        assert_eq!(Value::parse(value_type, EndianSlice::new(&big, BigEndian)), Ok(value));
    }
}

#[test]
fn an_encoding_and_a_size_name_a_type() {
    for (encoding, size) in (0..=255).flat_map(|encoding| (0..=64).map(move |size| (DwAte(encoding), size))) {
        let is_named = |it: &&ValueType| {
            let (bits, is_signed) = bits_of(**it, 0);
            (encoding, size) == (if is_signed { DW_ATE_signed } else { DW_ATE_unsigned }, u64::from(bits / 8))
        };
        assert_eq!(ValueType::from_encoding(encoding, size), TYPES[1..].iter().find(is_named).copied());
    }
}
