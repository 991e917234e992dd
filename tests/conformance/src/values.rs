//! Values, types, and calls on values, as words spell them.

use std::fmt;

/// Types with the words that name them, and values with their words.
macro_rules! types {
    ($($name:ident($type:ty) $word:literal,)+) => {
        /// A type of values.
        #[derive(Clone, Copy, Debug, PartialEq, Eq)]
        #[allow(missing_docs)]
        pub enum ValueType {
            $($name,)+
        }

        /// A value. It is written as `i8:-1`, and a generic one as `generic:0x8`.
        #[derive(Clone, Copy, Debug, PartialEq, Eq)]
        #[allow(missing_docs)]
        pub enum Value {
            $($name($type),)+
        }

        impl ValueType {
            /// The type that a word names.
            pub fn of(word: &str) -> Option<ValueType> {
                match word {
                    $($word => Some(ValueType::$name),)+
                    _ => None,
                }
            }
        }

        impl Value {
            /// Its type.
            pub fn value_type(&self) -> ValueType {
                match self {
                    $(Value::$name(_) => ValueType::$name,)+
                }
            }

            /// The value that a word spells.
            pub fn of(word: &str) -> Option<Value> {
                let (name, number) = word.split_once(':')?;
                match name {
                    $($word => integer(number)?.try_into().ok().map(Value::$name),)+
                    _ => None,
                }
            }
        }

        impl fmt::Display for Value {
            fn fmt(&self, f: &mut fmt::Formatter<'_>) -> fmt::Result {
                match self {
                    Value::Generic(value) => write!(f, "generic:{value:#x}"),
                    $(#[allow(unreachable_patterns)] Value::$name(value) => write!(f, "{}:{value}", $word),)+
                }
            }
        }
    };
}

types! {
    Generic(u64) "generic", I8(i8) "i8", U8(u8) "u8", I16(i16) "i16", U16(u16) "u16", I32(i32) "i32", U32(u32) "u32",
    I64(i64) "i64", U64(u64) "u64",
}

/// The integer that a word spells, in decimal digits or, after `0x`, in hexadecimal ones.
pub fn integer(word: &str) -> Option<i128> {
    match word.strip_prefix("0x") {
        Some(digits) => i128::from_str_radix(digits, 16).ok(),
        None => word.parse().ok(),
    }
}

/// A call on values. A `mask` has the bits of an address.
#[derive(Clone, Debug, PartialEq, Eq)]
pub enum Call {
    /// A method of `Value` with no other value, by its operation's name: `abs`, `neg` or `not`.
    Unary {
        /// The method.
        name: String,
        /// The value.
        value: Value,
        /// The mask.
        mask: u64,
    },
    /// A method of `Value` with another value: `add`, `div`, `eq` and so on.
    Binary {
        /// The method.
        name: String,
        /// The value.
        left: Value,
        /// The other one.
        right: Value,
        /// The mask.
        mask: u64,
    },
    /// `Value::convert`, or `Value::reinterpret`.
    Convert {
        /// The method.
        name: String,
        /// The value.
        value: Value,
        /// The type.
        value_type: ValueType,
        /// The mask.
        mask: u64,
    },
    /// `Value::parse`, from little-endian bytes.
    Parse {
        /// The type.
        value_type: ValueType,
        /// The bytes.
        bytes: Vec<u8>,
    },
}

impl fmt::Display for Call {
    fn fmt(&self, f: &mut fmt::Formatter<'_>) -> fmt::Result {
        match self {
            Call::Unary { name, value, mask } => write!(f, "{name} {value}, mask {mask:#x}"),
            Call::Binary { name, left, right, mask } => write!(f, "{name} {left} {right}, mask {mask:#x}"),
            Call::Convert { name, value, value_type, mask } => {
                write!(f, "{name} {value} to {value_type:?}, mask {mask:#x}")
            }
            Call::Parse { value_type, bytes } => write!(f, "parse {bytes:02x?} as {value_type:?}"),
        }
    }
}
