//! The messages of errors.

use crate::Error;
use core::fmt;

macro_rules! descriptions {
    ($type:ident: $($(@)? $name:ident $(($x:ident))? $text:literal;)+) => {
        impl $type {
            /// A short message. `Display` adds the number that the error carries.
            pub fn description(&self) -> &str {
                match self {
                    $($type::$name { .. } => $text,)+
                }
            }
        }
    };
}

errors!(descriptions);

impl fmt::Display for Error {
    fn fmt(&self, f: &mut fmt::Formatter<'_>) -> fmt::Result {
        f.write_str(self.description())?;
        match *self {
            Error::UnsupportedAddressSize(size) | Error::InvalidDerefSize(size) => write!(f, ": {size}"),
            Error::UnsupportedRegister(number) | Error::InvalidPieceSize(number) => write!(f, ": {number}"),
            Error::InvalidExpression(opcode) => write!(f, ": {:#04x}", opcode.0),
            Error::BadBranchTarget(place) | Error::InvalidExpressionTerminator(place) => write!(f, ": {place:#x}"),
            _ => Ok(()),
        }
    }
}

impl core::error::Error for Error {}
