//! Conversions between the arguments and results of evaluations here and in gimli.

use super::{GimliReader, gimli};
use crate::{Error, Expression, Location, Piece, Result};

impl<R: gimli::Reader> From<gimli::Expression<R>> for Expression<GimliReader<R>> {
    #[inline]
    fn from(theirs: gimli::Expression<R>) -> Self {
        Expression(GimliReader(theirs.0))
    }
}

impl<R: gimli::Reader> From<Expression<GimliReader<R>>> for gimli::Expression<R> {
    #[inline]
    fn from(ours: Expression<GimliReader<R>>) -> Self {
        gimli::Expression(ours.0.0)
    }
}

impl<R: gimli::Reader> From<Location<GimliReader<R>>> for gimli::Location<R> {
    #[inline]
    fn from(ours: Location<GimliReader<R>>) -> Self {
        match ours {
            Location::Empty => gimli::Location::Empty,
            Location::Register { register } => gimli::Location::Register { register: register.into() },
            Location::Address { address } => gimli::Location::Address { address },
            Location::Value { value } => gimli::Location::Value { value: value.into() },
            Location::Bytes { value } => gimli::Location::Bytes { value: value.0 },
            Location::ImplicitPointer { value, byte_offset } => {
                gimli::Location::ImplicitPointer { value: value.into(), byte_offset }
            }
        }
    }
}

impl<R: gimli::Reader> TryFrom<gimli::Location<R>> for Location<GimliReader<R>> {
    type Error = Error;

    /// `UnsupportedTypeOperation`, if it has a floating-point value.
    #[inline]
    fn try_from(theirs: gimli::Location<R>) -> Result<Self> {
        Ok(match theirs {
            gimli::Location::Empty => Location::Empty,
            gimli::Location::Register { register } => Location::Register { register: register.into() },
            gimli::Location::Address { address } => Location::Address { address },
            gimli::Location::Value { value } => Location::Value { value: value.try_into()? },
            gimli::Location::Bytes { value } => Location::Bytes { value: GimliReader(value) },
            gimli::Location::ImplicitPointer { value, byte_offset } => {
                Location::ImplicitPointer { value: value.into(), byte_offset }
            }
        })
    }
}

impl<R: gimli::Reader> From<Piece<GimliReader<R>>> for gimli::Piece<R> {
    #[inline]
    fn from(ours: Piece<GimliReader<R>>) -> Self {
        let Piece { size_in_bits, bit_offset, location } = ours;
        gimli::Piece { size_in_bits, bit_offset, location: location.into() }
    }
}

impl<R: gimli::Reader> TryFrom<gimli::Piece<R>> for Piece<GimliReader<R>> {
    type Error = Error;

    /// `UnsupportedTypeOperation`, if it has a floating-point value.
    #[inline]
    fn try_from(theirs: gimli::Piece<R>) -> Result<Self> {
        let gimli::Piece { size_in_bits, bit_offset, location } = theirs;
        Ok(Piece { size_in_bits, bit_offset, location: location.try_into()? })
    }
}
