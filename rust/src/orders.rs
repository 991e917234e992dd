//! The orders, hashes and small methods that gimli's plain types have and the sources' types don't.

use crate::{
    BigEndian, DebugInfoOffset, DwAte, DwOp, Encoding, Endianity, Format, LittleEndian, Register, RunTimeEndian,
    UnitOffset,
};
use core::cmp::Ordering;
use core::hash::{Hash, Hasher};

/// A type is ordered and hashed by its number.
macro_rules! by_number {
    ($($type:ident $(<$number:ident>)?,)+) => {
        $(
            #[allow(clippy::non_canonical_partial_ord_impl)]
            impl $(<$number: PartialOrd>)? PartialOrd for $type $(<$number>)? {
                #[inline]
                fn partial_cmp(&self, other: &Self) -> Option<Ordering> {
                    self.0.partial_cmp(&other.0)
                }
            }

            impl $(<$number: Ord>)? Ord for $type $(<$number>)? {
                #[inline]
                fn cmp(&self, other: &Self) -> Ordering {
                    self.0.cmp(&other.0)
                }
            }

            impl $(<$number: Hash>)? Hash for $type $(<$number>)? {
                #[inline]
                fn hash<H: Hasher>(&self, state: &mut H) {
                    self.0.hash(state);
                }
            }
        )+
    };
}

by_number!(DwAte, DwOp, Register, UnitOffset<T>, DebugInfoOffset<T>,);

impl Hash for Format {
    #[inline]
    fn hash<H: Hasher>(&self, state: &mut H) {
        self.word_size().hash(state);
    }
}

impl Hash for Encoding {
    #[inline]
    fn hash<H: Hasher>(&self, state: &mut H) {
        (self.address_size, self.format, self.version).hash(state);
    }
}

impl Format {
    /// The size of an offset, in bytes.
    #[inline]
    pub fn word_size(self) -> u8 {
        match self {
            Format::Dwarf32 => 4,
            Format::Dwarf64 => 8,
        }
    }
}

/// A method that byte orders have in gimli, and not in the sources.
pub trait LittleOrBig: Copy {
    /// Whether the least significant byte of a number comes first.
    fn is_little_endian(self) -> bool;
}

impl<E: Endianity> LittleOrBig for E {
    #[inline]
    fn is_little_endian(self) -> bool {
        !self.is_big_endian()
    }
}

macro_rules! is_little_endian {
    ($($type:ident,)+) => {
        $(
            impl $type {
                /// Whether the least significant byte of a number comes first.
                #[inline]
                pub fn is_little_endian(self) -> bool {
                    !self.is_big_endian()
                }
            }
        )+
    };
}

is_little_endian!(LittleEndian, BigEndian, RunTimeEndian,);
