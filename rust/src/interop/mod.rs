//! gimli's readers, and conversions between the types of both crates. Each version of gimli has a module with a copy of
//! this one, in whose scope `gimli` is that version.

mod conversions;
#[cfg(feature = "alloc")]
mod floats;
mod requests;

#[cfg(feature = "alloc")]
pub use floats::{Answer, Outcome, Settings, evaluate_with_floats};

use super::gimli;
use crate::{
    BigEndian, DebugAddrIndex, DebugInfoOffset, DieReference, DwAte, DwOp, Encoding, EndianSlice, Error, Format,
    LittleEndian, Reader, ReaderOffset, ReaderOffsetId, Register, Result, RunTimeEndian, UnitOffset, Value, ValueType,
};
use core::fmt;
use core::ops::Deref;

/// A reader of gimli's. It reads addresses and offsets by gimli's calls, so a relocating reader relocates here too.
///
/// [`Error`] has no name for errors that don't come from the bytes, such as `gimli::Error::Io` from a relocation. Such
/// an error becomes `UnexpectedEof` with the place where the read begins. A reader with such errors can keep the last
/// one itself, for its caller.
///
/// ```
/// # #[cfg(all(feature = "alloc", feature = "gimli"))] {
/// # use gimli_0_34 as gimli;
/// use dwexpr::{Evaluation, EvaluationResult, GimliReader};
///
/// let encoding = gimli::Encoding { address_size: 8, format: gimli::Format::Dwarf32, version: 5 };
/// let expression = gimli::Expression(gimli::EndianSlice::new(&[0x91, 0x70], gimli::LittleEndian));
/// let mut evaluation = Evaluation::new(GimliReader(expression.0), encoding.into());
/// assert_eq!(evaluation.evaluate(), Ok(EvaluationResult::RequiresFrameBase));
/// # }
/// ```
#[derive(Clone, Copy, PartialEq, Eq, Hash)]
pub struct GimliReader<R>(pub R);

impl<R> From<R> for GimliReader<R> {
    #[inline]
    fn from(reader: R) -> Self {
        GimliReader(reader)
    }
}

impl<R> Deref for GimliReader<R> {
    type Target = R;

    #[inline]
    fn deref(&self) -> &R {
        &self.0
    }
}

/// An offset of one of gimli's readers, as an offset of this crate. `From` converts a [`UnitOffset`] of it to a
/// `gimli::UnitOffset`, and so on. No cast applies to it: for a number, write `.0 as u64`, or `.into_u64()` of
/// [`ReaderOffset`].
#[derive(Clone, Copy, PartialEq, Eq, PartialOrd, Ord, Hash)]
pub struct GimliOffset<T>(pub T);

/// `Debug` for types that are shown as gimli's value in them.
macro_rules! shown_as_gimlis {
    ($($type:ident)+) => {
        $(
            impl<T: fmt::Debug> fmt::Debug for $type<T> {
                #[inline]
                fn fmt(&self, f: &mut fmt::Formatter<'_>) -> fmt::Result {
                    self.0.fmt(f)
                }
            }
        )+
    };
}

shown_as_gimlis!(GimliReader GimliOffset);

impl<T: PartialEq> PartialEq<T> for GimliOffset<T> {
    #[inline]
    fn eq(&self, other: &T) -> bool {
        self.0 == *other
    }
}

impl<T: gimli::ReaderOffset> ReaderOffset for GimliOffset<T> {
    // gimli's offsets are integers.
    const BITS: u32 = 8 * size_of::<T>() as u32;

    #[inline]
    fn from_u8(offset: u8) -> Self {
        GimliOffset(T::from_u8(offset))
    }

    #[inline]
    fn from_u16(offset: u16) -> Self {
        GimliOffset(T::from_u16(offset))
    }

    #[inline]
    fn from_i16(offset: i16) -> Self {
        GimliOffset(T::from_i16(offset))
    }

    #[inline]
    fn from_u32(offset: u32) -> Self {
        GimliOffset(T::from_u32(offset))
    }

    #[inline]
    fn from_u64(offset: u64) -> Result<Self> {
        T::from_u64(offset).map(GimliOffset).map_err(|_| Error::UnsupportedOffset)
    }

    #[inline]
    fn into_u64(self) -> u64 {
        self.0.into_u64()
    }

    #[inline]
    fn wrapping_add(self, other: Self) -> Self {
        GimliOffset(self.0.wrapping_add(other.0))
    }
}

impl<R: gimli::Reader> GimliReader<R> {
    /// Reads by one of gimli's calls. An error that has no name here becomes `UnexpectedEof` with the place where the
    /// bytes begin.
    #[cfg_attr(not(debug_assertions), inline(always))]
    fn take<T>(&mut self, read: impl FnOnce(&mut R) -> gimli::Result<T>) -> Result<T> {
        #[cold]
        fn error_of(error: gimli::Error, start: gimli::ReaderOffsetId) -> Error {
            match error {
                gimli::Error::UnexpectedEof(id) => Error::UnexpectedEof(id.into()),
                gimli::Error::UnsupportedAddressSize(size) => Error::UnsupportedAddressSize(size),
                gimli::Error::UnsupportedOffset => Error::UnsupportedOffset,
                _ => Error::UnexpectedEof(start.into()),
            }
        }
        let start = self.0.offset_id();
        read(&mut self.0).map_err(|error| error_of(error, start))
    }

    /// Reads a LEB128 number: takes its bytes, at most ten, and decodes them by the proved code. That code reads a long
    /// number from a copy of its reader, and a copy of this one would be a clone. This one is lent only to functions
    /// that are inlined, so that the compiler can keep it in registers.
    #[cfg_attr(not(any(feature = "small", debug_assertions)), inline(always))]
    fn read_leb128<T>(&mut self, decode: impl Fn(&[u8]) -> Result<T>) -> Result<T> {
        let first = self.read_u8()?;
        if first < 128 {
            return decode(&[first]);
        }
        let mut bytes = [first, 0, 0, 0, 0, 0, 0, 0, 0, 0];
        let mut length = 1;
        // With `&&` the compiler would unroll this loop, at each of its many places.
        while (length < bytes.len()) & (bytes[length - 1] >= 128) {
            bytes[length] = self.read_u8()?;
            length += 1;
        }
        decode_long(decode, &bytes[..length])
    }
}

impl<R: gimli::Reader> Reader for GimliReader<R> {
    type Offset = GimliOffset<R::Offset>;

    #[inline]
    fn len(&self) -> Self::Offset {
        GimliOffset(self.0.len())
    }

    #[inline]
    fn is_empty(&self) -> bool {
        self.0.is_empty()
    }

    #[inline]
    fn empty(&mut self) {
        self.0.empty();
    }

    #[inline]
    fn offset_from(&self, base: &Self) -> Self::Offset {
        // It comes from the lengths, since an empty reader of gimli's may be at any place.
        GimliOffset(base.0.len() - self.0.len())
    }

    #[inline]
    fn skip(&mut self, len: Self::Offset) -> Result<()> {
        self.take(|reader| reader.skip(len.0))
    }

    #[inline]
    fn split(&mut self, len: Self::Offset) -> Result<Self> {
        self.take(|reader| reader.split(len.0)).map(GimliReader)
    }

    #[inline]
    fn read_fixed(&mut self, n: u8) -> Result<u64> {
        self.take(|reader| match n {
            1 => reader.read_u8().map(u64::from),
            2 => reader.read_u16().map(u64::from),
            4 => reader.read_u32().map(u64::from),
            _ => reader.read_u64(),
        })
    }

    #[inline]
    fn read_address(&mut self, size: u8) -> Result<u64> {
        self.take(|reader| reader.read_address(size))
    }

    #[inline]
    fn read_offset(&mut self, format: Format) -> Result<Self::Offset> {
        self.take(|reader| reader.read_offset(format.into())).map(GimliOffset)
    }

    #[cfg_attr(not(any(feature = "small", debug_assertions)), inline(always))]
    fn read_uleb128(&mut self) -> Result<u64> {
        self.read_leb128(unsigned)
    }

    #[cfg_attr(not(any(feature = "small", debug_assertions)), inline(always))]
    fn read_sleb128(&mut self) -> Result<i64> {
        self.read_leb128(signed)
    }
}

#[cfg_attr(not(any(feature = "small", debug_assertions)), inline(always))]
fn unsigned(bytes: &[u8]) -> Result<u64> {
    EndianSlice::new(bytes, LittleEndian).read_uleb128()
}

#[cfg_attr(not(any(feature = "small", debug_assertions)), inline(always))]
fn signed(bytes: &[u8]) -> Result<i64> {
    EndianSlice::new(bytes, LittleEndian).read_sleb128()
}

// Not inlined, since the decoding of nearly each operand would have it.
#[inline(never)]
fn decode_long<T>(decode: impl Fn(&[u8]) -> Result<T>, bytes: &[u8]) -> Result<T> {
    decode(bytes)
}

/// A conversion by `From`.
macro_rules! convert {
    ([$($of:tt)*] $from:ty => $to:ty { $($there:pat => $here:expr;)+ }) => {
        impl<$($of)*> From<$from> for $to {
            #[inline]
            fn from(it: $from) -> Self {
                match it {
                    $($there => $here,)+
                }
            }
        }
    };
}

/// Conversions both ways between types of the same name, whose values are written alike.
macro_rules! both_ways {
    ($($type:ident { $($ours:pat => $theirs:expr, $there:pat => $here:expr;)+ })+) => {
        $(
            convert!([] $type => gimli::$type { $($ours => $theirs;)+ });
            convert!([] gimli::$type => $type { $($there => $here;)+ });
        )+
    };
}

both_ways! {
    Register { Register(x) => gimli::Register(x), gimli::Register(x) => Register(x); }
    DwOp { DwOp(x) => gimli::DwOp(x), gimli::DwOp(x) => DwOp(x); }
    DwAte { DwAte(x) => gimli::DwAte(x), gimli::DwAte(x) => DwAte(x); }
    ReaderOffsetId { ReaderOffsetId(x) => gimli::ReaderOffsetId(x), gimli::ReaderOffsetId(x) => ReaderOffsetId(x); }
    LittleEndian { LittleEndian => gimli::LittleEndian, gimli::LittleEndian => LittleEndian; }
    BigEndian { BigEndian => gimli::BigEndian, gimli::BigEndian => BigEndian; }
    RunTimeEndian {
        RunTimeEndian::Little => gimli::RunTimeEndian::Little, gimli::RunTimeEndian::Little => RunTimeEndian::Little;
        RunTimeEndian::Big => gimli::RunTimeEndian::Big, gimli::RunTimeEndian::Big => RunTimeEndian::Big;
    }
    Format {
        Format::Dwarf32 => gimli::Format::Dwarf32, gimli::Format::Dwarf32 => Format::Dwarf32;
        Format::Dwarf64 => gimli::Format::Dwarf64, gimli::Format::Dwarf64 => Format::Dwarf64;
    }
    Encoding {
        Encoding { address_size, format, version } => gimli::Encoding { address_size, format: format.into(), version },
        gimli::Encoding { address_size, format, version } => Encoding { address_size, format: format.into(), version };
    }
}

/// Conversions both ways of offsets: gimli's own, and those of a `GimliReader`.
macro_rules! offsets {
    ($($type:ident)+) => {
        $(
            convert!([T: gimli::ReaderOffset] $type<T> => gimli::$type<T> { $type(x) => gimli::$type(x); });
            convert!([T: gimli::ReaderOffset] gimli::$type<T> => $type<T> { gimli::$type(x) => $type(x); });
            convert!([T] $type<GimliOffset<T>> => gimli::$type<T> { $type(x) => gimli::$type(x.0); });
            convert!([T] gimli::$type<T> => $type<GimliOffset<T>> { gimli::$type(x) => $type(GimliOffset(x)); });
        )+
    };
}

/// Conversions both ways of references to entries.
macro_rules! references {
    ([$($of:tt)*] $offset:ty) => {
        convert!([$($of)*] DieReference<$offset> => gimli::DieReference<T> {
            DieReference::UnitRef(x) => gimli::DieReference::UnitRef(x.into());
            DieReference::DebugInfoRef(x) => gimli::DieReference::DebugInfoRef(x.into());
        });
        convert!([$($of)*] gimli::DieReference<T> => DieReference<$offset> {
            gimli::DieReference::UnitRef(x) => DieReference::UnitRef(x.into());
            gimli::DieReference::DebugInfoRef(x) => DieReference::DebugInfoRef(x.into());
        });
    };
}

offsets!(UnitOffset DebugInfoOffset DebugAddrIndex);
references!([T: gimli::ReaderOffset] T);
references!([T] GimliOffset<T>);

/// Conversions of types that have more values in gimli: `From` into gimli's, and `TryFrom` back.
macro_rules! into_gimli {
    ($type:ident: $($name:ident $(($x:ident))?)+) => {
        impl From<$type> for gimli::$type {
            #[inline]
            fn from(ours: $type) -> Self {
                match ours {
                    $($type::$name $(($x))? => gimli::$type::$name $(($x.into()))?,)+
                }
            }
        }
    };
    (both $type:ident: $($name:ident $(($x:ident))?)+) => {
        into_gimli!($type: $($name $(($x))?)+);

        impl TryFrom<gimli::$type> for $type {
            type Error = Error;

            /// `UnsupportedTypeOperation`, if it is a floating-point one.
            #[inline]
            fn try_from(theirs: gimli::$type) -> Result<Self> {
                match theirs {
                    $(gimli::$type::$name $(($x))? => Ok($type::$name $(($x))?),)+
                    _ => Err(Error::UnsupportedTypeOperation),
                }
            }
        }
    };
}

into_gimli!(both ValueType: Generic I8 U8 I16 U16 I32 U32 I64 U64);
into_gimli!(both Value: Generic(x) I8(x) U8(x) I16(x) U16(x) I32(x) U32(x) I64(x) U64(x));

macro_rules! into_gimlis_errors {
    ($type:ident: $($name:ident $(($x:ident))? $text:literal;)+ @ $newer:ident($size:ident) $newer_text:literal;) => {
        impl From<$type> for gimli::$type {
            #[inline]
            fn from(ours: $type) -> Self {
                match ours {
                    $($type::$name $(($x))? => gimli::$type::$name $(($x.into()))?,)+
                    $type::$newer($size) => if_all_have_names!({ gimli::$type::$newer($size) } else {
                        { _ = $size; gimli::$type::InvalidExpression(gimli::DW_OP_piece) }
                    }),
                }
            }
        }
    };
}

errors!(into_gimlis_errors);
