//! Casts between signed and unsigned integers of the same size, as the proved sources use them. std has them from Rust
//! 1.87 on, and then its own are called.

#![allow(dead_code)]

/// The signed integer with the same bits.
pub(crate) trait CastSigned {
    type Signed;

    fn cast_signed(self) -> Self::Signed;
}

/// The unsigned integer with the same bits.
pub(crate) trait CastUnsigned {
    type Unsigned;

    fn cast_unsigned(self) -> Self::Unsigned;
}

macro_rules! casts {
    ($($unsigned:ident $signed:ident;)+) => {$(
        impl CastSigned for $unsigned {
            type Signed = $signed;

            #[cfg_attr(not(debug_assertions), inline(always))]
            fn cast_signed(self) -> $signed {
                self as $signed
            }
        }

        impl CastUnsigned for $signed {
            type Unsigned = $unsigned;

            #[cfg_attr(not(debug_assertions), inline(always))]
            fn cast_unsigned(self) -> $unsigned {
                self as $unsigned
            }
        }
    )+};
}

casts! { u8 i8; u16 i16; u32 i32; u64 i64; usize isize; }
