//! The calls on values that take an address mask. Each checks the mask, and then makes the sources' call.

use crate::{Result, Value, ValueType, is_addr_mask};

#[cold]
#[inline(never)]
#[track_caller]
fn refuse(addr_mask: u64) -> ! {
    panic!("{addr_mask:#x} isn't the mask of an address: two to a width from 1 to 64, less one")
}

/// Methods of a type, each with its name in the sources.
macro_rules! checked {
    ($type:ident: $($(#[$doc:meta])+ $name:ident = $unchecked:ident($($argument:ident: $of:ty)?) -> $result:ty;)+) => {
        impl $type {
            $(
                $(#[$doc])+
                ///
                /// # Panics
                ///
                /// If `addr_mask` isn't 2^`n` - 1 for a width `n` from 1 to 64. For addresses of `size` bytes it is `!0
                /// >> (64 - 8 * size)`.
                #[inline]
                #[track_caller]
                pub fn $name(self, $($argument: $of,)? addr_mask: u64) -> $result {
                    if !is_addr_mask(addr_mask) {
                        refuse(addr_mask);
                    }
                    self.$unchecked($($argument,)? addr_mask)
                }
            )+
        }
    };
}

checked! { ValueType:
    /// The size of the type's values, in bits.
    bit_size = bit_size_unchecked() -> u32;
}

checked! { Value:
    /// The value as 64 bits. A signed value is sign-extended; a generic one is cut to the address size. It never fails.
    to_u64 = to_u64_unchecked() -> Result<u64>;
    /// The value converted to a type (`DW_OP_convert`). It never fails.
    convert = convert_unchecked(value_type: ValueType) -> Result<Value>;
    /// The value's bits as a value of a type (`DW_OP_reinterpret`). `TypeMismatch` if the sizes differ.
    reinterpret = reinterpret_unchecked(value_type: ValueType) -> Result<Value>;
    /// The absolute value, wrapped (`DW_OP_abs`). It never fails.
    abs = abs_unchecked() -> Result<Value>;
    /// The negation, wrapped (`DW_OP_neg`). `UnsupportedTypeOperation` if the type is unsigned.
    neg = neg_unchecked() -> Result<Value>;
    /// The bitwise complement (`DW_OP_not`). It never fails.
    not = not_unchecked() -> Result<Value>;
    /// The sum, wrapped (`DW_OP_plus`). `TypeMismatch` if the types differ.
    add = add_unchecked(rhs: Value) -> Result<Value>;
    /// The difference, wrapped (`DW_OP_minus`). `TypeMismatch` if the types differ.
    sub = sub_unchecked(rhs: Value) -> Result<Value>;
    /// The product, wrapped (`DW_OP_mul`). `TypeMismatch` if the types differ.
    mul = mul_unchecked(rhs: Value) -> Result<Value>;
    /// The quotient, rounded towards zero; generic values count as signed (`DW_OP_div`). `DivisionByZero` if `rhs` is
    /// zero, else `TypeMismatch` if the types differ.
    div = div_unchecked(rhs: Value) -> Result<Value>;
    /// The remainder; generic values count as unsigned (`DW_OP_mod`). `DivisionByZero` if `rhs` is zero, else
    /// `TypeMismatch` if the types differ.
    rem = rem_unchecked(rhs: Value) -> Result<Value>;
    /// The bitwise and (`DW_OP_and`). `TypeMismatch` if the types differ.
    and = and_unchecked(rhs: Value) -> Result<Value>;
    /// The bitwise or (`DW_OP_or`). `TypeMismatch` if the types differ.
    or = or_unchecked(rhs: Value) -> Result<Value>;
    /// The bitwise exclusive or (`DW_OP_xor`). `TypeMismatch` if the types differ.
    xor = xor_unchecked(rhs: Value) -> Result<Value>;
    /// A shift to the left (`DW_OP_shl`). `InvalidShiftExpression` if `rhs` is negative.
    shl = shl_unchecked(rhs: Value) -> Result<Value>;
    /// A shift to the right that fills with zeros (`DW_OP_shr`). `InvalidShiftExpression` if `rhs` is negative, or else
    /// `UnsupportedTypeOperation` if the type is signed.
    shr = shr_unchecked(rhs: Value) -> Result<Value>;
    /// A shift to the right that fills with the sign (`DW_OP_shra`). `InvalidShiftExpression` if `rhs` is negative, or
    /// else `UnsupportedTypeOperation` if the type is unsigned.
    shra = shra_unchecked(rhs: Value) -> Result<Value>;
    /// Whether it equals `rhs`, as a generic 1 or 0 (`DW_OP_eq`). `TypeMismatch` if the types differ.
    eq = eq_unchecked(rhs: Value) -> Result<Value>;
    /// Whether it is greater than `rhs` or equal (`DW_OP_ge`). `TypeMismatch` if the types differ.
    ge = ge_unchecked(rhs: Value) -> Result<Value>;
    /// Whether it is greater than `rhs` (`DW_OP_gt`). `TypeMismatch` if the types differ.
    gt = gt_unchecked(rhs: Value) -> Result<Value>;
    /// Whether it is less than `rhs` or equal (`DW_OP_le`). `TypeMismatch` if the types differ.
    le = le_unchecked(rhs: Value) -> Result<Value>;
    /// Whether it is less than `rhs` (`DW_OP_lt`). `TypeMismatch` if the types differ.
    lt = lt_unchecked(rhs: Value) -> Result<Value>;
    /// Whether it differs from `rhs` (`DW_OP_ne`). `TypeMismatch` if the types differ.
    ne = ne_unchecked(rhs: Value) -> Result<Value>;
}
