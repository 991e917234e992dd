//! The constants' names as text, and the encodings of base types that the sources don't use.

#![allow(non_upper_case_globals)]

use crate::constants::*;
use core::fmt::{self, Write as _};

/// Encodings of base types.
macro_rules! encodings {
    ($($(#[$doc:meta])+ $name:ident = $number:literal;)+) => {
        $(
            $(#[$doc])+
            pub const $name: DwAte = DwAte($number);
        )+
    };
}

encodings! {
    /// An address.
    DW_ATE_address = 0x01;
    /// A truth value.
    DW_ATE_boolean = 0x02;
    /// A complex binary floating-point number.
    DW_ATE_complex_float = 0x03;
    /// A signed character.
    DW_ATE_signed_char = 0x06;
    /// An unsigned character.
    DW_ATE_unsigned_char = 0x08;
    /// An imaginary binary floating-point number.
    DW_ATE_imaginary_float = 0x09;
    /// A packed decimal.
    DW_ATE_packed_decimal = 0x0a;
    /// A string of digits.
    DW_ATE_numeric_string = 0x0b;
    /// An edited string.
    DW_ATE_edited = 0x0c;
    /// A signed fixed-point number.
    DW_ATE_signed_fixed = 0x0d;
    /// An unsigned fixed-point number.
    DW_ATE_unsigned_fixed = 0x0e;
    /// A decimal floating-point number.
    DW_ATE_decimal_float = 0x0f;
    /// A character of Unicode.
    DW_ATE_UTF = 0x10;
    /// A character of ISO/IEC 10646-1:1993.
    DW_ATE_UCS = 0x11;
    /// A character of ISO/IEC 646:1991.
    DW_ATE_ASCII = 0x12;
    /// The first encoding for use by producers.
    DW_ATE_lo_user = 0x80;
    /// The last encoding for use by producers.
    DW_ATE_hi_user = 0xff;
}

/// A short text, formatted without a heap.
#[derive(Default)]
struct Short {
    bytes: [u8; 24],
    len: usize,
}

impl Short {
    fn text(&self) -> &str {
        core::str::from_utf8(&self.bytes[..self.len]).unwrap_or_default()
    }
}

impl fmt::Write for Short {
    fn write_str(&mut self, text: &str) -> fmt::Result {
        let end = self.len + text.len();
        self.bytes.get_mut(self.len..end).ok_or(fmt::Error)?.copy_from_slice(text.as_bytes());
        self.len = end;
        Ok(())
    }
}

/// The names of a type's constants.
macro_rules! names {
    ($kind:ident: $($name:ident)+) => {
        impl $kind {
            /// The constant's name; `None` if no constant has this number.
            pub fn static_string(&self) -> Option<&'static str> {
                match *self {
                    $($name => Some(stringify!($name)),)+
                    _ => None,
                }
            }
        }

        impl fmt::Display for $kind {
            fn fmt(&self, f: &mut fmt::Formatter<'_>) -> fmt::Result {
                match self.static_string() {
                    Some(name) => f.pad(name),
                    None => {
                        let mut said = Short::default();
                        write!(said, "Unknown {}: {}", stringify!($kind), self.0)?;
                        f.pad(said.text())
                    }
                }
            }
        }
    };
}

names! { DwAte:
    DW_ATE_address DW_ATE_boolean DW_ATE_complex_float DW_ATE_float DW_ATE_signed DW_ATE_signed_char DW_ATE_unsigned
    DW_ATE_unsigned_char DW_ATE_imaginary_float DW_ATE_packed_decimal DW_ATE_numeric_string DW_ATE_edited
    DW_ATE_signed_fixed DW_ATE_unsigned_fixed DW_ATE_decimal_float DW_ATE_UTF DW_ATE_UCS DW_ATE_ASCII DW_ATE_lo_user
    DW_ATE_hi_user
}

names! { DwOp:
    DW_OP_addr DW_OP_deref DW_OP_const1u DW_OP_const1s DW_OP_const2u DW_OP_const2s DW_OP_const4u DW_OP_const4s
    DW_OP_const8u DW_OP_const8s DW_OP_constu DW_OP_consts DW_OP_dup DW_OP_drop DW_OP_over DW_OP_pick DW_OP_swap
    DW_OP_rot DW_OP_xderef DW_OP_abs DW_OP_and DW_OP_div DW_OP_minus DW_OP_mod DW_OP_mul DW_OP_neg DW_OP_not DW_OP_or
    DW_OP_plus DW_OP_plus_uconst DW_OP_shl DW_OP_shr DW_OP_shra DW_OP_xor DW_OP_bra DW_OP_eq DW_OP_ge DW_OP_gt DW_OP_le
    DW_OP_lt DW_OP_ne DW_OP_skip DW_OP_lit0 DW_OP_lit1 DW_OP_lit2 DW_OP_lit3 DW_OP_lit4 DW_OP_lit5 DW_OP_lit6
    DW_OP_lit7 DW_OP_lit8 DW_OP_lit9 DW_OP_lit10 DW_OP_lit11 DW_OP_lit12 DW_OP_lit13 DW_OP_lit14 DW_OP_lit15
    DW_OP_lit16 DW_OP_lit17 DW_OP_lit18 DW_OP_lit19 DW_OP_lit20 DW_OP_lit21 DW_OP_lit22 DW_OP_lit23 DW_OP_lit24
    DW_OP_lit25 DW_OP_lit26 DW_OP_lit27 DW_OP_lit28 DW_OP_lit29 DW_OP_lit30 DW_OP_lit31 DW_OP_reg0 DW_OP_reg1
    DW_OP_reg2 DW_OP_reg3 DW_OP_reg4 DW_OP_reg5 DW_OP_reg6 DW_OP_reg7 DW_OP_reg8 DW_OP_reg9 DW_OP_reg10 DW_OP_reg11
    DW_OP_reg12 DW_OP_reg13 DW_OP_reg14 DW_OP_reg15 DW_OP_reg16 DW_OP_reg17 DW_OP_reg18 DW_OP_reg19 DW_OP_reg20
    DW_OP_reg21 DW_OP_reg22 DW_OP_reg23 DW_OP_reg24 DW_OP_reg25 DW_OP_reg26 DW_OP_reg27 DW_OP_reg28 DW_OP_reg29
    DW_OP_reg30 DW_OP_reg31 DW_OP_breg0 DW_OP_breg1 DW_OP_breg2 DW_OP_breg3 DW_OP_breg4 DW_OP_breg5 DW_OP_breg6
    DW_OP_breg7 DW_OP_breg8 DW_OP_breg9 DW_OP_breg10 DW_OP_breg11 DW_OP_breg12 DW_OP_breg13 DW_OP_breg14 DW_OP_breg15
    DW_OP_breg16 DW_OP_breg17 DW_OP_breg18 DW_OP_breg19 DW_OP_breg20 DW_OP_breg21 DW_OP_breg22 DW_OP_breg23
    DW_OP_breg24 DW_OP_breg25 DW_OP_breg26 DW_OP_breg27 DW_OP_breg28 DW_OP_breg29 DW_OP_breg30 DW_OP_breg31 DW_OP_regx
    DW_OP_fbreg DW_OP_bregx DW_OP_piece DW_OP_deref_size DW_OP_xderef_size DW_OP_nop DW_OP_push_object_address
    DW_OP_call2 DW_OP_call4 DW_OP_call_ref DW_OP_form_tls_address DW_OP_call_frame_cfa DW_OP_bit_piece
    DW_OP_implicit_value DW_OP_stack_value DW_OP_implicit_pointer DW_OP_addrx DW_OP_constx DW_OP_entry_value
    DW_OP_const_type DW_OP_regval_type DW_OP_deref_type DW_OP_xderef_type DW_OP_convert DW_OP_reinterpret
    DW_OP_GNU_push_tls_address DW_OP_WASM_location DW_OP_GNU_uninit DW_OP_GNU_implicit_pointer DW_OP_GNU_entry_value
    DW_OP_GNU_const_type DW_OP_GNU_regval_type DW_OP_GNU_deref_type DW_OP_GNU_convert DW_OP_GNU_reinterpret
    DW_OP_GNU_parameter_ref DW_OP_GNU_addr_index DW_OP_GNU_const_index DW_OP_GNU_variable_value
}
