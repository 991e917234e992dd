//! The exports of `include/dwexpr.h`: each turns a caller's pointers into references, and makes the proved call.

use crate::sources::c::{
    self, DwexprAnswer as Answer, DwexprEncoding as Encoding, DwexprEvaluation as Evaluation,
    DwexprOperation as Operation, DwexprOutcome as Outcome, DwexprPiece as Piece, DwexprSettings as Settings,
    DwexprText, DwexprValue as Value,
};
use core::marker::PhantomData;
use core::slice::{from_raw_parts, from_raw_parts_mut};

type Text = DwexprText<'static>;

/// The bytes of a text. The pointer may be null if there are none, unlike that of a slice.
#[repr(C)]
#[derive(Clone, Copy)]
pub struct Bytes<'a> {
    at: *const u8,
    length: usize,
    lives: PhantomData<&'a [u8]>,
}

impl<'a> Bytes<'a> {
    pub(crate) fn slice(&self) -> &'a [u8] {
        // SAFETY: the caller ensures that the text's pointer leads to that many bytes, which stay as they are.
        unsafe { items(self.at, self.length) }
    }
}

/// # Safety
/// The pointer leads to this many aligned items, which nothing writes while they are used; or the count is 0.
unsafe fn items<'a, T>(at: *const T, count: usize) -> &'a [T] {
    // SAFETY: the caller ensures it.
    if count == 0 { &[] } else { unsafe { from_raw_parts(at, count) } }
}

/// # Safety
/// The pointer leads to room for this many aligned items, which nothing else uses; or the count is 0. The items may
/// have any bits, even bits that were never set: they are written, and not read.
unsafe fn room<'a, T>(at: *mut T, count: usize) -> &'a mut [T] {
    // SAFETY: the caller ensures it.
    if count == 0 { &mut [] } else { unsafe { from_raw_parts_mut(at, count) } }
}

/// An export calls the proved function of its name, with references in place of C's pointers.
macro_rules! exports {
    ($($(#[$duty:meta])* fn $name:ident($($argument:ident: $type:ty),*) $(-> $out:ty)? = ($($given:expr),*);)*) => {$(
        #[doc = "# Safety"]
        $(#[$duty])*
        #[allow(unused_unsafe)]
        #[unsafe(no_mangle)]
        pub unsafe extern "C" fn $name($($argument: $type),*) $(-> $out)? {
            // SAFETY: the caller ensures it.
            unsafe { c::$name($($given),*) }
        }
    )*};
}

exports! {
    /// `bytes` leads to `length` bytes, and `operation` to one, initialized or not.
    fn dwexpr_decode(bytes: *const u8, length: usize, encoding: Encoding, offset: usize, operation: *mut Operation)
        -> u32 = (items(bytes, length), encoding, offset, &mut *operation);

    /// Any call is safe.
    fn dwexpr_evaluation_size() -> usize = ();

    /// The memory has as many bytes, is aligned to 8, is not moved, and holds no evaluation that is to be kept.
    fn dwexpr_evaluation_begin(evaluation: *mut Evaluation) = (&mut *evaluation);

    /// The evaluation was begun, nothing else wrote there, and one call is made at a time. The pointers with lengths
    /// lead to as many items, and those in the texts to as many bytes, which stay as they are until the next call of
    /// this function. `settings` leads to initialized ones, and `outcome` to one, initialized or not. The results
    /// overlap nothing else.
    fn dwexpr_evaluation_evaluate(evaluation: *mut Evaluation, texts: *const Text, texts_length: usize,
        encoding: Encoding, settings: *const Settings, outcome: *mut Outcome, pieces: *mut Piece, pieces_length: usize)
        -> u32 = (&mut *evaluation, items(texts, texts_length), encoding, &*settings, &mut *outcome,
        room(pieces, pieces_length));

    /// As for `dwexpr_evaluation_evaluate`.
    fn dwexpr_evaluation_resume(evaluation: *mut Evaluation, texts: *const Text, texts_length: usize, answer: Answer,
        outcome: *mut Outcome, pieces: *mut Piece, pieces_length: usize)
        -> u32 = (&mut *evaluation, items(texts, texts_length), answer, &mut *outcome, room(pieces, pieces_length));

    /// `result` leads to one, initialized or not; so it does in the calls below.
    fn dwexpr_value_unary(operation: u32, value: Value, addr_mask: u64, result: *mut Value)
        -> u32 = (operation, value, addr_mask, &mut *result);

    /// As above.
    fn dwexpr_value_binary(operation: u32, left: Value, right: Value, addr_mask: u64, result: *mut Value)
        -> u32 = (operation, left, right, addr_mask, &mut *result);

    /// As above.
    fn dwexpr_value_convert(operation: u32, value: Value, value_type: u32, addr_mask: u64, result: *mut Value)
        -> u32 = (operation, value, value_type, addr_mask, &mut *result);

    /// As above, and `bytes` leads to `length` bytes.
    fn dwexpr_value_parse(value_type: u32, bytes: *const u8, length: usize, big_endian: u8, result: *mut Value)
        -> u32 = (value_type, items(bytes, length), big_endian, &mut *result);

    /// Any call is safe.
    fn dwexpr_type_bit_size(value_type: u32, addr_mask: u64) -> u32 = (value_type, addr_mask);

    /// Any call is safe.
    fn dwexpr_type_from_encoding(encoding: u8, byte_size: u64) -> u32 = (encoding, byte_size);
}
