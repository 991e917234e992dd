//! Evaluations over lists of any length, which need a heap.

use crate::sources::eval::store::{List, OneInLine};
use crate::storage::sealed::Sealed;
use crate::{ArrayLike, Encoding, Error, Evaluation, EvaluationStorage, Expression, Location, Piece, Reader, Value};
#[cfg(feature = "arrayvec")]
use alloc::boxed::Box;
use alloc::vec::Vec;
#[cfg(feature = "arrayvec")]
use arrayvec::ArrayVec;

/// Keeps the lists of an evaluation on the heap, as long as memory allows.
#[derive(Clone, Copy, Debug, PartialEq, Eq)]
pub struct StoreOnHeap;

impl<R: Reader> EvaluationStorage<R> for StoreOnHeap {
    type Stack = Vec<Value>;
    type ExpressionStack = Vec<(R, R)>;
    type Result = Vec<Piece<R>>;
}

impl<R: Reader> Expression<R> {
    /// A fresh evaluation of the expression, on the heap.
    #[inline]
    pub fn evaluation(self, encoding: Encoding) -> Evaluation<R> {
        Evaluation::new(self.0, encoding)
    }
}

impl<R: Reader> Evaluation<R> {
    /// A fresh evaluation of `bytecode`, on the heap. It allocates nothing yet.
    #[inline]
    pub fn new(bytecode: R, encoding: Encoding) -> Self {
        Evaluation::new_in(bytecode, encoding)
    }

    /// The pieces of a complete evaluation. A single piece allocates here; [`as_result`](Self::as_result) doesn't. If
    /// memory is refused, the process ends, as at any push on a `Vec`.
    ///
    /// # Panics
    ///
    /// If the evaluation isn't complete.
    #[cfg_attr(not(debug_assertions), inline(always))]
    #[track_caller]
    pub fn result(self) -> Vec<Piece<R>> {
        self.assert_complete("result");
        match copy_of_only(self.as_result_unchecked()) {
            // `vec!` would take 5% of gimli's time longer.
            #[allow(clippy::vec_init_then_push)]
            Some(piece) => {
                let mut list = Vec::with_capacity(1);
                list.push(piece);
                list
            }
            None => self.into_pieces().into_list().unwrap_or_else(|one| one.as_slice().to_vec()),
        }
    }

    /// Like [`result`](Self::result), for a program that can't unwind. gimli has no such call.
    ///
    /// # Errors
    ///
    /// `StackFull`, if memory is refused.
    ///
    /// # Panics
    ///
    /// If the evaluation isn't complete.
    #[inline]
    #[track_caller]
    pub fn try_result(self) -> crate::Result<Vec<Piece<R>>> {
        self.assert_complete("try_result");
        self.into_pieces().into_list().map_err(|_| Error::StackFull)
    }
}

/// A copy of the only piece, if it has no reader. It copies field by field and doesn't move the evaluation; otherwise
/// libc and libm take 20% of gimli's time longer.
#[cfg_attr(not(debug_assertions), inline(always))]
fn copy_of_only<R: Reader>(pieces: &[Piece<R>]) -> Option<Piece<R>> {
    let [Piece { size_in_bits, bit_offset, location }] = pieces else { return None };
    let location = match *location {
        Location::Register { register } => Location::Register { register },
        Location::Address { address } => Location::Address { address },
        Location::Value { value } => Location::Value { value },
        _ => return None,
    };
    Some(Piece { size_in_bits: *size_in_bits, bit_offset: *bit_offset, location })
}

impl<T: Clone> Sealed for Vec<T> {}

impl<T: Clone> ArrayLike for Vec<T> {
    type Item = T;
    type List = Vec<T>;
    type Pieces = OneInLine<T, Vec<T>>;

    #[inline]
    fn new_list() -> Vec<T> {
        Vec::new()
    }
}

impl<T: Clone> From<Vec<T>> for OneInLine<T, Vec<T>> {
    #[cfg_attr(not(debug_assertions), inline(always))]
    fn from(more: Vec<T>) -> Self {
        OneInLine::new(more)
    }
}

#[cfg(feature = "arrayvec")]
impl<T: Clone, const N: usize> Sealed for Box<[T; N]> {}

#[cfg(feature = "arrayvec")]
impl<T: Clone, const N: usize> ArrayLike for Box<[T; N]> {
    type Item = T;
    type List = Box<ArrayVec<T, N>>;
    type Pieces = Box<ArrayVec<T, N>>;

    #[inline]
    fn new_list() -> Box<ArrayVec<T, N>> {
        Box::default()
    }
}

#[cfg(feature = "arrayvec")]
impl<L: List> List for Box<L> {
    type Item = L::Item;

    #[inline]
    fn as_slice(&self) -> &[L::Item] {
        L::as_slice(self)
    }

    #[inline]
    fn pop(&mut self) -> Option<L::Item> {
        L::pop(self)
    }

    #[inline]
    fn push(&mut self, item: L::Item) -> Result<(), L::Item> {
        L::push(self, item)
    }
}
