//! Where an evaluation keeps its lists: gimli's traits, and the sources' lists behind them.

use crate::sources::eval::store::{List, SliceVec};
use crate::{Piece, Reader, Value};
#[cfg(feature = "arrayvec")]
use arrayvec::ArrayVec;
use core::fmt;
use core::marker::PhantomData;

/// A list of an evaluation: a `Vec<T>` on the heap, or a [`SliceVec`] over the caller's slice. With the feature
/// `arrayvec` it may also be an array `[T; N]`, an `ArrayVec<T, N>` or, with `alloc` too, an array on the heap,
/// `Box<[T; N]>`. The trait is sealed, as gimli's is.
///
/// ```
/// # #[cfg(feature = "alloc")] {
/// use dwexpr::{EndianSlice, Encoding, Error, Evaluation, EvaluationResult, EvaluationStorage, Format, LittleEndian};
/// use dwexpr::{Piece, Reader, SliceVec, Value};
///
/// /// A new evaluation has no room for callers, so a call has to be the last operation.
/// struct WithoutCallers;
///
/// impl<R: Reader + 'static> EvaluationStorage<R> for WithoutCallers {
///     type Stack = Vec<Value>;
///     type ExpressionStack = SliceVec<'static, (R, R)>;
///     type Result = Vec<Piece<R>>;
/// }
///
/// let encoding = Encoding { address_size: 8, format: Format::Dwarf32, version: 5 };
/// // DW_OP_call2 of the entry at 5, and DW_OP_abs.
/// let [called, whole] = [&[0x31][..], &[0x98, 5, 0, 0x19]].map(|bytes| EndianSlice::new(bytes, LittleEndian));
/// let mut evaluation = Evaluation::<_, WithoutCallers>::new_in(whole, encoding);
/// assert!(matches!(evaluation.evaluate(), Ok(EvaluationResult::RequiresAtLocation(_))));
/// assert_eq!(evaluation.resume_with_at_location(called), Err(Error::StackFull));
/// # }
/// ```
pub trait ArrayLike: sealed::Sealed {
    /// The items.
    type Item: Clone;

    #[doc(hidden)]
    type List: List<Item = Self::Item>;

    // The list that holds the pieces.
    #[doc(hidden)]
    type Pieces: List<Item = Self::Item> + From<Self::List>;

    // Whether an item that is popped stays in its slot.
    #[doc(hidden)]
    const KEEPS_POPPED: bool = false;

    #[doc(hidden)]
    fn new_list() -> Self::List;
}

pub(crate) mod sealed {
    /// A user's type can't be a list.
    ///
    /// ```compile_fail,E0277
    /// struct Mine;
    ///
    /// impl dwexpr::ArrayLike for Mine {
    ///     type Item = u8;
    ///     type List = dwexpr::SliceVec<'static, u8>;
    ///     type Pieces = dwexpr::SliceVec<'static, u8>;
    ///
    ///     fn new_list() -> dwexpr::SliceVec<'static, u8> {
    ///         dwexpr::SliceVec::new(&mut [])
    ///     }
    /// }
    /// ```
    pub trait Sealed {}
}

/// Where an evaluation keeps its lists. With the feature `alloc`, `StoreOnHeap` is the default.
///
/// ```
/// # #[cfg(feature = "arrayvec")] {
/// use dwexpr::{EndianSlice, Encoding, Evaluation, EvaluationStorage, Format, LittleEndian, Piece, Reader, Value};
///
/// struct InArrays;
///
/// impl<R: Reader> EvaluationStorage<R> for InArrays {
///     type Stack = [Value; 64];
///     type ExpressionStack = [(R, R); 4];
///     type Result = [Piece<R>; 1];
/// }
///
/// let encoding = Encoding { address_size: 8, format: Format::Dwarf32, version: 5 };
/// let bytes = EndianSlice::new(&[0x35], LittleEndian);
/// let mut evaluation = Evaluation::<_, InArrays>::new_in(bytes, encoding);
/// evaluation.evaluate().unwrap();
/// assert_eq!(evaluation.value_result(), Some(Value::Generic(5)));
/// # }
/// ```
pub trait EvaluationStorage<R: Reader> {
    /// The values on the stack.
    type Stack: ArrayLike<Item = Value>;

    /// The callers of the running expression. Each is a pair: its remaining bytes, and all of its bytes.
    type ExpressionStack: ArrayLike<Item = (R, R)>;

    /// The pieces.
    type Result: ArrayLike<Item = Piece<R>>;
}

/// Keeps the lists of an evaluation in slices that the caller lends.
#[derive(Clone, Copy, Debug, PartialEq, Eq)]
pub struct StoreInSlices<'a>(PhantomData<&'a ()>);

impl<'a, R: Reader + 'a> EvaluationStorage<R> for StoreInSlices<'a> {
    type Stack = SliceVec<'a, Value>;
    type ExpressionStack = SliceVec<'a, (R, R)>;
    type Result = SliceVec<'a, Piece<R>>;
}

/// The sources' list in which an evaluation keeps its values or its callers.
pub(crate) type ListOf<A> = <A as ArrayLike>::List;

/// The sources' list in which an evaluation keeps its pieces.
pub(crate) type PiecesOf<A> = <A as ArrayLike>::Pieces;

impl<T: Clone + fmt::Debug> fmt::Debug for SliceVec<'_, T> {
    fn fmt(&self, f: &mut fmt::Formatter<'_>) -> fmt::Result {
        self.as_slice().fmt(f)
    }
}

impl<T: Clone> sealed::Sealed for SliceVec<'_, T> {}

impl<'a, T: Clone> ArrayLike for SliceVec<'a, T> {
    type Item = T;
    type List = SliceVec<'a, T>;
    type Pieces = SliceVec<'a, T>;

    const KEEPS_POPPED: bool = true;

    #[inline]
    fn new_list() -> SliceVec<'a, T> {
        SliceVec::new(&mut [])
    }
}

#[cfg(feature = "arrayvec")]
impl<T: Clone, const N: usize> sealed::Sealed for [T; N] {}

#[cfg(feature = "arrayvec")]
impl<T: Clone, const N: usize> ArrayLike for [T; N] {
    type Item = T;
    type List = ArrayVec<T, N>;
    type Pieces = ArrayVec<T, N>;

    #[inline]
    fn new_list() -> ArrayVec<T, N> {
        ArrayVec::new()
    }
}

#[cfg(feature = "arrayvec")]
impl<T: Clone, const N: usize> sealed::Sealed for ArrayVec<T, N> {}

#[cfg(feature = "arrayvec")]
impl<T: Clone, const N: usize> ArrayLike for ArrayVec<T, N> {
    type Item = T;
    type List = ArrayVec<T, N>;
    type Pieces = ArrayVec<T, N>;

    #[inline]
    fn new_list() -> ArrayVec<T, N> {
        ArrayVec::new()
    }
}
