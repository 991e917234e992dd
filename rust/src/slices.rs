//! What gimli's `EndianSlice` and `OperationIter` have and the sources' don't.

use crate::{EndianSlice, Endianity, Error, Expression, OperationIter, Reader, ReaderOffset, ReaderOffsetId, Result};
#[cfg(feature = "alloc")]
use alloc::borrow::Cow;
use core::ops::{Deref, Index, Range, RangeFrom, RangeTo};

impl<'input, Endian: Endianity> EndianSlice<'input, Endian> {
    /// The bytes before an index, and those from the index on.
    ///
    /// # Panics
    ///
    /// If the index is after the end.
    #[inline]
    pub fn split_at(&self, idx: usize) -> (Self, Self) {
        (self.range_to(..idx), self.range_from(idx..))
    }

    /// The index of the first byte with this value.
    #[inline]
    pub fn find(&self, byte: u8) -> Option<usize> {
        self.slice().iter().position(|it| *it == byte)
    }

    /// The offset of these bytes in `base`. They have to be a part of it.
    ///
    /// # Panics
    ///
    /// If they begin outside of `base`.
    #[inline]
    #[track_caller]
    pub fn offset_from(&self, base: Self) -> usize {
        base.lookup_offset_id(self.offset_id()).expect("the bytes aren't a part of `base`")
    }

    /// The bytes in a range.
    ///
    /// # Panics
    ///
    /// If the range isn't within the bytes.
    #[inline]
    pub fn range(&self, idx: Range<usize>) -> Self {
        EndianSlice::new(&self.slice()[idx], self.endian())
    }

    /// The bytes from an index on.
    ///
    /// # Panics
    ///
    /// If the index is after the end.
    #[inline]
    pub fn range_from(&self, idx: RangeFrom<usize>) -> Self {
        EndianSlice::new(&self.slice()[idx], self.endian())
    }

    /// The bytes before an index.
    ///
    /// # Panics
    ///
    /// If the index is after the end.
    #[inline]
    pub fn range_to(&self, idx: RangeTo<usize>) -> Self {
        EndianSlice::new(&self.slice()[idx], self.endian())
    }

    /// Keeps the first `len` bytes.
    ///
    /// # Errors
    ///
    /// `UnexpectedEof`, if there are fewer.
    #[inline]
    pub fn truncate(&mut self, len: usize) -> Result<()> {
        let front = self.slice().get(..len).ok_or(Error::UnexpectedEof(self.offset_id()))?;
        *self = EndianSlice::new(front, self.endian());
        Ok(())
    }

    /// The address at which the bytes begin.
    #[inline]
    pub fn offset_id(&self) -> ReaderOffsetId {
        ReaderOffsetId(self.slice().as_ptr().addr() as u64)
    }

    /// The index of the byte at an address. `None` if the address is neither in the bytes nor at their end.
    #[inline]
    pub fn lookup_offset_id(&self, id: ReaderOffsetId) -> Option<usize> {
        let index = usize::try_from(id.0.checked_sub(self.offset_id().0)?).ok()?;
        (index <= self.slice().len()).then_some(index)
    }

    /// The bytes, borrowed. It never fails.
    #[cfg(feature = "alloc")]
    #[inline]
    pub fn to_slice(&self) -> Result<Cow<'input, [u8]>> {
        Ok(Cow::Borrowed(self.slice()))
    }
}

impl<Endian: Endianity> Index<usize> for EndianSlice<'_, Endian> {
    type Output = u8;

    #[inline]
    fn index(&self, idx: usize) -> &u8 {
        &self.slice()[idx]
    }
}

impl<Endian: Endianity> Index<RangeFrom<usize>> for EndianSlice<'_, Endian> {
    type Output = [u8];

    #[inline]
    fn index(&self, idx: RangeFrom<usize>) -> &[u8] {
        &self.slice()[idx]
    }
}

impl<Endian: Endianity> Deref for EndianSlice<'_, Endian> {
    type Target = [u8];

    #[inline]
    fn deref(&self) -> &[u8] {
        self.slice()
    }
}

impl<'input, Endian: Endianity> From<EndianSlice<'input, Endian>> for &'input [u8] {
    #[inline]
    fn from(bytes: EndianSlice<'input, Endian>) -> &'input [u8] {
        bytes.slice()
    }
}

impl<R: Reader> OperationIter<R> {
    /// The offset of the next operation in the expression. After an error it is the length of the expression.
    ///
    /// # Panics
    ///
    /// If `expression` is shorter than the iterator's remaining bytes, and so isn't the iterator's.
    #[inline]
    #[track_caller]
    pub fn offset_from(&self, expression: &Expression<R>) -> R::Offset {
        // If the expression is too short, this wraps or panics.
        let offset = self.offset_from_unchecked(expression);
        assert!(offset.into_u64() <= expression.0.len().into_u64(), "these are the operations of another expression");
        offset
    }
}
