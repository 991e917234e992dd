//! The list of fixed capacity, which the sources take from the crate `arrayvec`.

use core::mem::MaybeUninit;
use core::slice::from_raw_parts;

/// Items in an array. Only the first `len` are set, so that an empty list costs nothing.
pub(crate) struct ArrayVec<T, const CAP: usize> {
    slots: [MaybeUninit<T>; CAP],
    len: usize,
}

/// An item that a full list doesn't take.
pub(crate) struct CapacityError<T>(T);

impl<T> CapacityError<T> {
    pub fn element(self) -> T {
        self.0
    }
}

impl<T: Copy, const CAP: usize> ArrayVec<T, CAP> {
    #[inline(always)]
    pub fn new() -> Self {
        ArrayVec { slots: [const { MaybeUninit::uninit() }; CAP], len: 0 }
    }

    #[inline(always)]
    pub fn as_slice(&self) -> &[T] {
        let set = &self.slots[..self.len];
        // SAFETY: the first `len` items are set.
        unsafe { from_raw_parts(set.as_ptr().cast(), set.len()) }
    }

    #[inline(always)]
    pub fn pop(&mut self) -> Option<T> {
        self.len = self.len.checked_sub(1)?;
        // SAFETY: the item was the last of those that are set.
        Some(unsafe { self.slots[self.len].assume_init() })
    }

    #[inline(always)]
    pub fn try_push(&mut self, item: T) -> Result<(), CapacityError<T>> {
        if self.len == CAP {
            return Err(CapacityError(item));
        }
        self.slots[self.len].write(item);
        self.len += 1;
        Ok(())
    }
}
