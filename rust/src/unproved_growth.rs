//! The list on the heap. It isn't proved: std's `Vec` has no push that hands the item back if memory is refused.

use crate::sources::eval::store::List;
use alloc::vec::Vec;

impl<T: Clone> List for Vec<T> {
    type Item = T;

    #[cfg_attr(not(debug_assertions), inline(always))]
    fn as_slice(&self) -> &[T] {
        Vec::as_slice(self)
    }

    #[cfg_attr(not(debug_assertions), inline(always))]
    fn pop(&mut self) -> Option<T> {
        Vec::pop(self)
    }

    #[cfg_attr(not(debug_assertions), inline(always))]
    fn push(&mut self, item: T) -> Result<(), T> {
        if self.len() == self.capacity() && !grow(self) {
            return Err(item);
        }
        Vec::push(self, item);
        Ok(())
    }
}

/// Makes room for one more item; `false` if memory is refused. The item isn't passed in, since it would have to be
/// written to memory for the call.
#[cold]
#[inline(never)]
fn grow<T>(list: &mut Vec<T>) -> bool {
    list.try_reserve(1).is_ok()
}
