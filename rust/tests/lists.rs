//! The lists of an evaluation hold more items than 2^24, up to their capacity.

use crate::SliceVec;
use crate::sources::eval::store::{List, OneInLine};

const LENGTH: usize = (1 << 24) + 3;

/// Fills a list, and empties it again.
fn assert_long<L: List<Item = u8>>(mut list: L, is_full: bool) {
    let item = |place: usize| place as u8 ^ (place >> 16) as u8;
    for place in 0..LENGTH {
        assert_eq!(list.push(item(place)), Ok(()), "{place}");
    }
    assert_eq!(list.as_slice().len(), LENGTH);
    if is_full {
        assert_eq!(list.push(7), Err(7));
    }
    for place in (0..LENGTH).rev() {
        assert_eq!(list.pop(), Some(item(place)), "{place}");
    }
    assert_eq!(list.pop(), None);
}

#[test]
fn lists_on_the_heap_are_long() {
    assert_long(Vec::new(), false);
    assert_long(OneInLine::new(Vec::new()), false);
}

#[test]
fn a_lent_list_is_as_long_as_its_slice() {
    assert_long(SliceVec::new(&mut vec![0; LENGTH]), true);
}

#[cfg(feature = "arrayvec")]
#[test]
fn lists_in_arrays_are_as_long_as_these() {
    type Long = arrayvec::ArrayVec<u8, LENGTH>;
    // In a debug build each move of an array has room of its own.
    let thread = std::thread::Builder::new().stack_size(16 * LENGTH);
    let filled = thread.spawn(|| {
        assert_long(Long::new(), true);
        assert_long(Box::new(Long::new()), true);
    });
    filled.expect("there is memory").join().expect("the lists are long");
}
