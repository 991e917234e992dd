//! Refused memory is an error, and doesn't end the process.

use dwexpr::{Encoding, EndianSlice, Error, Evaluation, EvaluationResult, Format, LittleEndian, Status, Value};
use std::alloc::{GlobalAlloc, Layout, System};
use std::cell::Cell;
use std::ptr::null_mut;

thread_local! {
    /// How often this thread has tried to allocate.
    static ASKED: Cell<usize> = const { Cell::new(0) };

    /// Which of these attempts is refused; 0 if none is.
    static REFUSED: Cell<usize> = const { Cell::new(0) };
}

struct Refusing;

impl Refusing {
    fn takes() -> bool {
        ASKED.set(ASKED.get() + 1);
        ASKED.get() != REFUSED.get()
    }
}

// SAFETY: the memory is the system's, or refused.
unsafe impl GlobalAlloc for Refusing {
    unsafe fn alloc(&self, layout: Layout) -> *mut u8 {
        if Refusing::takes() { unsafe { System.alloc(layout) } } else { null_mut() }
    }

    unsafe fn dealloc(&self, place: *mut u8, layout: Layout) {
        unsafe { System.dealloc(place, layout) }
    }

    unsafe fn realloc(&self, place: *mut u8, layout: Layout, size: usize) -> *mut u8 {
        if Refusing::takes() { unsafe { System.realloc(place, layout, size) } } else { null_mut() }
    }
}

#[global_allocator]
static ALLOCATOR: Refusing = Refusing;

/// What a call gives, and how often it tries to allocate. One of these attempts is refused, or none.
fn refusing<T>(refused: usize, call: impl FnOnce() -> T) -> (T, usize) {
    ASKED.set(0);
    REFUSED.set(refused);
    let result = call();
    REFUSED.set(0);
    (result, ASKED.get())
}

const ENCODING: Encoding = Encoding { address_size: 8, format: Format::Dwarf32, version: 5 };

type Little<'a> = EndianSlice<'a, LittleEndian>;
type Replies<'a> = Vec<Result<EvaluationResult<Little<'a>>, Error>>;

fn little(bytes: &[u8]) -> Little<'_> {
    EndianSlice::new(bytes, LittleEndian)
}

/// The replies to `evaluate`, and to the expressions that answer calls; and how often these allocate.
fn replies<'a>(it: &mut Evaluation<Little<'a>>, called: &[&'a [u8]], refused: usize) -> (Replies<'a>, usize) {
    let mut replies = Vec::with_capacity(1 + called.len());
    let ((), asked) = refusing(refused, || {
        replies.push(it.evaluate());
        replies.extend(called.iter().map(|bytes| it.resume_with_at_location(little(bytes))));
    });
    (replies, asked)
}

#[test]
fn each_allocation_may_be_refused() {
    // DW_OP_lit1, once and often with DW_OP_plus; DW_OP_reg0 with DW_OP_piece 1; DW_OP_call2 of itself.
    let [lit1, call2] = [&[0x31][..], &[0x98, 1, 0]];
    let (sum, pieces) = ([[0x31; 40].as_slice(), &[0x22; 39]].concat(), [0x50, 0x93, 1].repeat(20));
    let called = [[call2; 9].as_slice(), &[lit1]].concat();
    let value = |number| Some(Value::Generic(number));
    for (text, called, results) in [
        (lit1, &[][..], (value(1), 1)),
        (&sum, &[], (value(40), 1)),
        (&pieces, &[], (None, 20)),
        (call2, &called, (value(1), 1)),
    ] {
        let (mut it, none) = refusing(0, || Evaluation::new(little(text), ENCODING));
        let (wanted, asked) = replies(&mut it, called, 0);
        assert!(none == 0 && asked > 0);
        assert_eq!((it.value_result(), it.as_result().len()), results);
        // The lists keep their memory.
        it.restart(little(text), ENCODING);
        assert_eq!(replies(&mut it, called, 0), (wanted.clone(), 0));
        for refused in 1..=asked {
            let mut it = Evaluation::new(little(text), ENCODING);
            let given = replies(&mut it, called, refused).0;
            let same = given.iter().zip(&wanted).take_while(|it| it.0 == it.1).count();
            assert!(same < given.len() && given[same..].iter().all(|it| *it == Err(Error::StackFull)));
            assert_eq!((it.status(), it.evaluate()), (Status::Failed(Error::StackFull), Err(Error::StackFull)));
            it.restart(little(text), ENCODING);
            assert_eq!(replies(&mut it, called, 0).0, wanted);
        }
    }
}

#[test]
fn a_single_piece_allocates_when_it_is_taken_out() {
    for (refused, count) in [(1, Err(Error::StackFull)), (0, Ok(1))] {
        let mut it = Evaluation::new(little(&[0x50]), ENCODING);
        assert_eq!(refusing(0, || it.evaluate()), (Ok(EvaluationResult::Complete), 0));
        assert_eq!(refusing(refused, || it.try_result().map(|pieces| pieces.len())), (count, 1));
    }
}
