//! The calls for C, as `c/include/dwexpr.h` declares them. All unsafe code is here.

mod structs {
    include!(concat!(env!("OUT_DIR"), "/structs.rs"));
}

pub use structs::{
    DwexprAnswer as Answer, DwexprEncoding as Encoding, DwexprOperation as Operation, DwexprOutcome as Outcome,
    DwexprPiece as Piece, DwexprSettings as Settings,
};

/// The most values, callers and pieces that an evaluation holds.
pub const MAX_VALUES: usize = 64;
pub const MAX_CALLERS: usize = 16;
pub const MAX_PIECES: usize = 32;

#[repr(C)]
struct Text {
    bytes: *const u8,
    length: usize,
}

#[repr(C)]
struct Evaluation {
    memory: *mut u64,
}

unsafe extern "C" {
    fn dwexpr_decode(at: *const u8, length: usize, encoding: Encoding, offset: usize, shown: &mut Operation) -> u32;

    safe fn dwexpr_evaluation_size() -> usize;

    fn dwexpr_evaluation_begin(evaluation: &mut Evaluation);

    fn dwexpr_evaluation_evaluate(
        evaluation: &mut Evaluation,
        texts: *const Text,
        texts_length: usize,
        encoding: Encoding,
        settings: &Settings,
        outcome: &mut Outcome,
        pieces: *mut Piece,
        pieces_length: usize,
    ) -> u32;

    fn dwexpr_evaluation_resume(
        evaluation: &mut Evaluation,
        texts: *const Text,
        texts_length: usize,
        answer: Answer,
        outcome: &mut Outcome,
        pieces: *mut Piece,
        pieces_length: usize,
    ) -> u32;
}

/// Decodes the operation at an offset, which may be the text's end.
pub fn decode(text: &[u8], encoding: Encoding, offset: usize) -> Operation {
    let mut operation = Operation { number: !0, ..Operation::default() };
    // SAFETY: the pointer and the length are those of a slice.
    let code = unsafe { dwexpr_decode(text.as_ptr(), text.len(), encoding, offset, &mut operation) };
    assert_eq!(code, operation.fault);
    operation
}

/// Memory in which the library holds one evaluation after another, and what its last call led to.
pub struct Held {
    memory: Box<[u64]>,
    pub outcome: Outcome,
    pub pieces: [Piece; MAX_PIECES],
}

impl Held {
    pub fn new() -> Self {
        let mut memory = vec![0; dwexpr_evaluation_size().div_ceil(8)].into_boxed_slice();
        // SAFETY: the memory has as many bytes as the library asks for, is aligned to 8, and has no other use.
        unsafe { dwexpr_evaluation_begin(&mut Evaluation { memory: memory.as_mut_ptr() }) };
        Held { memory, outcome: Outcome::default(), pieces: Default::default() }
    }

    pub fn evaluate(&mut self, texts: &[&[u8]], encoding: Encoding, settings: &Settings) {
        let texts = texts_of(texts);
        let Held { memory, outcome, pieces } = self;
        let (mut it, to, count) = (Evaluation { memory: memory.as_mut_ptr() }, pieces.as_mut_ptr(), pieces.len());
        // SAFETY: `new` has begun the evaluation. The caller's texts are slices that outlive it.
        let code = unsafe {
            dwexpr_evaluation_evaluate(&mut it, texts.as_ptr(), texts.len(), encoding, settings, outcome, to, count)
        };
        assert_eq!(code, outcome.code);
    }

    pub fn resume(&mut self, texts: &[&[u8]], answer: Answer) {
        let texts = texts_of(texts);
        let Held { memory, outcome, pieces } = self;
        let (mut it, to, count) = (Evaluation { memory: memory.as_mut_ptr() }, pieces.as_mut_ptr(), pieces.len());
        // SAFETY: as above.
        let code =
            unsafe { dwexpr_evaluation_resume(&mut it, texts.as_ptr(), texts.len(), answer, outcome, to, count) };
        assert_eq!(code, outcome.code);
    }
}

fn texts_of(texts: &[&[u8]]) -> Vec<Text> {
    texts.iter().map(|it| Text { bytes: it.as_ptr(), length: it.len() }).collect()
}
