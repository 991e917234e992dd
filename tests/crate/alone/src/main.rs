//! A program that evaluates one expression in arrays, over a reader of gimli's. It has no allocator, and so can't be
//! linked if something below it asks for one.

#![no_std]
#![no_main]

use core::hint::black_box;
use dwexpr::{Evaluation, EvaluationResult, EvaluationStorage, GimliReader, Location, Piece, Value};
use gimli::{Encoding, EndianSlice, Format, LittleEndian};

type Bytes = GimliReader<EndianSlice<'static, LittleEndian>>;

struct InArrays;

impl EvaluationStorage<Bytes> for InArrays {
    type Stack = [Value; 64];
    type ExpressionStack = [(Bytes, Bytes); 8];
    type Result = [Piece<Bytes>; 16];
}

#[panic_handler]
fn panic(_: &core::panic::PanicInfo) -> ! {
    loop {}
}

/// The compiled `core` names it. Nothing unwinds.
#[unsafe(no_mangle)]
extern "C" fn rust_eh_personality() {}

/// The low byte of the variable's address, which is 0xf0 for DW_OP_fbreg -16; and 1 for any other expression.
#[unsafe(no_mangle)]
extern "C" fn main() -> i32 {
    let encoding = Encoding { address_size: 8, format: Format::Dwarf32, version: 5 };
    let bytes = EndianSlice::new(black_box(&[0x91, 0x70]), LittleEndian);
    let mut evaluation = Evaluation::<_, InArrays>::new_in(GimliReader(bytes), encoding.into());
    let mut result = evaluation.evaluate();
    while let Ok(EvaluationResult::RequiresFrameBase) = result {
        result = evaluation.resume_with_frame_base(black_box(0x3000));
    }
    match (result, evaluation.as_result()) {
        (Ok(EvaluationResult::Complete), [Piece { location: Location::Address { address }, .. }]) => {
            (address & 0xff) as i32
        }
        _ => 1,
    }
}
