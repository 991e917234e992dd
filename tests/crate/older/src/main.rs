//! A program on gimli 0.32, which answers this crate's requests as gimli's.

use dwexpr::gimli_0_32::GimliReader;
use dwexpr::Evaluation;
use gimli::{Encoding, EndianSlice, EvaluationResult, Format, LittleEndian};

const ENCODING: Encoding = Encoding { address_size: 8, format: Format::Dwarf32, version: 5 };

fn main() -> gimli::Result<()> {
    // DW_OP_fbreg -16, in a frame at 0x3000.
    let expression = EndianSlice::new(&[0x91, 0x70], LittleEndian);
    let mut evaluation = Evaluation::new(GimliReader(expression), ENCODING.into());
    match evaluation.evaluate()?.try_into()? {
        EvaluationResult::RequiresFrameBase => evaluation.resume_with_frame_base(0x3000)?,
        other => panic!("{other:?}"),
    };
    let pieces: Vec<gimli::Piece<_>> = evaluation.result().into_iter().map(Into::into).collect();
    println!("{:?}", pieces[0].location);
    Ok(())
}
