use dwexpr::{EndianSlice, Encoding, Error, Evaluation, EvaluationResult, Format, LittleEndian};

fn main() -> Result<(), Error> {
    let encoding = Encoding { address_size: 8, format: Format::Dwarf32, version: 5 };
    // DW_OP_fbreg -16, in a frame at 0x3000.
    let mut evaluation = Evaluation::new(EndianSlice::new(&[0x91, 0x70], LittleEndian), encoding);
    let result = evaluation.evaluate()?;
    assert_eq!(result, EvaluationResult::RequiresFrameBase);
    evaluation.resume_with_frame_base(0x3000)?;
    println!("{:?}", evaluation.as_result()[0].location);
    Ok(())
}
