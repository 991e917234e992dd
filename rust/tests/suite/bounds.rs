//! Each evaluation and each iterator ends, whatever the bytes are.

use crate::{Case, Encoding, Step, cases, decodings, ours};
use dwexpr::{EndianSlice, Evaluation, EvaluationResult, Expression, Reader, Result, Status, Value, ValueType};

/// Answers a request by the generic value 0, the number 0, the text of a DW_OP_nop or the type `U8`.
fn answered<R: Reader>(it: &mut Evaluation<R>, request: EvaluationResult<R>, nop: &R) -> Result<EvaluationResult<R>> {
    use EvaluationResult::*;
    let zero = Value::Generic(0);
    match request {
        Complete => Ok(Complete),
        RequiresMemory { .. } => it.resume_with_memory(zero),
        RequiresRegister { .. } => it.resume_with_register(zero),
        RequiresWasmLocal { .. } | RequiresWasmGlobal { .. } | RequiresWasmStack { .. } => {
            it.resume_with_wasm_value(zero)
        }
        RequiresEntryValue(_) => it.resume_with_entry_value(zero),
        RequiresFrameBase => it.resume_with_frame_base(0),
        RequiresTls(_) => it.resume_with_tls(0),
        RequiresCallFrameCfa => it.resume_with_call_frame_cfa(0),
        RequiresParameterRef(_) => it.resume_with_parameter_ref(0),
        RequiresRelocatedAddress(_) => it.resume_with_relocated_address(0),
        RequiresIndexedAddress { .. } => it.resume_with_indexed_address(0),
        RequiresAtLocation(_) => it.resume_with_at_location(nop.clone()),
        RequiresBaseType(_) => it.resume_with_base_type(ValueType::U8),
    }
}

/// Evaluates with as many operations, and expects the end after as many answers at most.
fn assert_ends(text: &[u8], encoding: Encoding, maximum: u32) {
    let order = ours::order_of(encoding);
    let nop = EndianSlice::new(&[0x96], order);
    let mut it = Evaluation::new(EndianSlice::new(text, order), ours::encoding_of(encoding));
    it.set_max_iterations(maximum);
    let mut reply = it.evaluate();
    for _ in 0..maximum {
        let Ok(request) = reply else { break };
        reply = answered(&mut it, request, &nop);
    }
    assert!(matches!(it.status(), Status::Complete | Status::Failed(_)), "{text:x?}");
}

#[test]
fn each_text_of_at_most_two_bytes_ends() {
    let encoding = Encoding { address_size: 4, is_dwarf64: false, version: 4, is_big_endian: false };
    let bytes = || 0..=u8::MAX;
    let texts = bytes().flat_map(|first| bytes().map(move |second| vec![first, second]));
    let texts: Vec<_> = texts.chain(bytes().map(|byte| vec![byte])).chain([vec![]]).collect();
    assert_eq!(texts.len(), 65_793);
    texts.iter().for_each(|text| assert_ends(text, encoding, 16));
}

/// A case's texts: its own, and those that answer calls.
fn texts(case: &Case) -> Vec<&[u8]> {
    let called = case
        .steps
        .iter()
        .flatten()
        .filter_map(|it| if let Step::AtLocation(text) = it { Some(&text[..]) } else { None });
    called.chain([&case.bytes[..]]).collect()
}

#[test]
fn each_front_of_a_text_ends() {
    let (cases, decodings) = (cases(), decodings());
    let of_cases = cases.iter().flat_map(|case| texts(case).into_iter().map(|text| (text, case.encoding)));
    let of_decodings = decodings.iter().map(|row| (&row.bytes[..], row.encoding));
    // Cutting off a long text takes too long.
    for (text, encoding) in of_cases.chain(of_decodings).filter(|it| it.0.len() <= 1000) {
        for front in (0..=text.len()).map(|length| &text[..length]) {
            let bytes = EndianSlice::new(front, ours::order_of(encoding));
            let items = Expression(bytes).operations(ours::encoding_of(encoding)).take(front.len() + 1);
            assert!(items.count() <= front.len(), "{front:x?}");
            assert_ends(front, encoding, 1000);
        }
    }
}
