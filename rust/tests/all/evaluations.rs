//! Calls in and out of turn, and settings.

use super::{ENCODING, evaluation, little, panics};
use dwexpr::EvaluationResult::*;
use dwexpr::{
    Encoding, EndianSlice, Error, Evaluation, Expression, LittleEndian, Operation, Reader, RunTimeEndian, Status,
    Value, ValueType, WaitingKind,
};

#[test]
fn a_result_is_that_of_a_complete_evaluation() {
    let (not_begun, mut failed) = (evaluation(&[0x31]), evaluation(&[]));
    assert_eq!(failed.evaluate(), Err(Error::NotEnoughStackItems));
    for it in [not_begun, failed] {
        assert!(panics(|| it.value_result()) && panics(|| it.as_result().len()) && panics(|| it.try_result()));
    }
    assert!(panics(|| evaluation(&[0x31]).result()));
}

/// An expression that asks for each kind of answer.
const ASKING: [(WaitingKind, &[u8]); 12] = [
    (WaitingKind::Memory, &[0x31, 0x06]),
    (WaitingKind::Register, &[0x70, 0]),
    (WaitingKind::WasmValue, &[0xed, 0, 1]),
    (WaitingKind::EntryValue, &[0xa3, 1, 0x50]),
    (WaitingKind::FrameBase, &[0x91, 0]),
    (WaitingKind::Tls, &[0x31, 0x9b]),
    (WaitingKind::CallFrameCfa, &[0x9c]),
    (WaitingKind::ParameterRef, &[0xfa, 1, 0, 0, 0]),
    (WaitingKind::RelocatedAddress, &[0x03, 1, 0, 0, 0, 0, 0, 0, 0]),
    (WaitingKind::IndexedAddress, &[0xa1, 1]),
    (WaitingKind::AtLocation, &[0x31, 0x98, 1, 0]),
    (WaitingKind::BaseType, &[0x31, 0xa8, 1]),
];

type Little<'a> = EndianSlice<'a, LittleEndian>;
type Call = fn(&mut Evaluation<Little<'static>>);

/// Each resume, after the kind that it answers.
const RESUMES: [(WaitingKind, Call); 12] = [
    (WaitingKind::Memory, |it| _ = it.resume_with_memory(Value::Generic(1))),
    (WaitingKind::Register, |it| _ = it.resume_with_register(Value::Generic(1))),
    (WaitingKind::WasmValue, |it| _ = it.resume_with_wasm_value(Value::Generic(1))),
    (WaitingKind::EntryValue, |it| _ = it.resume_with_entry_value(Value::Generic(1))),
    (WaitingKind::FrameBase, |it| _ = it.resume_with_frame_base(1)),
    (WaitingKind::Tls, |it| _ = it.resume_with_tls(1)),
    (WaitingKind::CallFrameCfa, |it| _ = it.resume_with_call_frame_cfa(1)),
    (WaitingKind::ParameterRef, |it| _ = it.resume_with_parameter_ref(1)),
    (WaitingKind::RelocatedAddress, |it| _ = it.resume_with_relocated_address(1)),
    (WaitingKind::IndexedAddress, |it| _ = it.resume_with_indexed_address(1)),
    (WaitingKind::AtLocation, |it| _ = it.resume_with_at_location(little(&[]))),
    (WaitingKind::BaseType, |it| _ = it.resume_with_base_type(ValueType::Generic)),
];

/// The calls that no request allows.
const OTHERS: [Call; 5] = [
    |it| _ = it.evaluate(),
    |it| it.set_initial_value(1),
    |it| _ = it.value_result(),
    |it| _ = it.as_result().len(),
    |it| _ = std::mem::replace(it, evaluation(&[])).try_result(),
];

#[test]
fn a_request_allows_its_own_resume_alone() {
    for (kind, text) in ASKING {
        let asking = || {
            let mut it = evaluation(text);
            assert!(it.evaluate().is_ok_and(|reply| reply != Complete), "{kind:?}");
            assert_eq!(it.status(), Status::Waiting(kind));
            it
        };
        for (other, resume) in RESUMES {
            let mut it = asking();
            assert_eq!(it.is_open_for(other), other == kind, "{kind:?}, {other:?}");
            assert_eq!(panics(|| resume(&mut it)), other != kind, "{kind:?}, {other:?}");
            // The open request is still there, and its answer ends the evaluation.
            assert_eq!(it.status(), if other == kind { Status::Complete } else { Status::Waiting(kind) });
            // At the end, and before the start, no resume is in turn.
            let mut ended = asking();
            RESUMES.iter().filter(|it| it.0 == kind).for_each(|it| it.1(&mut ended));
            assert!(panics(|| resume(&mut ended)) && ended.status() == Status::Complete, "{kind:?}, {other:?}");
            assert!(panics(|| resume(&mut evaluation(text))), "{kind:?}, {other:?}");
        }
        for (at, call) in OTHERS.iter().enumerate() {
            assert!(panics(|| call(&mut asking())), "{kind:?}, call {at}");
        }
    }
}

/// No call that makes an evaluation sets a maximum: each can evaluate more than a million operations.
#[test]
fn an_unset_maximum_is_large() {
    // DW_OP_const4u 0x40000; then DW_OP_lit1, DW_OP_minus, DW_OP_dup, and DW_OP_bra back to the DW_OP_lit1.
    let countdown = little(&[0x0c, 0, 0, 0x04, 0, 0x31, 0x1c, 0x12, 0x28, 0xfa, 0xff]);
    let mut restarted = evaluation(&[]);
    restarted.set_max_iterations(0);
    restarted.restart(countdown, ENCODING);
    for mut it in [Expression(countdown).evaluation(ENCODING), restarted] {
        assert_eq!(it.evaluate(), Ok(Complete));
        assert_eq!(it.value_result(), Some(Value::Generic(0)));
    }
}

#[test]
fn an_address_has_1_to_8_bytes() {
    for address_size in [0, 9, 255] {
        let refused = Error::UnsupportedAddressSize(address_size);
        let mut it = Evaluation::new(little(&[0x31]), Encoding { address_size, ..ENCODING });
        for _ in 0..2 {
            it.set_object_address(1);
            it.set_initial_value(1);
            assert_eq!(it.status(), Status::Failed(refused));
            it.set_initial_value(1);
            assert_eq!((it.evaluate(), it.resume_with_tls(1)), (Err(refused), Err(refused)));
            assert!(panics(|| it.value_result()));
            it.restart(little(&[0x31]), ENCODING);
            assert_eq!(it.evaluate(), Ok(Complete));
            it.restart(little(&[0x31]), Encoding { address_size, ..ENCODING });
        }
    }
}

#[test]
fn a_called_expression_has_its_own_byte_order() {
    // DW_OP_call2, and DW_OP_const2u.
    let mut it = Evaluation::new(EndianSlice::new(&[0x98, 0, 5], RunTimeEndian::Big), ENCODING);
    assert!(matches!(it.evaluate(), Ok(RequiresAtLocation(_))));
    let called = EndianSlice::new(&[0x0a, 1, 2], RunTimeEndian::Little);
    assert_eq!(it.resume_with_at_location(called), Ok(Complete));
    assert_eq!(it.value_result(), Some(Value::Generic(0x0201)));
}

#[test]
fn an_evaluation_is_shown_and_crosses_threads() {
    /// gimli's bounds are enough.
    fn shown<R: Reader>(bytes: R) -> String {
        let mut it = Expression(bytes).evaluation(ENCODING);
        format!("{it:?}, {:?}", it.evaluate())
    }
    let thread = std::thread::spawn(|| evaluation(&[0x91, 0x6c]));
    let mut it = thread.join().unwrap();
    assert_eq!(format!("{it:?}, {:?}", it.evaluate()), shown(little(&[0x91, 0x6c])));
    assert_eq!(format!("{it:?}"), "Evaluation { status: Waiting(FrameBase), .. }");
}

/// docs/GUIDE.md gives these sizes.
#[test]
#[cfg(target_pointer_width = "64")]
fn an_evaluation_on_the_heap_takes_272_or_288_bytes() {
    assert_eq!(size_of::<Evaluation<EndianSlice<LittleEndian>>>(), 272);
    assert_eq!(size_of::<Evaluation<EndianSlice<RunTimeEndian>>>(), 288);
}

/// docs/DIFFERENCES.md gives these sizes.
#[test]
#[cfg(target_pointer_width = "64")]
fn an_operation_takes_32_or_40_bytes() {
    assert_eq!(size_of::<Operation<EndianSlice<LittleEndian>>>(), 32);
    assert_eq!(size_of::<Operation<EndianSlice<RunTimeEndian>>>(), 40);
}
