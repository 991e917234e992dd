//! Expressions with floating point, which gimli evaluates.

use super::{GimliReader, gimli};
use crate::EvaluationResult::{self, *};
use crate::{Error, Evaluation, Piece, Value, ValueType};
use alloc::format;
use alloc::vec::Vec;
use core::convert;

/// What an evaluation is given before it starts.
#[derive(Clone, Copy, Debug, Default, PartialEq, Eq, Hash)]
pub struct Settings {
    /// The value with which the stack starts.
    pub initial_value: Option<u64>,
    /// The address of the described object.
    pub object_address: Option<u64>,
    /// The maximum number of operations. Without one, an expression that loops takes minutes.
    pub max_iterations: Option<u32>,
}

/// The answer to a request.
#[derive(Clone, Debug, PartialEq)]
pub enum Answer<R> {
    /// To `RequiresMemory`, `RequiresRegister`, `RequiresEntryValue` and those of WebAssembly: the content or value.
    Value(gimli::Value),
    /// To `RequiresFrameBase`, `RequiresTls`, `RequiresCallFrameCfa`, `RequiresParameterRef`,
    /// `RequiresRelocatedAddress` and `RequiresIndexedAddress`: the address or number.
    Address(u64),
    /// To `RequiresAtLocation`: the expression of the entry, which is empty if it has none.
    Expression(R),
    /// To `RequiresBaseType`: the type, as `gimli::ValueType::from_encoding` gives it.
    BaseType(gimli::ValueType),
}

impl<R> Answer<R> {
    fn is_float(&self) -> bool {
        use gimli::{Value, ValueType};
        matches!(self, Answer::Value(Value::F32(_) | Value::F64(_)) | Answer::BaseType(ValueType::F32 | ValueType::F64))
    }
}

/// What an expression gives, and which crate evaluated it.
#[derive(Debug)]
pub enum Outcome<R: gimli::Reader> {
    /// This crate did.
    Here {
        /// The pieces.
        pieces: Vec<Piece<GimliReader<R>>>,
        /// The value on top of the stack; `None` if there are pieces or a location instead.
        value: Option<Value>,
    },
    /// An answer was a floating-point value or type, so gimli did. Nothing is proved of this.
    InGimli {
        /// The pieces.
        pieces: Vec<gimli::Piece<R>>,
        /// The value on top of the stack; `None` if there are pieces or a location instead.
        value: Option<gimli::Value>,
    },
}

impl<R: gimli::Reader> Outcome<R> {
    /// The pieces in gimli's form, whichever crate gave them.
    pub fn into_pieces(self) -> Vec<gimli::Piece<R>> {
        match self {
            Outcome::Here { pieces, .. } => pieces.into_iter().map(gimli::Piece::from).collect(),
            Outcome::InGimli { pieces, .. } => pieces,
        }
    }
}

/// Makes the settings of an evaluation of either crate.
macro_rules! set {
    ($it:ident, $settings:expr) => {
        let Settings { initial_value, object_address, max_iterations } = $settings;
        initial_value.into_iter().for_each(|value| $it.set_initial_value(value));
        object_address.into_iter().for_each(|value| $it.set_object_address(value));
        max_iterations.into_iter().for_each(|value| $it.set_max_iterations(value));
    };
}

/// Makes the resume that answers a request, on an evaluation of either crate.
macro_rules! resume {
    ($it:ident, $request:expr, $answer:expr, $value:expr, $reader:expr, $base_type:expr, $wasm:expr) => {
        match ($request, $answer) {
            (RequiresMemory { .. }, Answer::Value(it)) => $it.resume_with_memory($value(it)?)?,
            (RequiresRegister { .. }, Answer::Value(it)) => $it.resume_with_register($value(it)?)?,
            (RequiresEntryValue(_), Answer::Value(it)) => $it.resume_with_entry_value($value(it)?)?,
            (RequiresWasmLocal { .. } | RequiresWasmGlobal { .. } | RequiresWasmStack { .. }, Answer::Value(it)) => {
                $wasm($value(it)?)?
            }
            (RequiresFrameBase, Answer::Address(it)) => $it.resume_with_frame_base(it)?,
            (RequiresTls(_), Answer::Address(it)) => $it.resume_with_tls(it)?,
            (RequiresCallFrameCfa, Answer::Address(it)) => $it.resume_with_call_frame_cfa(it)?,
            (RequiresParameterRef(_), Answer::Address(it)) => $it.resume_with_parameter_ref(it)?,
            (RequiresRelocatedAddress(_), Answer::Address(it)) => $it.resume_with_relocated_address(it)?,
            (RequiresIndexedAddress { .. }, Answer::Address(it)) => $it.resume_with_indexed_address(it)?,
            (RequiresAtLocation(_), Answer::Expression(it)) => $it.resume_with_at_location($reader(it))?,
            (RequiresBaseType(_), Answer::BaseType(it)) => $it.resume_with_base_type($base_type(it)?)?,
            (request, _) => panic!("`evaluate_with_floats` was given an answer that doesn't fit {request:?}"),
        }
    };
}

/// Each request so far, with its answer.
type Answered<R> = Vec<(EvaluationResult<GimliReader<R>>, Answer<R>)>;

/// Evaluates an expression here. If an answer is a floating-point value or type, gimli evaluates the expression
/// instead, from its start and with the same answers, and goes on to ask. `answer` is called once for each request; if
/// gimli asks for something else than this crate did before, also for that. `S` is where gimli keeps its lists, such as
/// `gimli::StoreOnHeap`.
///
/// What gimli evaluates isn't proved, and [`Outcome`] says which of the two it was. The answers are kept on the heap:
/// if memory for them is refused, the process ends, as at any push on a `Vec`.
///
/// ```
/// # #[cfg(feature = "gimli")] {
/// # use gimli_0_34 as gimli;
/// use dwexpr::EvaluationResult::{RequiresBaseType, RequiresRegister};
/// use dwexpr::gimli_0_34::{Answer, Outcome, Settings, evaluate_with_floats};
///
/// let encoding = gimli::Encoding { address_size: 8, format: gimli::Format::Dwarf32, version: 5 };
/// // Register 17 as a value of the type at 0x20, and DW_OP_stack_value.
/// let expression = gimli::EndianSlice::new(&[0xa5, 17, 0x20, 0x9f], gimli::LittleEndian);
/// let settings = Settings { max_iterations: Some(100_000), ..Settings::default() };
/// let answer = |request| match request {
///     RequiresRegister { .. } => Ok(Answer::Value(gimli::Value::F64(1.5))),
///     RequiresBaseType(_) => Ok(Answer::BaseType(gimli::ValueType::F64)),
///     _ => Err(gimli::Error::UnsupportedEvaluation),
/// };
/// let outcome = evaluate_with_floats::<gimli::StoreOnHeap, _, _>(expression, encoding, settings, answer)?;
/// assert!(matches!(outcome, Outcome::InGimli { .. }));
/// let value = gimli::Value::F64(1.5);
/// assert_eq!(outcome.into_pieces()[0].location, gimli::Location::Value { value });
/// # }
/// # Ok::<(), gimli_0_34::Error>(())
/// ```
///
/// # Errors
///
/// Those of [`Evaluation::evaluate`], of gimli's evaluation, and of `answer`.
///
/// # Panics
///
/// If an answer doesn't fit its request.
pub fn evaluate_with_floats<S, R, E>(
    bytecode: R,
    encoding: gimli::Encoding,
    settings: Settings,
    mut answer: impl FnMut(EvaluationResult<GimliReader<R>>) -> Result<Answer<R>, E>,
) -> Result<Outcome<R>, E>
where
    S: gimli::EvaluationStorage<R>,
    R: gimli::Reader,
    E: From<Error> + From<gimli::Error>,
{
    let mut it = Evaluation::new(GimliReader(bytecode.clone()), encoding.into());
    set!(it, settings);
    let mut answered = Answered::new();
    let mut request = it.evaluate()?;
    while !matches!(request, Complete) {
        let given = answer(request.clone())?;
        if given.is_float() {
            answered.push((request, given));
            return evaluate_in_gimli::<S, R, E>(bytecode, encoding, settings, answered, answer);
        }
        let next = resume_here(&mut it, &request, given.clone())?;
        answered.push((request, given));
        request = next;
    }
    Ok(Outcome::Here { value: it.value_result(), pieces: it.try_result()? })
}

fn resume_here<R: gimli::Reader>(
    it: &mut Evaluation<GimliReader<R>>,
    request: &EvaluationResult<GimliReader<R>>,
    given: Answer<R>,
) -> crate::Result<EvaluationResult<GimliReader<R>>> {
    let next = resume!(it, request, given, Value::try_from, GimliReader, ValueType::try_from, |value| {
        it.resume_with_wasm_value(value)
    });
    Ok(next)
}

/// Evaluates in gimli. An answer is used again if gimli asks for the same as this crate did; from the first request
/// that is another one, each is asked anew.
#[allow(clippy::unnecessary_fallible_conversions, reason = "it can fail in another version")]
fn evaluate_in_gimli<S, R, E>(
    bytecode: R,
    encoding: gimli::Encoding,
    settings: Settings,
    answered: Answered<R>,
    mut answer: impl FnMut(EvaluationResult<GimliReader<R>>) -> Result<Answer<R>, E>,
) -> Result<Outcome<R>, E>
where
    S: gimli::EvaluationStorage<R>,
    R: gimli::Reader,
    E: From<Error> + From<gimli::Error>,
{
    let mut it = gimli::Evaluation::<R, S>::new_in(bytecode, encoding);
    set!(it, settings);
    let mut known = answered.into_iter();
    let mut reply = it.evaluate()?;
    while !matches!(reply, gimli::EvaluationResult::Complete) {
        let request = EvaluationResult::try_from(reply).map_err(|_| Error::UnsupportedEvaluation)?;
        let given = if let Some((_, given)) = known.next().filter(|(before, _)| are_same(before, &request)) {
            given
        } else {
            known = Answered::new().into_iter();
            answer(request.clone())?
        };
        reply = resume_in_gimli(&mut it, &request, given)?;
    }
    Ok(Outcome::InGimli { value: it.value_result(), pieces: it.as_result().to_vec() })
}

/// Whether two requests are shown alike. Readers can't be compared otherwise.
fn are_same<R: gimli::Reader>(
    one: &EvaluationResult<GimliReader<R>>,
    other: &EvaluationResult<GimliReader<R>>,
) -> bool {
    format!("{one:?}") == format!("{other:?}")
}

fn resume_in_gimli<R: gimli::Reader, S: gimli::EvaluationStorage<R>>(
    it: &mut gimli::Evaluation<R, S>,
    request: &EvaluationResult<GimliReader<R>>,
    given: Answer<R>,
) -> gimli::Result<gimli::EvaluationResult<R>> {
    let (value, base_type) = (Ok::<_, gimli::Error>, Ok::<_, gimli::Error>);
    let next = resume!(
        it,
        request,
        given,
        value,
        convert::identity,
        base_type,
        if_all_have_names!({ |value| it.resume_with_wasm_value(value) } else {
            |_| Err(gimli::Error::UnsupportedEvaluation)
        })
    );
    Ok(next)
}
