//! The calls of an evaluation that have a precondition. Each checks it, and then makes the sources' call.

use crate::sources::eval::eval::{Evaluation, Status, WaitingKind};
use crate::sources::eval::store::List as _;
use crate::storage::{ArrayLike, EvaluationStorage};
use crate::{Encoding, Error, EvaluationResult, Format, Piece, Reader, Result, Value, ValueType};
use core::fmt;
use core::mem::needs_drop;

/// Whether the sources' calls accept an encoding. If not, they get `PLACEHOLDER` instead.
#[inline]
fn is_taken(encoding: Encoding) -> bool {
    matches!(encoding.address_size, 1..=8)
}

const PLACEHOLDER: Encoding = Encoding { address_size: 8, format: Format::Dwarf32, version: 5 };

impl<R: Reader, S: EvaluationStorage<R>> Evaluation<R, S> {
    /// A fresh evaluation of `bytecode`, over empty lists. In [`StoreInSlices`](crate::StoreInSlices) the lists have no
    /// room: use [`with_lists`](Self::with_lists).
    #[inline]
    pub fn new_in(bytecode: R, encoding: Encoding) -> Self {
        Evaluation::with_lists(
            bytecode,
            encoding,
            S::Stack::new_list(),
            S::ExpressionStack::new_list(),
            S::Result::new_list(),
        )
    }

    /// A fresh evaluation of `bytecode`, over the caller's lists. gimli has no such call.
    ///
    /// ```
    /// use dwexpr::{EndianSlice, Encoding, Evaluation, Format, LittleEndian, Piece, SliceVec, StoreInSlices, Value};
    ///
    /// let encoding = Encoding { address_size: 8, format: Format::Dwarf32, version: 5 };
    /// let bytes = EndianSlice::new(&[0x35], LittleEndian); // DW_OP_lit5
    /// let (mut values, mut pieces) = ([Value::default(); 8], [Piece::default(); 1]);
    /// let mut evaluation = Evaluation::<_, StoreInSlices>::with_lists(
    ///     bytes,
    ///     encoding,
    ///     SliceVec::new(&mut values),
    ///     SliceVec::new(&mut []), // no calls
    ///     SliceVec::new(&mut pieces),
    /// );
    /// evaluation.evaluate().unwrap();
    /// assert_eq!(evaluation.value_result(), Some(Value::Generic(5)));
    /// ```
    ///
    /// # Panics
    ///
    /// If a list isn't empty.
    #[inline]
    #[track_caller]
    pub fn with_lists(
        bytecode: R,
        encoding: Encoding,
        stack: <S::Stack as ArrayLike>::List,
        expression_stack: <S::ExpressionStack as ArrayLike>::List,
        result: <S::Result as ArrayLike>::List,
    ) -> Self {
        let is_empty = stack.len() == 0 && expression_stack.len() == 0 && result.len() == 0;
        assert!(is_empty, "`Evaluation::with_lists` was handed a list that isn't empty");
        if is_taken(encoding) {
            return Evaluation::new_in_unchecked(bytecode, encoding, stack, expression_stack, result.into());
        }
        let mut evaluation =
            Evaluation::new_in_unchecked(bytecode, PLACEHOLDER, stack, expression_stack, result.into());
        evaluation.refuse(encoding);
        evaluation
    }

    /// Makes the evaluation fail with `UnsupportedAddressSize`, since the sources' calls don't accept the encoding.
    #[cold]
    #[inline(never)]
    fn refuse(&mut self, encoding: Encoding) {
        self.machine.fail(Error::UnsupportedAddressSize(encoding.address_size));
    }

    /// Makes this a fresh evaluation of another `bytecode`, over the same lists, which keep their memory. It may be
    /// called at any time, also after a fault. Every setting is unset. gimli has no such call.
    ///
    /// It drops all readers that the evaluation had. A lent list ([`SliceVec`](crate::SliceVec)) keeps popped readers in
    /// its slots. So if readers need to be dropped, each slot is overwritten: a caller's with clones of `bytecode`, and
    /// a piece's with an empty piece.
    ///
    /// ```
    /// # #[cfg(feature = "alloc")] {
    /// use dwexpr::{EndianSlice, Encoding, Error, Evaluation, Format, LittleEndian, Value};
    ///
    /// let encoding = Encoding { address_size: 8, format: Format::Dwarf32, version: 5 };
    /// let little = |bytes| EndianSlice::new(bytes, LittleEndian);
    /// // DW_OP_plus without values, DW_OP_lit5, and DW_OP_lit1 with DW_OP_neg.
    /// let mut evaluation = Evaluation::new(little(&[0x22]), encoding);
    /// assert_eq!(evaluation.evaluate(), Err(Error::NotEnoughStackItems));
    /// for (bytes, value) in [(&[0x35][..], 5), (&[0x31, 0x1f], u64::MAX)] {
    ///     evaluation.restart(little(bytes), encoding);
    ///     evaluation.evaluate()?;
    ///     assert_eq!(evaluation.value_result(), Some(Value::Generic(value)));
    /// }
    /// # }
    /// # Ok::<(), dwexpr::Error>(())
    /// ```
    #[inline]
    pub fn restart(&mut self, bytecode: R, encoding: Encoding) {
        if const { needs_drop::<R>() && (S::ExpressionStack::KEEPS_POPPED || S::Result::KEEPS_POPPED) } {
            self.overwrite_slots(&bytecode);
        }
        if is_taken(encoding) {
            return self.restart_unchecked(bytecode, encoding);
        }
        self.restart_unchecked(bytecode, PLACEHOLDER);
        self.refuse(encoding);
    }

    /// Overwrites each slot of the lists that keep popped readers: fills them with callers that are clones of `bytecode`,
    /// and with empty pieces. A restart has to follow, which empties the lists again.
    #[inline(never)]
    fn overwrite_slots(&mut self, bytecode: &R) {
        self.restart_unchecked(bytecode.clone(), PLACEHOLDER);
        if S::ExpressionStack::KEEPS_POPPED {
            while self.machine.push_caller(bytecode.clone()) {}
        }
        if S::Result::KEEPS_POPPED {
            while self.machine.push_piece(Piece::default()) {}
        }
    }

    /// Sets the value with which the stack starts: the object's address, for `DW_AT_data_member_location` and
    /// `DW_AT_vtable_elem_location`. If the encoding's addresses have 0 bytes or more than 8, it does nothing, however
    /// often it is called, since the evaluation has failed.
    ///
    /// # Panics
    ///
    /// If it was called before, or after `evaluate`, and addresses have 1 to 8 bytes.
    #[track_caller]
    pub fn set_initial_value(&mut self, value: u64) {
        match self.status() {
            Status::Start { initial: false } => self.set_initial_value_unchecked(value),
            Status::Failed(Error::UnsupportedAddressSize(0 | 9..)) => {}
            _ => panic!("`Evaluation::set_initial_value` was called twice, or after `evaluate`"),
        }
    }

    /// Evaluates from the start to the first request or to the end. After the end it gives `Complete` again.
    ///
    /// # Errors
    ///
    /// - Those of [`Operation::parse`](crate::Operation::parse), if the next operation is malformed.
    /// - Those of the methods of [`Value`] that it calls: `UnsupportedTypeOperation`, `TypeMismatch`, `DivisionByZero`,
    ///   `InvalidShiftExpression`.
    /// - `NotEnoughStackItems`, if the stack has too few values; also at the end, if there is neither a value nor a
    ///   location or piece.
    /// - `InvalidDerefSize`, if a dereference is wider than an address.
    /// - `InvalidPushObjectAddress`, if no object address is set.
    /// - `UnsupportedEvaluation`, at an operation that can only be decoded.
    /// - `BadBranchTarget`, if a branch leaves its expression.
    /// - `TooManyIterations`, if another operation follows after the maximum number of them.
    /// - `InvalidPiece`, if the last operation after pieces gives a value or a location that belongs to no piece.
    /// - `InvalidExpressionTerminator`, if an operation other than a piece follows a location.
    /// - `StackFull`, if a list is full or memory is refused.
    /// - `UnsupportedAddressSize`, if the encoding's addresses have 0 bytes or more than 8.
    ///
    /// # Panics
    ///
    /// If a request is open. Call its resume.
    #[cfg_attr(not(debug_assertions), inline(always))]
    #[track_caller]
    pub fn evaluate(&mut self) -> Result<EvaluationResult<R>> {
        if let Status::Waiting(kind) = self.status() {
            request_is_open(kind);
        }
        self.evaluate_unchecked()
    }

    /// The value on top of the stack of a complete evaluation; `None` if it has pieces or a location instead.
    ///
    /// # Panics
    ///
    /// If the evaluation isn't complete.
    #[inline]
    #[track_caller]
    pub fn value_result(&self) -> Option<Value> {
        self.assert_complete("value_result");
        self.value_result_unchecked()
    }

    /// The pieces of a complete evaluation.
    ///
    /// # Panics
    ///
    /// If the evaluation isn't complete.
    #[inline]
    #[track_caller]
    pub fn as_result(&self) -> &[Piece<R>] {
        self.assert_complete("as_result");
        self.as_result_unchecked()
    }

    #[inline]
    #[track_caller]
    pub(crate) fn assert_complete(&self, call: &str) {
        assert!(matches!(self.status(), Status::Complete), "`Evaluation::{call}` was called before the end");
    }
}

#[cold]
#[inline(never)]
#[track_caller]
fn request_is_open(kind: WaitingKind) -> ! {
    panic!("`Evaluation::evaluate` was called, and a request is open: {kind:?}");
}

#[cold]
#[inline(never)]
#[track_caller]
fn no_request_is_open(call: &str) -> ! {
    panic!("`Evaluation::{call}` was called, and no such request is open");
}

macro_rules! checked_resumes {
    ($($(#[$doc:meta])+ $name:ident $unchecked:ident($argument:ident: $type:ty) for $kind:ident;)+) => {
        impl<R: Reader, S: EvaluationStorage<R>> Evaluation<R, S> {
            $(
                $(#[$doc])+
                ///
                /// # Errors
                ///
                /// Those of [`evaluate`](Self::evaluate).
                ///
                /// # Panics
                ///
                /// If no such request is open, and there was no fault.
                #[cfg_attr(not(debug_assertions), inline(always))]
                #[track_caller]
                pub fn $name(&mut self, $argument: $type) -> Result<EvaluationResult<R>> {
                    if !self.is_open_for(WaitingKind::$kind) {
                        no_request_is_open(stringify!($name));
                    }
                    self.$unchecked($argument)
                }
            )+
        }
    };
}

resumes!(checked_resumes);

impl<R: Reader, S: EvaluationStorage<R>> fmt::Debug for Evaluation<R, S> {
    fn fmt(&self, f: &mut fmt::Formatter<'_>) -> fmt::Result {
        f.debug_struct("Evaluation").field("status", &self.status()).finish_non_exhaustive()
    }
}
