//! Macros that pass all operations, replies, resumes and errors to another macro.

/// Passes all operations with their fields to a macro; after `@` are those that gimli 0.32 lacks. A name in brackets
/// is a reader.
macro_rules! operations {
    ($macro:ident) => {
        $macro! { Operation:
            Deref { base_type size space }, Drop, Pick { index }, Swap, Rot, Abs, And, Div, Minus, Mod, Mul, Neg, Not,
            Or, Plus, PlusConstant { value }, Shl, Shr, Shra, Xor, Bra { target }, Eq, Ge, Gt, Le, Lt, Ne,
            Skip { target }, UnsignedConstant { value }, SignedConstant { value }, Register { register },
            RegisterOffset { register offset base_type }, FrameOffset { offset }, Nop, PushObjectAddress,
            Call { offset }, TLS, CallFrameCFA, Piece { size_in_bits bit_offset },
            ImplicitValue [data], StackValue, ImplicitPointer { value byte_offset }, EntryValue [expression],
            ParameterRef { offset }, Address { address }, AddressIndex { index }, ConstantIndex { index },
            TypedLiteral { base_type } [value], Convert { base_type }, Reinterpret { base_type }, WasmLocal { index },
            WasmGlobal { index }, WasmStack { index },
            @ VariableValue { offset }, Uninitialized,
        }
    };
}

/// Passes all replies of an evaluation to a macro, with the fields of each; after `@` are those that gimli
/// 0.32 lacks.
macro_rules! replies {
    ($macro:ident) => {
        $macro! { EvaluationResult:
            Complete, RequiresMemory { address size space base_type }, RequiresRegister { register base_type },
            RequiresFrameBase, RequiresTls(x), RequiresCallFrameCfa, RequiresAtLocation(x), RequiresEntryValue(x),
            RequiresParameterRef(x), RequiresRelocatedAddress(x), RequiresIndexedAddress { index relocate },
            RequiresBaseType(x),
            @ RequiresWasmLocal { index }, RequiresWasmGlobal { index }, RequiresWasmStack { index },
        }
    };
}

/// Passes all resumes to a macro, each with the kind of request that has to be open.
macro_rules! resumes {
    ($macro:ident) => {
        $macro! {
            /// Answers `RequiresMemory` with the contents of memory.
            resume_with_memory resume_with_memory_unchecked(value: Value) for Memory;
            /// Answers `RequiresRegister` with the contents of the register.
            resume_with_register resume_with_register_unchecked(value: Value) for Register;
            /// Answers `RequiresWasmLocal`, `RequiresWasmGlobal` or `RequiresWasmStack`.
            resume_with_wasm_value resume_with_wasm_value_unchecked(value: Value) for WasmValue;
            /// Answers `RequiresFrameBase` with the frame base.
            resume_with_frame_base resume_with_frame_base_unchecked(frame_base: u64) for FrameBase;
            /// Answers `RequiresTls` with the address in thread-local storage.
            resume_with_tls resume_with_tls_unchecked(value: u64) for Tls;
            /// Answers `RequiresCallFrameCfa` with the canonical frame address.
            resume_with_call_frame_cfa resume_with_call_frame_cfa_unchecked(cfa: u64) for CallFrameCfa;
            /// Answers `RequiresAtLocation` with the expression to evaluate in place of the call; it is empty if the
            /// entry has none. It is read in its own byte order.
            resume_with_at_location resume_with_at_location_unchecked(bytes: R) for AtLocation;
            /// Answers `RequiresEntryValue` with the value of the expression at the function's entry.
            resume_with_entry_value resume_with_entry_value_unchecked(entry_value: Value) for EntryValue;
            /// Answers `RequiresParameterRef` with the value of the parameter.
            resume_with_parameter_ref resume_with_parameter_ref_unchecked(parameter_value: u64) for ParameterRef;
            /// Answers `RequiresRelocatedAddress` with the relocated address.
            resume_with_relocated_address resume_with_relocated_address_unchecked(address: u64) for RelocatedAddress;
            /// Answers `RequiresIndexedAddress` with the address or the constant at the index.
            resume_with_indexed_address resume_with_indexed_address_unchecked(address: u64) for IndexedAddress;
            /// Answers `RequiresBaseType` with the base type.
            resume_with_base_type resume_with_base_type_unchecked(base_type: ValueType) for BaseType;
        }
    };
}

/// Passes all errors to a macro, each with its message; after `@` is the one that gimli 0.32 lacks.
macro_rules! errors {
    ($macro:ident) => {
        $macro! { Error:
            UnexpectedEof(x) "the bytes end within an operation or a value";
            BadUnsignedLeb128 "an unsigned LEB128 number is too large";
            BadSignedLeb128 "a signed LEB128 number is too large";
            UnsupportedAddressSize(x) "an address can't have this size in bytes";
            UnsupportedOffset "an offset is too large";
            UnsupportedRegister(x) "a register's number is too large";
            InvalidExpression(x) "the opcode is unknown";
            UnsupportedTypeOperation "the operation isn't defined for values of this type";
            TypeMismatch "two values have different types";
            DivisionByZero "division by zero";
            InvalidShiftExpression "shift by a negative number";
            NotEnoughStackItems "a value is missing on the stack";
            InvalidDerefSize(x) "a dereference is larger than an address";
            InvalidPushObjectAddress "no object address is set";
            UnsupportedEvaluation "the operation can be decoded, but not evaluated";
            BadBranchTarget(x) "a branch leaves the expression";
            TooManyIterations "the maximum of operations is reached";
            InvalidPiece "the last piece is missing";
            InvalidExpressionTerminator(x) "a location is followed by another operation than a piece";
            StackFull "a list is full, or memory is refused";
            @ InvalidPieceSize(x) "a piece of this size in bytes is too large";
        }
    };
}
