//! The macros that implement the suite's trait for a crate with gimli's names.

/// Functions from the suite's types and values to a crate's, and back.
#[doc(hidden)]
#[macro_export]
macro_rules! same_types {
    ($library:ident: $($name:ident)+) => {
        pub fn type_of(value_type: $crate::ValueType) -> $library::ValueType {
            match value_type {
                $($crate::ValueType::$name => $library::ValueType::$name,)+
            }
        }

        pub fn value_of(value: $crate::Value) -> $library::Value {
            match value {
                $($crate::Value::$name(value) => $library::Value::$name(value),)+
            }
        }

        #[allow(unreachable_patterns)]
        pub fn plain(value: $library::Value) -> $crate::Value {
            match value {
                $($library::Value::$name(value) => $crate::Value::$name(value),)+
                other => panic!("{other:?} in a row without floating point"),
            }
        }
    };
}

/// Implements [`Implementation`](crate::Implementation) for a crate with the names of gimli 0.34, in a module: its
/// `Over` takes a function that makes a reader of bytes in a byte order.
#[macro_export]
macro_rules! implementation {
    ($module:ident = $library:ident) => {
        /// Runs the suite's rows.
        #[allow(dead_code)]
        mod $module {
            use std::fmt::{Debug, Display};
            use std::panic::{AssertUnwindSafe, catch_unwind};
            use $library::{
                DebugInfoOffset, DieReference, Encoding, Evaluation, EvaluationResult, EvaluationStorage, Expression,
                Format, Location, Operation, Piece, Reader, ReaderOffset, Result, RunTimeEndian, UnitOffset, Value,
            };

            /// The maximum number of operations, if no step sets it.
            const MAXIMUM: u32 = 1_000_000;

            /// Reads bytes by a function.
            pub struct Over<F>(pub F);

            pub fn encoding_of(encoding: $crate::Encoding) -> Encoding {
                let format = if encoding.is_dwarf64 { Format::Dwarf64 } else { Format::Dwarf32 };
                Encoding { address_size: encoding.address_size, format, version: encoding.version }
            }

            pub fn order_of(encoding: $crate::Encoding) -> RunTimeEndian {
                if encoding.is_big_endian { RunTimeEndian::Big } else { RunTimeEndian::Little }
            }

            $crate::same_types!($library: Generic I8 U8 I16 U16 I32 U32 I64 U64);

            /// A fault: its name, and the number in it, if that isn't the identifier of a place.
            pub fn fault(error: impl Debug) -> String {
                let shown = format!("{error:?}");
                let (name, inside) = shown.split_once('(').unwrap_or((&shown, ""));
                let number: String = inside.chars().filter(char::is_ascii_digit).collect();
                if name == "UnexpectedEof" || number.is_empty() { name.into() } else { format!("{name} {number}") }
            }

            fn bytes_of<R: Reader>(mut reader: R) -> Vec<u8> {
                std::iter::from_fn(|| reader.read_u8().ok()).collect()
            }

            fn digits(bytes: &[u8]) -> String {
                if bytes.is_empty() { "-".into() } else { bytes.iter().map(|byte| format!("{byte:02x}")).collect() }
            }

            fn or_none(number: Option<impl Display>) -> String {
                number.map_or("none".into(), |it| it.to_string())
            }

            fn reference<O: ReaderOffset>(reference: DieReference<O>) -> String {
                match reference {
                    DieReference::UnitRef(UnitOffset(offset)) => format!("unit {}", offset.into_u64()),
                    DieReference::DebugInfoRef(DebugInfoOffset(offset)) => format!("info {}", offset.into_u64()),
                }
            }

            /// The line of a reply.
            fn reply_line<R: Reader>(reply: Result<EvaluationResult<R>>) -> String {
                use EvaluationResult::*;
                match reply {
                    Err(error) => format!("fault {}\n", fault(error)),
                    Ok(Complete) => "complete\n".into(),
                    Ok(RequiresMemory { address, size, space, base_type }) => {
                        let space = or_none(space.map(|it| format!("{it:#x}")));
                        format!("memory {address:#x} {size} {space} {}\n", base_type.0.into_u64())
                    }
                    Ok(RequiresRegister { register, base_type }) => {
                        format!("register {} {}\n", register.0, base_type.0.into_u64())
                    }
                    Ok(RequiresWasmLocal { index }) => format!("wasm-local {index}\n"),
                    Ok(RequiresWasmGlobal { index }) => format!("wasm-global {index}\n"),
                    Ok(RequiresWasmStack { index }) => format!("wasm-stack {index}\n"),
                    Ok(RequiresFrameBase) => "frame-base\n".into(),
                    Ok(RequiresTls(offset)) => format!("tls {offset:#x}\n"),
                    Ok(RequiresCallFrameCfa) => "cfa\n".into(),
                    Ok(RequiresAtLocation(entry)) => format!("location {}\n", reference(entry)),
                    Ok(RequiresEntryValue(expression)) => format!("entry {}\n", digits(&bytes_of(expression.0))),
                    Ok(RequiresParameterRef(offset)) => format!("parameter {}\n", offset.0.into_u64()),
                    Ok(RequiresRelocatedAddress(address)) => format!("relocated {address:#x}\n"),
                    Ok(RequiresIndexedAddress { index, relocate }) => {
                        format!("indexed {} {}\n", index.0.into_u64(), if relocate { "relocate" } else { "keep" })
                    }
                    Ok(RequiresBaseType(offset)) => format!("type {}\n", offset.0.into_u64()),
                }
            }

            /// The line of a piece.
            fn piece_line<R: Reader>(piece: &Piece<R>) -> String {
                let location = match piece.location.clone() {
                    Location::Empty => "empty".into(),
                    Location::Register { register } => format!("register {}", register.0),
                    Location::Address { address } => format!("address {address:#x}"),
                    Location::Value { value } => format!("value {}", plain(value)),
                    Location::Bytes { value } => format!("bytes {}", digits(&bytes_of(value))),
                    Location::ImplicitPointer { value, byte_offset } => {
                        format!("pointer {} {byte_offset}", value.0.into_u64())
                    }
                };
                format!("piece {} {} {location}\n", or_none(piece.size_in_bits), or_none(piece.bit_offset))
            }

            /// Takes a step, which panics if it is out of turn. A setting has no reply.
            pub fn take<R: Reader, S: EvaluationStorage<R>>(
                it: &mut Evaluation<R, S>,
                step: &$crate::Step,
                read: impl Fn(&[u8]) -> R,
            ) -> Option<Result<EvaluationResult<R>>> {
                use $crate::Step;
                Some(match *step {
                    Step::InitialValue(value) => {
                        it.set_initial_value(value);
                        return None;
                    }
                    Step::ObjectAddress(address) => {
                        it.set_object_address(address);
                        return None;
                    }
                    Step::MaxIterations(maximum) => {
                        it.set_max_iterations(maximum);
                        return None;
                    }
                    Step::Evaluate => it.evaluate(),
                    Step::Memory(value) => it.resume_with_memory(value_of(value)),
                    Step::Register(value) => it.resume_with_register(value_of(value)),
                    Step::WasmValue(value) => it.resume_with_wasm_value(value_of(value)),
                    Step::EntryValue(value) => it.resume_with_entry_value(value_of(value)),
                    Step::FrameBase(address) => it.resume_with_frame_base(address),
                    Step::Tls(address) => it.resume_with_tls(address),
                    Step::CallFrameCfa(address) => it.resume_with_call_frame_cfa(address),
                    Step::ParameterRef(value) => it.resume_with_parameter_ref(value),
                    Step::RelocatedAddress(address) => it.resume_with_relocated_address(address),
                    Step::IndexedAddress(address) => it.resume_with_indexed_address(address),
                    Step::AtLocation(ref bytes) => it.resume_with_at_location(read(bytes)),
                    Step::BaseType(value_type) => it.resume_with_base_type(type_of(value_type)),
                })
            }

            /// The lines of an evaluation: each reply, up to a step out of turn, and the final pieces and value.
            pub fn evaluation_lines<R: Reader, S: EvaluationStorage<R>>(
                it: &mut Evaluation<R, S>,
                steps: &[$crate::Step],
                read: impl Fn(&[u8]) -> R,
            ) -> String {
                it.set_max_iterations(MAXIMUM);
                let (mut lines, mut is_complete) = (String::new(), false);
                for (index, step) in steps.iter().enumerate() {
                    match catch_unwind(AssertUnwindSafe(|| take(it, step, &read))) {
                        Ok(Some(reply)) => {
                            is_complete = matches!(reply, Ok(EvaluationResult::Complete));
                            lines += &reply_line(reply);
                        }
                        Ok(None) => {}
                        Err(_) => return lines + &format!("misplaced {}\n", index + 1),
                    }
                }
                if is_complete {
                    lines.extend(it.as_result().iter().map(piece_line));
                    lines += &format!("value {}\n", or_none(it.value_result().map(plain)));
                }
                lines
            }

            fn fields_of<R: Reader>(operation: Operation<R>) -> Vec<(&'static str, String)> {
                use Operation::*;
                let number = |name, number: &dyn Display| (name, number.to_string());
                let place = |name, offset: R::Offset| (name, offset.into_u64().to_string());
                let block = |bytes: R| ("block", format!("{:x?}", bytes_of(bytes)));
                match operation {
                    Deref { size, base_type, space } => vec![
                        number("deref_size", &size),
                        place("base_type", base_type.0),
                        number("flag", &u8::from(space)),
                    ],
                    Pick { index } => vec![number("number", &index)],
                    PlusConstant { value } | UnsignedConstant { value } => vec![number("number", &value)],
                    SignedConstant { value } => vec![number("signed_number", &value)],
                    Bra { target } | Skip { target } => vec![number("signed_number", &target)],
                    Register { register } => vec![number("register_number", &register.0)],
                    RegisterOffset { register, offset, base_type } => vec![
                        number("register_number", &register.0),
                        number("signed_number", &offset),
                        place("base_type", base_type.0),
                    ],
                    FrameOffset { offset } => vec![number("signed_number", &offset)],
                    Call { offset: DieReference::UnitRef(offset) } => vec![place("number", offset.0)],
                    Call { offset: DieReference::DebugInfoRef(offset) } => {
                        vec![place("number", offset.0), number("flag", &1)]
                    }
                    Piece { size_in_bits, bit_offset } => vec![
                        number("number", &size_in_bits),
                        number("flag", &u8::from(bit_offset.is_some())),
                        number("detail", &bit_offset.unwrap_or(0)),
                    ],
                    ImplicitValue { data } => vec![block(data)],
                    EntryValue { expression } => vec![block(expression)],
                    ImplicitPointer { value, byte_offset } => {
                        vec![place("number", value.0), number("signed_number", &byte_offset)]
                    }
                    ParameterRef { offset } => vec![place("number", offset.0)],
                    VariableValue { offset } => vec![place("number", offset.0)],
                    Address { address } => vec![number("number", &address)],
                    AddressIndex { index } | ConstantIndex { index } => vec![place("number", index.0)],
                    TypedLiteral { base_type, value } => vec![place("base_type", base_type.0), block(value)],
                    Convert { base_type } | Reinterpret { base_type } => vec![place("base_type", base_type.0)],
                    WasmLocal { index } | WasmGlobal { index } | WasmStack { index } => vec![number("number", &index)],
                    // The name says which it is.
                    _ => vec![],
                }
            }

            /// The first word of what is shown, which isn't shown further.
            struct FirstWord(String);

            impl std::fmt::Write for FirstWord {
                fn write_str(&mut self, shown: &str) -> std::fmt::Result {
                    let word = shown.split([' ', '{', '(']).next().unwrap_or_default();
                    self.0 += word;
                    if word == shown { Ok(()) } else { Err(std::fmt::Error) }
                }
            }

            /// The name of an operation.
            fn name_of<R: Reader>(operation: &Operation<R>) -> String {
                let mut name = FirstWord(String::new());
                let _ = std::fmt::write(&mut name, format_args!("{operation:?}"));
                name.0
            }

            /// Decodes the first operation.
            pub fn decoded<R: Reader>(
                mut rest: R,
                encoding: Encoding,
            ) -> std::result::Result<$crate::Operation, String> {
                let before = rest.len().into_u64();
                let operation = Operation::parse(&mut rest, encoding).map_err(fault)?;
                let name = name_of(&operation);
                let fields = fields_of(operation).into_iter().filter(|it| it.1 != "0").collect();
                Ok($crate::Operation { name, fields, length: (before - rest.len().into_u64()) as usize })
            }

            fn unary(name: &str) -> fn(Value, u64) -> Result<Value> {
                match name {
                    "abs" => Value::abs,
                    "neg" => Value::neg,
                    _ => Value::not,
                }
            }

            fn binary(name: &str) -> fn(Value, Value, u64) -> Result<Value> {
                match name {
                    "add" => Value::add,
                    "and" => Value::and,
                    "div" => Value::div,
                    "eq" => Value::eq,
                    "ge" => Value::ge,
                    "gt" => Value::gt,
                    "le" => Value::le,
                    "lt" => Value::lt,
                    "mul" => Value::mul,
                    "ne" => Value::ne,
                    "or" => Value::or,
                    "rem" => Value::rem,
                    "shl" => Value::shl,
                    "shr" => Value::shr,
                    "shra" => Value::shra,
                    "sub" => Value::sub,
                    "xor" => Value::xor,
                    _ => panic!("there is no call {name}"),
                }
            }

            impl<R: Reader, F: Fn(&'static [u8], RunTimeEndian) -> R> Over<F> {
                /// A reader of bytes that are never freed; a test is short.
                fn read(&self, bytes: &[u8], encoding: $crate::Encoding) -> R {
                    self.0(bytes.to_vec().leak(), order_of(encoding))
                }
            }

            impl<R: Reader, F: Fn(&'static [u8], RunTimeEndian) -> R> $crate::Implementation for Over<F> {
                const OFFSET_BITS: u32 = 8 * size_of::<R::Offset>() as u32;

                fn evaluate(&self, bytes: &[u8], encoding: $crate::Encoding, steps: &[$crate::Step]) -> String {
                    let mut it = Evaluation::new(self.read(bytes, encoding), encoding_of(encoding));
                    evaluation_lines(&mut it, steps, |bytes| self.read(bytes, encoding))
                }

                fn list(&self, bytes: &[u8], encoding: $crate::Encoding) -> String {
                    let whole = Expression(self.read(bytes, encoding));
                    let mut operations = Expression(whole.0.clone()).operations(encoding_of(encoding));
                    let (mut lines, mut place) = (String::new(), 0);
                    loop {
                        match operations.next() {
                            Ok(None) => return lines,
                            Err(error) => return lines + &format!("{place} fault {}\n", fault(error)),
                            Ok(Some(operation)) => {
                                let end = operations.offset_from(&whole).into_u64() as usize;
                                let name = name_of(&operation);
                                lines += &format!("{place} {} {name}\n", digits(&bytes[place..end]));
                                place = end;
                            }
                        }
                    }
                }

                fn decode(
                    &self,
                    bytes: &[u8],
                    encoding: $crate::Encoding,
                ) -> std::result::Result<$crate::Operation, String> {
                    decoded(self.read(bytes, encoding), encoding_of(encoding))
                }

                fn compute(&self, call: &$crate::Call) -> std::result::Result<$crate::Value, String> {
                    let result = match call {
                        $crate::Call::Unary { name, value, mask } => unary(name)(value_of(*value), *mask),
                        $crate::Call::Binary { name, left, right, mask } => {
                            binary(name)(value_of(*left), value_of(*right), *mask)
                        }
                        $crate::Call::Convert { name, value, value_type, mask } => {
                            let convert = if name == "convert" { Value::convert } else { Value::reinterpret };
                            convert(value_of(*value), type_of(*value_type), *mask)
                        }
                        $crate::Call::Parse { value_type, bytes } => {
                            Value::parse(type_of(*value_type), self.0(bytes.clone().leak(), RunTimeEndian::Little))
                        }
                    };
                    result.map(plain).map_err(fault)
                }
            }
        }
    };
}
