//! The rows and vectors.

use super::json::{Json, text_of};
use super::values::{Call, Value, ValueType, integer};
use std::collections::BTreeMap;

/// Files with rows, in the form of the program `dwexpr`: its words, its input and its output.
const ROWS: &[(&str, &str)] = &[
    ("address_sizes", include_str!("../rows/address_sizes.json")),
    ("branches", include_str!("../../rows/branches.json")),
    ("calls", include_str!("../../rows/calls.json")),
    ("ends", include_str!("../../rows/ends.json")),
    ("errors", include_str!("../../rows/errors.json")),
    ("faults", include_str!("../../rows/faults.json")),
    ("first_steps", include_str!("../../rows/first_steps.json")),
    ("gimli", include_str!("../../rows/gimli.json")),
    ("inlined", include_str!("../../rows/inlined.json")),
    ("lines", include_str!("../../rows/lines.json")),
    ("long", include_str!("../../rows/long.json")),
    ("many", include_str!("../../rows/many.json")),
    ("numbers", include_str!("../../rows/numbers.json")),
    ("operations", include_str!("../../rows/operations.json")),
    ("pieces", include_str!("../../rows/pieces.json")),
    ("refused_calls", include_str!("../../rows/refused_calls.json")),
    ("replay", include_str!("../../rows/replay.json")),
    ("requests", include_str!("../../rows/requests.json")),
    ("settings", include_str!("../../rows/settings.json")),
    ("sizes", include_str!("../../rows/sizes.json")),
    ("values", include_str!("../../rows/values.json")),
];
const DECODINGS: &str = include_str!("../../vectors/decode.json");
const COMPUTATIONS: &str = include_str!("../../vectors/values.json");

/// The encoding of an expression.
#[derive(Clone, Copy, Debug, PartialEq, Eq)]
pub struct Encoding {
    /// The bytes of an address.
    pub address_size: u8,
    /// Whether an offset has 8 bytes, and not 4.
    pub is_dwarf64: bool,
    /// The version of DWARF.
    pub version: u16,
    /// Whether the first byte of a number is its highest.
    pub is_big_endian: bool,
}

/// A call of an evaluation.
#[derive(Clone, Debug, PartialEq, Eq)]
#[allow(missing_docs)]
pub enum Step {
    InitialValue(u64),
    ObjectAddress(u64),
    MaxIterations(u32),
    Evaluate,
    Memory(Value),
    Register(Value),
    WasmValue(Value),
    EntryValue(Value),
    FrameBase(u64),
    Tls(u64),
    CallFrameCfa(u64),
    ParameterRef(u64),
    RelocatedAddress(u64),
    IndexedAddress(u64),
    AtLocation(Vec<u8>),
    BaseType(ValueType),
}

/// An expression, what is done with it, and the lines that it gives.
#[derive(Clone, Debug, PartialEq, Eq)]
pub struct Case {
    /// The name: a file's, and a row's in it.
    pub name: String,
    /// The encoding.
    pub encoding: Encoding,
    /// The bytes.
    pub bytes: Vec<u8>,
    /// The calls of an evaluation; `None` if the operations are listed.
    pub steps: Option<Vec<Step>>,
    /// The lines.
    pub wanted: String,
}

/// A decoded operation.
#[derive(Clone, Debug, PartialEq, Eq)]
pub struct Operation {
    /// Its variant's name in gimli.
    pub name: String,
    /// Its fields that aren't 0, by their names in `dwexpr_operation` of C. A block's is its bytes.
    pub fields: BTreeMap<&'static str, String>,
    /// How many bytes it has.
    pub length: usize,
}

/// Bytes that begin with an operation, or with a part of one.
#[derive(Clone, Debug, PartialEq, Eq)]
pub struct Decoding {
    /// The name: the encoding and the bytes.
    pub name: String,
    /// The encoding.
    pub encoding: Encoding,
    /// The bytes.
    pub bytes: Vec<u8>,
    /// The width of offsets, if it matters.
    pub bits: Option<u32>,
    /// The operation, or the fault.
    pub wanted: Result<Operation, String>,
}

/// A call on values, and its result.
#[derive(Clone, Debug, PartialEq, Eq)]
pub struct Computation {
    /// The name: the call.
    pub name: String,
    /// The call.
    pub call: Call,
    /// The value, or the fault.
    pub wanted: Result<Value, String>,
}

impl Encoding {
    /// The encoding in four words, as `4 4 5 le`.
    pub(crate) fn of(words: &[String]) -> Option<Encoding> {
        let [address_size, offset_size, version, order] = words else { return None };
        Some(Encoding {
            address_size: address_size.parse().ok()?,
            is_dwarf64: offset_size == "8",
            version: version.parse().ok()?,
            is_big_endian: order == "be",
        })
    }
}

/// The bytes that digits spell. A lone `-` spells none.
pub(crate) fn bytes_of(digits: &str) -> Option<Vec<u8>> {
    let digits = digits.trim_start_matches('-');
    let pair = |at| u8::from_str_radix(digits.get(at..at + 2)?, 16).ok();
    (0..digits.len()).step_by(2).map(pair).collect()
}

/// The step that a line spells.
fn step_of(line: &str) -> Option<Step> {
    if line == "evaluate" {
        return Some(Step::Evaluate);
    }
    let (name, word) = line.split_once(' ')?;
    let number = || integer(word)?.try_into().ok();
    Some(match name {
        "initial" => Step::InitialValue(number()?),
        "object" => Step::ObjectAddress(number()?),
        "max" => Step::MaxIterations(integer(word)?.try_into().ok()?),
        "memory" => Step::Memory(Value::of(word)?),
        "register" => Step::Register(Value::of(word)?),
        "wasm" => Step::WasmValue(Value::of(word)?),
        "entry" => Step::EntryValue(Value::of(word)?),
        "frame" => Step::FrameBase(number()?),
        "tls" => Step::Tls(number()?),
        "cfa" => Step::CallFrameCfa(number()?),
        "parameter" => Step::ParameterRef(number()?),
        "relocated" => Step::RelocatedAddress(number()?),
        "indexed" => Step::IndexedAddress(number()?),
        "location" => Step::AtLocation(bytes_of(word)?),
        "type" => Step::BaseType(ValueType::of(word)?),
        _ => return None,
    })
}

/// The steps that lines spell.
pub(crate) fn steps_of(lines: &str) -> Option<Vec<Step>> {
    lines.lines().map(step_of).collect()
}

/// The case of a row. `None` if it is about something else, such as words or steps that the program refuses.
fn case_of(file: &str, row: &Json) -> Option<Case> {
    let words: Vec<String> = row.get("words")?.items().iter().filter_map(text_of).collect();
    let [command, encoding @ .., digits] = &words[..] else { return None };
    let wanted = text_of(row.get("output")?)?;
    let is_other = ["input_from", "output_to", "megabytes"].iter().any(|it| row.get(it).is_some());
    if is_other || wanted.starts_with("bad ") || !["eval", "ops"].contains(&command.as_str()) {
        return None;
    }
    let steps = if command == "eval" { Some(steps_of(&text_of(row.get("input")?)?)?) } else { None };
    let name = format!("{file}: {}", row.get("name")?.text());
    Some(Case { name, encoding: Encoding::of(encoding)?, bytes: bytes_of(digits)?, steps, wanted })
}

/// All cases.
pub fn cases() -> Vec<Case> {
    let cases_in = |(name, text): &(&str, &str)| -> Vec<Case> {
        Json::of(text).items().iter().filter_map(|row| case_of(name, row)).collect()
    };
    ROWS.iter().flat_map(cases_in).collect()
}

/// The variant in a name of C's header: `PlusConstant` for `PLUS_CONSTANT`.
pub(crate) fn variant_of(name: &str) -> String {
    let capitalized = |word: &str| {
        if matches!(word, "TLS" | "CFA") { word.into() } else { word[..1].to_owned() + &word[1..].to_lowercase() }
    };
    name.split('_').map(capitalized).collect()
}

/// The fields that a vector may have.
const FIELDS: [&str; 8] =
    ["base_type", "block", "deref_size", "detail", "flag", "number", "register_number", "signed_number"];

/// The fault that a vector has, if any.
fn fault_of(row: &Json) -> Option<String> {
    let name = variant_of(row.get("code")?.text());
    Some(row.get("detail").map_or(name.clone(), |it| format!("{name} {}", it.text())))
}

fn operation_of(row: &Json, bytes: &[u8]) -> Operation {
    let field = |name: &'static str| {
        let text = match row.get(name)? {
            Json::List(block) => {
                let [place, length] = [0, 1].map(|at| block[at].text().parse::<usize>().expect("a number"));
                format!("{:x?}", &bytes[place..place + length])
            }
            number => number.text().into(),
        };
        (text != "0").then_some((name, text))
    };
    let name = variant_of(row.get("kind").expect("a kind").text());
    Operation { name, fields: FIELDS.into_iter().filter_map(field).collect(), length: bytes.len() }
}

/// The vector of a row.
pub(crate) fn decoding_of(row: &Json) -> Decoding {
    let (encoding, digits) = (row.get("in").expect("an encoding").text(), row.get("bytes").expect("bytes").text());
    let words: Vec<String> = encoding.split(' ').map(String::from).collect();
    let bytes = bytes_of(digits).expect("pairs of digits");
    Decoding {
        name: format!("{encoding} {digits}"),
        encoding: Encoding::of(&words).expect("an encoding"),
        bits: row.get("bits").map(|it| it.text().parse().expect("a number")),
        wanted: fault_of(row).map_or_else(|| Ok(operation_of(row, &bytes)), Err),
        bytes,
    }
}

/// All operations to decode.
pub fn decodings() -> Vec<Decoding> {
    Json::of(DECODINGS).items().iter().map(decoding_of).collect()
}

/// The method of `Value` for a kind of operation.
fn method_of(kind: &str) -> String {
    match kind {
        "PLUS" => "add".into(),
        "MINUS" => "sub".into(),
        "MOD" => "rem".into(),
        _ => kind.to_lowercase(),
    }
}

fn computation_of(row: &Json) -> Computation {
    let text = |name| row.get(name).map(Json::text);
    let value = |name| text(name).map(|word| Value::of(word).expect("a value"));
    let value_type = text("type").map(|word| ValueType::of(word).expect("a type"));
    let left = value("left");
    let name = text("kind").map(method_of).unwrap_or_default();
    let call = match (left, value("right"), value_type) {
        (None, _, Some(value_type)) => {
            Call::Parse { value_type, bytes: bytes_of(text("bytes").expect("bytes")).expect("pairs of digits") }
        }
        (Some(value), _, Some(value_type)) => Call::Convert { name, value, value_type, mask: row.number("mask") },
        (Some(left), Some(right), None) => Call::Binary { name, left, right, mask: row.number("mask") },
        (value, ..) => Call::Unary { name, value: value.expect("a value"), mask: row.number("mask") },
    };
    let wanted = fault_of(row).map_or_else(|| Ok(value("value").expect("a value")), Err);
    Computation { name: call.to_string(), call, wanted }
}

/// All calls on values.
pub fn computations() -> Vec<Computation> {
    Json::of(COMPUTATIONS).items().iter().map(computation_of).collect()
}
