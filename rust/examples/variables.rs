//! Prints where the variables of a program are, in a frame with this canonical frame address:
//!
//!     cargo run --features gimli --example variables -- PROGRAM CFA
//!
//! PROGRAM is a 64-bit little-endian ELF file with uncompressed debug information, and CFA a hexadecimal number. gimli
//! reads the units, and dwexpr evaluates the expressions; those with floating point, gimli. There is no process: if an
//! expression asks for a register or for memory, that request is printed.

// A program of yours names it gimli.
extern crate gimli_0_34 as gimli;

use dwexpr::gimli_0_34::{Answer, Settings, evaluate_with_floats};
use dwexpr::{DieReference, Error, EvaluationResult, GimliReader, ReaderOffset as _};
// `EndianArcSlice` and `EndianRcSlice` would do as well.
use gimli::EndianSlice as Bytes;
use gimli::{
    AttributeValue, DebuggingInformationEntry, DwAt, EntriesTreeNode, LittleEndian, Location, Piece, Reader,
    ReaderOffset as _, Section, StoreOnHeap, ValueType,
};
use std::process::ExitCode;

/// The contents of a section of an ELF file. `None` if there is no such section.
fn section<'a>(file: &'a [u8], name: &str) -> Option<&'a [u8]> {
    let number = |place: usize, size: usize| {
        let bytes = file.get(place..)?.get(..size)?;
        Some(bytes.iter().rev().fold(0, |number, byte| number << 8 | usize::from(*byte)))
    };
    let (headers, header_size, count) = (number(0x28, 8)?, number(0x3a, 2)?, number(0x3c, 2)?);
    let content = |index| {
        let header = headers + index * header_size;
        file.get(number(header + 0x18, 8)?..)?.get(..number(header + 0x20, 8)?)
    };
    let names = content(number(0x3e, 2)?)?;
    let is_named = |index: usize| {
        let rest = names.get(number(headers + index * header_size, 4)?..)?;
        Some(rest.strip_prefix(name.as_bytes())?.first() == Some(&0))
    };
    (0..count).find(|index| is_named(*index) == Some(true)).and_then(content)
}

fn attribute<R: Reader>(entry: &DebuggingInformationEntry<R>, name: DwAt) -> Option<AttributeValue<R>> {
    for attribute in entry.attrs() {
        if attribute.name() == name {
            return Some(attribute.value());
        }
    }
    None
}

/// A unit of the program, and the frame to which its variables belong.
struct Unit<'a, R: Reader> {
    dwarf: &'a gimli::Dwarf<R>,
    unit: gimli::Unit<R>,
    cfa: u64,
}

/// Why an expression gives no pieces.
enum Stop {
    /// Only a process can answer the request.
    Needs(String),
    Failed(gimli::Error),
}

impl From<gimli::Error> for Stop {
    fn from(error: gimli::Error) -> Stop {
        Stop::Failed(error)
    }
}

impl From<Error> for Stop {
    fn from(error: Error) -> Stop {
        Stop::Failed(error.into())
    }
}

impl<R: Reader> Unit<'_, R> {
    fn evaluate(&self, bytes: R, frame_base: Option<&R>) -> Result<Vec<Piece<R>>, Stop> {
        let settings = Settings { max_iterations: Some(10_000), ..Settings::default() };
        let answer = |request| self.answer(request, frame_base);
        let outcome = evaluate_with_floats::<StoreOnHeap, _, _>(bytes, self.unit.encoding(), settings, answer)?;
        Ok(outcome.into_pieces())
    }

    fn answer(&self, request: EvaluationResult<GimliReader<R>>, frame_base: Option<&R>) -> Result<Answer<R>, Stop> {
        Ok(match request {
            EvaluationResult::RequiresCallFrameCfa => Answer::Address(self.cfa),
            EvaluationResult::RequiresFrameBase => {
                let bytes = frame_base.ok_or_else(|| Stop::Needs("a frame base".into()))?;
                match &self.evaluate(bytes.clone(), None)?[..] {
                    [Piece { location: Location::Address { address }, .. }] => Answer::Address(*address),
                    pieces => return Err(Stop::Needs(format!("the frame base {}", shown(pieces)?))),
                }
            }
            // The program is at the addresses for which it was linked.
            EvaluationResult::RequiresRelocatedAddress(address) => Answer::Address(address),
            EvaluationResult::RequiresIndexedAddress { index, .. } => {
                Answer::Address(self.dwarf.address(&self.unit, index.into())?)
            }
            EvaluationResult::RequiresBaseType(offset) if offset.0.into_u64() == 0 => {
                Answer::BaseType(ValueType::Generic)
            }
            EvaluationResult::RequiresBaseType(offset) => {
                let value_type = ValueType::from_entry(&self.unit.entry(offset.into())?)?;
                Answer::BaseType(value_type.ok_or(Error::UnsupportedTypeOperation)?)
            }
            EvaluationResult::RequiresAtLocation(DieReference::UnitRef(offset)) => {
                let location = attribute(&self.unit.entry(offset.into())?, gimli::DW_AT_location);
                Answer::Expression(match location {
                    Some(AttributeValue::Exprloc(expression)) => expression.0,
                    _ => self.nothing(),
                })
            }
            other => return Err(Stop::Needs(format!("{other:?}"))),
        })
    }

    fn nothing(&self) -> R {
        let mut bytes = self.dwarf.debug_str.reader().clone();
        bytes.empty();
        bytes
    }

    /// Prints the variables of an entry and of the entries below it.
    fn print(&self, node: EntriesTreeNode<R>, frame_base: Option<&R>) -> gimli::Result<()> {
        let entry = node.entry();
        let own_frame_base = attribute(entry, gimli::DW_AT_frame_base);
        let frame_base = match &own_frame_base {
            Some(AttributeValue::Exprloc(expression)) => Some(&expression.0),
            _ => frame_base,
        };
        if matches!(entry.tag(), gimli::DW_TAG_variable | gimli::DW_TAG_formal_parameter) {
            let name = self.name(entry)?;
            match attribute(entry, gimli::DW_AT_location) {
                Some(AttributeValue::Exprloc(expression)) => {
                    println!("{name}: {}", self.location(expression.0, frame_base)?);
                }
                Some(list) => {
                    let Some(mut locations) = self.dwarf.attr_locations(&self.unit, list)? else { return Ok(()) };
                    while let Some(it) = locations.next()? {
                        let location = self.location(it.data.0, frame_base)?;
                        println!("{name}, from {:#x} to {:#x}: {location}", it.range.begin, it.range.end);
                    }
                }
                None => {}
            }
        }
        let mut children = node.children();
        while let Some(child) = children.next()? {
            self.print(child, frame_base)?;
        }
        Ok(())
    }

    fn name(&self, entry: &DebuggingInformationEntry<R>) -> gimli::Result<String> {
        if let Some(name) = attribute(entry, gimli::DW_AT_name) {
            return Ok(self.dwarf.attr_string(&self.unit, name)?.to_string_lossy()?.into_owned());
        }
        match attribute(entry, gimli::DW_AT_abstract_origin) {
            Some(AttributeValue::UnitRef(origin)) => self.name(&self.unit.entry(origin)?),
            _ => Ok("(unnamed)".into()),
        }
    }

    fn location(&self, bytes: R, frame_base: Option<&R>) -> gimli::Result<String> {
        match self.evaluate(bytes, frame_base) {
            Ok(pieces) => shown(&pieces),
            Err(Stop::Needs(request)) => Ok(format!("needs {request}")),
            Err(Stop::Failed(error)) => Ok(format!("error: {error}")),
        }
    }
}

fn shown<R: Reader>(pieces: &[Piece<R>]) -> gimli::Result<String> {
    let shown = pieces.iter().map(|piece| {
        let place = match &piece.location {
            Location::Empty => "nowhere".into(),
            Location::Register { register } => format!("in register {}", register.0),
            Location::Address { address } => format!("at {address:#x}"),
            Location::Value { value } => format!("the value {value:?}"),
            Location::Bytes { value } => format!("the bytes {:?}", value.to_slice()?),
            Location::ImplicitPointer { value, byte_offset } => {
                format!("a pointer to byte {byte_offset} of the object at {:#x} of .debug_info", value.0.into_u64())
            }
        };
        Ok(match piece.size_in_bits {
            Some(bits) => format!("{bits} bits {place}"),
            None => place,
        })
    });
    Ok(shown.collect::<gimli::Result<Vec<_>>>()?.join(", "))
}

// Other readers are converted from a slice.
#[allow(clippy::useless_conversion)]
fn print_variables(file: &[u8], cfa: u64) -> gimli::Result<()> {
    let dwarf = gimli::Dwarf::load(|id| {
        Ok::<_, gimli::Error>(Bytes::new(section(file, id.name()).unwrap_or(&[]).into(), LittleEndian))
    })?;
    let mut units = dwarf.units();
    while let Some(header) = units.next()? {
        let unit = Unit { dwarf: &dwarf, unit: dwarf.unit(header)?, cfa };
        unit.print(unit.unit.entries_tree(None)?.root()?, None)?;
    }
    Ok(())
}

fn main() -> ExitCode {
    let words: Vec<String> = std::env::args().skip(1).collect();
    let [program, cfa] = &words[..] else {
        eprintln!("usage: variables PROGRAM CFA");
        return ExitCode::from(2);
    };
    let Ok(cfa) = u64::from_str_radix(cfa.trim_start_matches("0x"), 16) else {
        eprintln!("{cfa} isn't a hexadecimal number of 64 bits");
        return ExitCode::from(2);
    };
    let printed = match std::fs::read(program) {
        Ok(file) => print_variables(&file, cfa).map_err(|error| error.to_string()),
        Err(error) => Err(error.to_string()),
    };
    match printed {
        Ok(()) => ExitCode::SUCCESS,
        Err(error) => {
            eprintln!("{program}: {error}");
            ExitCode::FAILURE
        }
    }
}
