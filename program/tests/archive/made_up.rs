//! Made-up cases, and answers to what they ask.

use crate::calls::{Outcome, Settings};
use crate::conformance::{Encoding, Step};
use crate::shown::{self, COMPLETE, TYPES};
use crate::{Subject, ours};
use dwexpr::{Value, ValueType};
use std::sync::LazyLock;

/// A generator of numbers (xorshift, Marsaglia 2003). The same seed gives the same numbers in every run.
#[derive(Clone, Debug)]
pub struct Numbers(u64);

impl Numbers {
    fn any(&mut self) -> u64 {
        self.0 ^= self.0 << 13;
        self.0 ^= self.0 >> 7;
        self.0 ^= self.0 << 17;
        self.0
    }

    fn below(&mut self, end: usize) -> usize {
        (self.any() >> 16) as usize % end
    }

    /// `true` in one of `count` cases.
    fn one_in(&mut self, count: usize) -> bool {
        self.below(count) == 0
    }

    fn one_of<T: Copy>(&mut self, items: &[T]) -> T {
        items[self.below(items.len())]
    }

    /// A number that is small, near a power of two, or any.
    fn edge(&mut self) -> u64 {
        let power = 1u64 << self.below(64);
        match self.below(8) {
            0..3 => self.any() >> 16 & 15,
            3 => power,
            4 => power.wrapping_sub(1),
            5 => power.wrapping_neg(),
            6 => u64::MAX - (self.any() >> 16 & 15),
            _ => self.any(),
        }
    }
}

/// The form of the operands of each opcode, as the header has it.
static FORMS: LazyLock<[u8; 256]> = LazyLock::new(|| {
    let mut forms = [b'.'; 256];
    let lines = include_str!("../../../c/include/dwexpr_opcodes.h").lines();
    for row in lines.filter_map(|line| line.trim().strip_prefix("row(0x")) {
        let opcode = usize::from_str_radix(&row[..2], 16).expect("a row begins with an opcode");
        forms[opcode] = row.split('\'').nth(1).expect("a row ends with a form").as_bytes()[0];
    }
    forms
});

/// An evaluation of the first text. Calls are answered by any of them.
#[derive(Debug)]
pub struct Case {
    pub encoding: Encoding,
    pub texts: Vec<Vec<u8>>,
    pub settings: Settings,
    /// The number of the type of most values, which is also at the offset that most operands name.
    home: u8,
    numbers: Numbers,
}

impl Case {
    pub fn new(seed: u64) -> Case {
        // Seeds that are near one another would begin alike; a generator that is at 0 would stay there.
        let mut numbers = Numbers(seed.wrapping_mul(0x9e37_79b9_7f4a_7c15) | 1);
        (0..8).for_each(|_| _ = numbers.any());
        let mut case = Case {
            encoding: Encoding {
                address_size: if numbers.one_in(3) { numbers.below(8) as u8 + 1 } else { numbers.one_of(&[4, 8]) },
                is_dwarf64: numbers.one_of(&[false, true]),
                version: numbers.below(4) as u16 + 2,
                is_big_endian: numbers.one_of(&[false, true]),
            },
            texts: Vec::new(),
            settings: Settings {
                max_iterations: if numbers.one_in(8) { numbers.below(16) as u32 } else { 200 },
                has_object_address: numbers.one_in(2).into(),
                object_address: numbers.edge(),
                has_initial_value: numbers.one_in(4).into(),
                initial_value: numbers.edge(),
            },
            home: numbers.below(9) as u8 + 1,
            numbers,
        };
        // Long texts and deep calls fill the lists: DW_OP_lit1, DW_OP_piece and DW_OP_call2.
        let (only, most) = case.numbers.one_of(&[(Some(0x31), 80), (Some(0x93), 40), (Some(0x98), 3)]);
        let (only, most) = if case.numbers.one_in(8) { (only, most) } else { (None, 12) };
        for _ in 0..3 {
            let mut text = Vec::new();
            for _ in 0..=case.numbers.below(most) {
                let opcode = only.unwrap_or_else(|| case.opcode());
                case.operation(opcode, &mut text);
            }
            if case.numbers.one_in(8) {
                text.truncate(case.numbers.below(text.len()));
            }
            case.texts.push(text);
        }
        case
    }

    /// A literal, an operation on the stack, one that mostly ends an expression or a piece, or any.
    fn opcode(&mut self) -> u8 {
        match self.numbers.below(16) {
            0..5 => 0x30 + self.numbers.below(32) as u8,
            5..9 => 0x12 + self.numbers.below(0x1e) as u8,
            9 | 10 => self.numbers.one_of(&[0x50, 0x90, 0x93, 0x93, 0x9d, 0x9e, 0x9f, 0xa0]),
            // Those with types, and those that ask.
            11..15 => 0x91 + self.numbers.below(0x19) as u8,
            _ => self.numbers.any() as u8,
        }
    }

    /// What is evaluated.
    pub fn subject(&self) -> Subject<'_> {
        let texts = self.texts.iter().map(Vec::as_slice).collect();
        Subject { encoding: self.encoding, texts, settings: self.settings }
    }

    /// Adds an operation with made-up operands.
    fn operation(&mut self, opcode: u8, text: &mut Vec<u8>) {
        let form = FORMS[usize::from(opcode)];
        text.push(opcode);
        match form {
            b'B' | b'b' | b'D' | b'E' => {
                let any = self.numbers.any() as u8;
                text.push(if self.numbers.one_in(4) { any } else { self.numbers.one_of(&[0, 1, 2, 4, 8]) });
            }
            b'h' if self.numbers.below(4) > 0 => {
                let distance = self.numbers.below(24) as i16 - 8;
                text.extend(if self.encoding.is_big_endian { distance.to_be_bytes() } else { distance.to_le_bytes() });
            }
            b'H' | b'h' | b'w' => self.fixed(2, text),
            b'I' | b'i' | b'x' => self.fixed(4, text),
            b'Q' | b'q' => self.fixed(8, text),
            b'a' => self.fixed(self.encoding.address_size, text),
            b'p' if self.encoding.version == 2 => self.fixed(self.encoding.address_size, text),
            b'r' | b'p' => self.fixed(shown::encoding_of(self.encoding).offset_size, text),
            b'u' | b's' | b'P' | b'K' | b'R' | b'O' | b'V' => self.leb128(text),
            b'W' => text.push(self.numbers.below(5) as u8),
            b'T' | b'L' => self.base_type(text),
            _ => {}
        }
        match form {
            b'E' | b'V' => self.base_type(text),
            b'O' | b'K' | b'p' => self.leb128(text),
            b'W' if text.ends_with(&[3]) => self.fixed(4, text),
            b'W' => self.leb128(text),
            b'k' | b'L' => {
                let size = [8, 1, 1, 2, 2, 4, 4, 8, 8][usize::from(self.home) - 1];
                let count = self.numbers.one_of(&[size, size, 0, 5]);
                text.push(count);
                (0..count).for_each(|_| self.fixed(1, text));
            }
            _ => {}
        }
    }

    /// The lowest bytes of a number.
    fn fixed(&mut self, size: u8, text: &mut Vec<u8>) {
        text.extend(&self.numbers.edge().to_le_bytes()[..size.into()]);
    }

    /// A LEB128 number, mostly of one byte, and now and then of too many.
    fn leb128(&mut self, text: &mut Vec<u8>) {
        let more = if self.numbers.one_in(32) { self.numbers.below(11) } else { self.numbers.below(8) / 6 };
        text.extend((0..more).map(|_| self.numbers.any() as u8 | 0x80));
        text.push(self.numbers.any() as u8 & 0x7f);
    }

    fn base_type(&mut self, text: &mut Vec<u8>) {
        if self.numbers.one_in(8) { self.leb128(text) } else { text.push(self.home) }
    }

    /// What makes up the answers.
    pub fn numbers(&self) -> Numbers {
        self.numbers.clone()
    }

    /// The answer after an outcome, mostly to its request, and a text; `None` if no more are given.
    pub fn answer(&self, given: usize, outcome: &Outcome, numbers: &mut Numbers) -> Option<(Step, usize)> {
        // An evaluation keeps a fault, and stays complete. That is tried now and then.
        let is_over = outcome.request <= COMPLETE;
        if given == 24 || (is_over && !numbers.one_in(16)) {
            return None;
        }
        let any = numbers.below(15) as u32 + 2;
        let is_generic = !matches!(outcome.request, 8 | 12) && outcome.base_type == 0;
        let wanted = if is_generic { 1 } else { usize::from(self.home) };
        let value_type = TYPES[if numbers.one_in(8) { numbers.below(9) } else { wanted - 1 }];
        let (number, text) = (numbers.edge(), numbers.below(self.texts.len()));
        let request = if is_over || numbers.one_in(48) { any } else { outcome.request };
        Some((answer_to(request, value_type, number), text))
    }
}

/// The answer to a request, of what it asks for. A text is said beside it.
pub fn answer_to(request: u32, value_type: ValueType, number: u64) -> Step {
    let value = ours::plain(Value::from_u64(value_type, number).expect("it is a type of integers"));
    match request {
        2 => Step::Memory(value),
        3 => Step::Register(value),
        4 => Step::FrameBase(number),
        5 => Step::Tls(number),
        6 => Step::CallFrameCfa(number),
        7 => Step::AtLocation(vec![]),
        8 => Step::EntryValue(value),
        9 => Step::ParameterRef(number),
        10 => Step::RelocatedAddress(number),
        11 => Step::IndexedAddress(number),
        12 => Step::BaseType(value.value_type()),
        _ => Step::WasmValue(value),
    }
}
