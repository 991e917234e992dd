//! Compares the results of this crate and of gimli, and then times both in alternating rounds.
//!
//!     DWEXPR_LISTS=shapes.tsv:mix.tsv cargo bench --features arrayvec,gimli
//!
//! Each line of a list is an expression. Its columns, with tabs between, are the size of an address, the size of an
//! offset (4 or 8), the version of DWARF, the byte order (`le` or `be`) and the bytes in hexadecimal digits. Further
//! columns are ignored, and so are lines that begin with `#`. Without a list it takes the rows of the repository's
//! tests. `cargo test` only compares.

extern crate gimli_0_34 as gimli;

use std::fmt::{self, Debug, Write};
use std::hint::black_box;
use std::process::ExitCode;
use std::sync::Arc;
use std::{env, fs, path, slice, str};

const ROUNDS: usize = 9;
// The maximum number of operations, as in c/bench/calls.c.
const MOST_OPERATIONS: u32 = 100_000;
const CONTENT: u64 = 0x1234;
const ADDRESS: u64 = 0x7000;

/// The encoding of a unit, as `dwexpr_encoding` is in C.
#[repr(C)]
#[derive(Clone, Copy)]
pub struct UnitEncoding {
    pub address_size: u8,
    pub offset_size: u8,
    pub is_big_endian: bool,
    pub version: u8,
}

/// An expression.
pub struct Case {
    pub encoding: UnitEncoding,
    pub bytes: Vec<u8>,
    shared: Arc<[u8]>,
}

impl Case {
    fn new(encoding: UnitEncoding, bytes: Vec<u8>) -> Case {
        Case { encoding, shared: bytes.as_slice().into(), bytes }
    }

    /// The case in the columns of a line, or in the words of a row.
    fn of<'a>(mut columns: impl Iterator<Item = &'a str>) -> Option<Case> {
        let mut number = |most: u8| columns.next()?.parse().ok().filter(|it| (1..=most).contains(it));
        let (address_size, offset_size, version) = (number(8)?, number(8)?, number(5)?);
        let is_big_endian = columns.next()? == "be";
        let pairs = columns.next()?.as_bytes().chunks(2);
        let byte = |pair| u8::from_str_radix(str::from_utf8(pair).ok()?, 16).ok();
        let encoding = UnitEncoding { address_size, offset_size, is_big_endian, version };
        Some(Case::new(encoding, pairs.map(byte).collect::<Option<_>>()?))
    }

    /// The bytes in gimli's slice.
    fn slice(&self) -> gimli::EndianSlice<'_, gimli::RunTimeEndian> {
        gimli::EndianSlice::new(&self.bytes, self.order())
    }

    /// The bytes in gimli's reference-counted reader.
    fn shared(&self) -> gimli::EndianArcSlice<gimli::RunTimeEndian> {
        gimli::EndianArcSlice::new(self.shared.clone(), self.order())
    }

    fn order(&self) -> gimli::RunTimeEndian {
        if self.encoding.is_big_endian { gimli::RunTimeEndian::Big } else { gimli::RunTimeEndian::Little }
    }
}

/// The number of operations or requests, and a checksum of their `Debug` output.
#[derive(Default)]
struct Answers {
    count: u64,
    is_complete: bool,
    sum: u64,
}

impl Answers {
    #[inline(always)]
    fn add<const SUMS: bool>(&mut self, answer: &impl Debug) {
        if SUMS {
            write!(self, "{answer:?};").expect("a checksum takes any text");
        }
    }

    fn total(self) -> u64 {
        self.sum.wrapping_add(self.count)
    }
}

impl Write for Answers {
    fn write_str(&mut self, text: &str) -> fmt::Result {
        // FNV-1a.
        self.sum = text.bytes().fold(self.sum, |sum, byte| (sum ^ u64::from(byte)).wrapping_mul(0x100_0000_01b3));
        Ok(())
    }
}

/// Calls `one` this many times for each case, and returns the sum of its results.
#[inline(always)]
pub fn all<'a>(cases: &'a [Case], times: u32, mut one: impl FnMut(&'a Case) -> u64) -> u64 {
    let mut total = 0u64;
    for case in cases {
        for _ in 0..times {
            total = total.wrapping_add(one(black_box(case)));
        }
    }
    total
}

/// The workloads for one crate; names are the same in both crates. `$reader` converts one of gimli's readers.
macro_rules! works {
    ($side:ident: $layer:ident, $reader:expr) => {
        #[allow(dead_code)] // c/bench takes `pieces`
        pub mod $side {
            use super::{ADDRESS, Answers, CONTENT, Case, Debug, MOST_OPERATIONS, all, black_box};
            use $layer::EvaluationResult::*;
            use $layer::{
                Encoding, EndianSlice, Evaluation, EvaluationStorage, Format, Operation, Piece, Reader, RunTimeEndian,
                StoreOnHeap, Value, ValueType,
            };

            pub struct Arrays;

            impl<R: Reader> EvaluationStorage<R> for Arrays {
                type Stack = [Value; 64];
                type ExpressionStack = [(R, R); 8];
                type Result = [Piece<R>; 16];
            }

            pub fn encoding_of(case: &Case) -> Encoding {
                let format = if case.encoding.offset_size == 8 { Format::Dwarf64 } else { Format::Dwarf32 };
                Encoding { address_size: case.encoding.address_size, format, version: case.encoding.version.into() }
            }

            pub fn text_of<'a>(case: &Case, bytes: &'a [u8]) -> EndianSlice<'a, RunTimeEndian> {
                let is_big_endian = case.encoding.is_big_endian;
                EndianSlice::new(bytes, if is_big_endian { RunTimeEndian::Big } else { RunTimeEndian::Little })
            }

            pub fn decode<const SUMS: bool>(cases: &[Case], times: u32) -> u64 {
                all(cases, times, decode_one::<SUMS>)
            }

            /// Decodes over gimli's slices.
            pub fn decode_slices<const SUMS: bool>(cases: &[Case], times: u32) -> u64 {
                all(cases, times, decode_slice::<SUMS>)
            }

            #[inline(never)]
            fn decode_one<const SUMS: bool>(case: &Case) -> u64 {
                decode_all::<_, SUMS>(text_of(case, &case.bytes), encoding_of(case))
            }

            #[inline(never)]
            fn decode_slice<const SUMS: bool>(case: &Case) -> u64 {
                decode_all::<_, SUMS>($reader(case.slice()), encoding_of(case))
            }

            #[inline(always)]
            fn decode_all<R: Reader + Debug, const SUMS: bool>(mut text: R, encoding: Encoding) -> u64 {
                let mut answers = Answers::default();
                while !text.is_empty() {
                    let Ok(operation) = Operation::parse(&mut text, encoding) else {
                        answers.add::<SUMS>(&"a fault");
                        break;
                    };
                    answers.add::<SUMS>(&operation);
                    // Without this only the fields that are read would be built.
                    black_box(&operation);
                    answers.count += 1;
                }
                answers.total()
            }

            pub fn on_heap<const SUMS: bool>(cases: &[Case], times: u32) -> u64 {
                all(cases, times, anew::<StoreOnHeap, SUMS>)
            }

            pub fn in_arrays<const SUMS: bool>(cases: &[Case], times: u32) -> u64 {
                all(cases, times, anew::<Arrays, SUMS>)
            }

            #[inline(never)]
            fn anew<S: for<'a> EvaluationStorage<EndianSlice<'a, RunTimeEndian>>, const SUMS: bool>(
                case: &Case,
            ) -> u64 {
                let mut evaluation = Evaluation::<_, S>::new_in(text_of(case, &case.bytes), encoding_of(case));
                evaluate::<_, _, SUMS>(&mut evaluation, || text_of(case, &[])).total()
            }

            /// Takes the pieces out.
            pub fn by_result<const SUMS: bool>(cases: &[Case], times: u32) -> u64 {
                all(cases, times, by_result_one::<SUMS>)
            }

            #[inline(never)]
            fn by_result_one<const SUMS: bool>(case: &Case) -> u64 {
                let mut evaluation = Evaluation::new(text_of(case, &case.bytes), encoding_of(case));
                let mut answers = evaluate::<_, _, SUMS>(&mut evaluation, || text_of(case, &[]));
                if answers.is_complete {
                    let pieces = evaluation.result();
                    answers.add::<SUMS>(&pieces);
                    black_box(&pieces);
                }
                answers.total()
            }

            pub fn over_slices<const SUMS: bool>(cases: &[Case], times: u32) -> u64 {
                all(cases, times, over_slice::<SUMS>)
            }

            #[inline(never)]
            fn over_slice<const SUMS: bool>(case: &Case) -> u64 {
                let mut evaluation = Evaluation::new($reader(case.slice()), encoding_of(case));
                let nothing = || {
                    let mut text = $reader(case.slice());
                    text.empty();
                    text
                };
                evaluate::<_, _, SUMS>(&mut evaluation, nothing).total()
            }

            pub fn over_shared<const SUMS: bool>(cases: &[Case], times: u32) -> u64 {
                all(cases, times, over_shared_one::<SUMS>)
            }

            #[inline(never)]
            fn over_shared_one<const SUMS: bool>(case: &Case) -> u64 {
                let mut evaluation = Evaluation::new($reader(case.shared()), encoding_of(case));
                let nothing = || {
                    let mut text = $reader(case.shared());
                    text.empty();
                    text
                };
                evaluate::<_, _, SUMS>(&mut evaluation, nothing).total()
            }

            /// 1 plus the number of pieces, or 0 if an evaluation isn't complete.
            pub fn pieces(cases: &[Case], times: u32) -> u64 {
                all(cases, times, |case| {
                    let mut evaluation = Evaluation::new(text_of(case, &case.bytes), encoding_of(case));
                    let answers = evaluate::<_, _, false>(&mut evaluation, || text_of(case, &[]));
                    if answers.is_complete { 1 + evaluation.as_result().len() as u64 } else { 0 }
                })
            }

            /// Evaluates, and answers each request. The answer to a call has no bytes.
            #[inline(always)]
            pub(super) fn evaluate<R: Reader + Debug, S: EvaluationStorage<R>, const SUMS: bool>(
                evaluation: &mut Evaluation<R, S>,
                nothing: impl Fn() -> R,
            ) -> Answers {
                let mut answers = Answers::default();
                evaluation.set_max_iterations(MOST_OPERATIONS);
                let mut reply = evaluation.evaluate();
                while let Ok(request) = reply {
                    answers.add::<SUMS>(&request);
                    reply = match request {
                        Complete => {
                            answers.is_complete = true;
                            answers.add::<SUMS>(&evaluation.as_result());
                            answers.add::<SUMS>(&evaluation.value_result());
                            return answers;
                        }
                        RequiresMemory { .. } => evaluation.resume_with_memory(Value::Generic(CONTENT)),
                        RequiresRegister { .. } => evaluation.resume_with_register(Value::Generic(CONTENT)),
                        RequiresFrameBase => evaluation.resume_with_frame_base(ADDRESS),
                        RequiresTls(_) => evaluation.resume_with_tls(ADDRESS),
                        RequiresCallFrameCfa => evaluation.resume_with_call_frame_cfa(ADDRESS),
                        RequiresAtLocation(_) => evaluation.resume_with_at_location(nothing()),
                        RequiresEntryValue(_) => evaluation.resume_with_entry_value(Value::Generic(CONTENT)),
                        RequiresParameterRef(_) => evaluation.resume_with_parameter_ref(ADDRESS),
                        RequiresRelocatedAddress(address) => evaluation.resume_with_relocated_address(address),
                        RequiresIndexedAddress { .. } => evaluation.resume_with_indexed_address(ADDRESS),
                        RequiresBaseType(_) => evaluation.resume_with_base_type(ValueType::Generic),
                        RequiresWasmLocal { .. } | RequiresWasmGlobal { .. } | RequiresWasmStack { .. } => {
                            evaluation.resume_with_wasm_value(Value::Generic(CONTENT))
                        }
                    };
                    answers.count += 1;
                }
                answers.add::<SUMS>(&"a fault");
                answers
            }
        }
    };
}

works!(theirs: gimli, std::convert::identity);
works!(ours: dwexpr, dwexpr::GimliReader);

/// Restarts one evaluation for all cases. gimli has no such call.
fn restarted<const SUMS: bool>(cases: &[Case], times: u32) -> u64 {
    let Some(first) = cases.first() else { return 0 };
    let mut evaluation = dwexpr::Evaluation::new(ours::text_of(first, &[]), ours::encoding_of(first));
    all(cases, times, |case| {
        evaluation.restart(ours::text_of(case, &case.bytes), ours::encoding_of(case));
        ours::evaluate::<_, _, SUMS>(&mut evaluation, || ours::text_of(case, &[])).total()
    })
}

/// Runs each case this many times. The number depends on all of the work, so the compiler can leave none of it out.
pub type Work = fn(&[Case], u32) -> u64;

/// A row of the table: the workload in gimli and in the other crate.
pub struct Row {
    pub name: &'static str,
    pub timed: [Work; 2],
    /// The same with checksums.
    pub summed: [Work; 2],
}

macro_rules! row {
    ($name:literal: $theirs:ident, $($ours:ident)::+) => {
        Row {
            name: $name,
            timed: [theirs::$theirs::<false>, $($ours)::+::<false>],
            summed: [theirs::$theirs::<true>, $($ours)::+::<true>],
        }
    };
}

const ROWS: [Row; 8] = [
    row!("decode": decode, ours::decode),
    row!("evaluate on the heap": on_heap, ours::on_heap),
    row!("on the heap, by `result`": by_result, ours::by_result),
    row!("restarted on the heap": on_heap, restarted),
    row!("evaluate in arrays": in_arrays, ours::in_arrays),
    row!("decode, over gimli's `EndianSlice`": decode_slices, ours::decode_slices),
    row!("on the heap, over gimli's `EndianSlice`": over_slices, ours::over_slices),
    row!("on the heap, over `EndianArcSlice`": over_shared, ours::over_shared),
];

type List = (String, Vec<Case>);

/// The lists that `DWEXPR_LISTS` names, or else the rows of the repository's tests.
fn lists() -> Vec<List> {
    let named = env::var_os("DWEXPR_LISTS").unwrap_or_default();
    if named.is_empty() {
        println!("DWEXPR_LISTS names no list of expressions: the rows of the repository's tests stand in for one.");
        return vec![rows()];
    }
    env::split_paths(&named).map(listed).collect()
}

fn rows() -> List {
    const TEXTS: [&str; 4] = [
        include_str!("../../tests/rows/branches.json"),
        include_str!("../../tests/rows/operations.json"),
        include_str!("../../tests/rows/requests.json"),
        include_str!("../../tests/rows/values.json"),
    ];
    // The words of a command follow, as `eval", "4", "4", "4", "le", "3122"], ..`.
    let case_of = |row: &str| Case::of(row.split_once("\"]")?.0.split("\", \"").skip(1));
    ("rows".into(), TEXTS.iter().flat_map(|it| it.split("\"words\": [\"").filter_map(case_of)).collect())
}

fn listed(path: path::PathBuf) -> List {
    let text = fs::read_to_string(&path).unwrap_or_else(|error| panic!("{}: {error}", path.display()));
    let lines = text.lines().filter(|line| !line.starts_with('#'));
    let cases = lines.map(|line| Case::of(line.split('\t')).unwrap_or_else(|| panic!("{line:?} is no expression")));
    (path.file_stem().unwrap_or_default().to_string_lossy().into(), cases.collect())
}

/// Short expressions, the same in every run. A quarter of them are random bytes; the others are three literals and then
/// mostly operations on the stack. Two cases in which gimli differs don't occur: a shift by a generic value with bits
/// above the address size, and a request by the last operation after a piece.
fn made_up(count: usize) -> List {
    // Xorshift (Marsaglia 2003).
    let mut state = 88_172_645_463_325_252u64;
    let mut next = move |below: u64| {
        state ^= state << 13;
        state ^= state >> 7;
        state ^= state << 17;
        (state >> 16) % below
    };
    let mut one = || {
        let encoding = UnitEncoding {
            address_size: 1 + next(8) as u8,
            offset_size: 4 + 4 * next(2) as u8,
            is_big_endian: next(2) == 1,
            version: 1 + next(5) as u8,
        };
        let (length, is_wild) = (next(16), next(4) == 0);
        let mut bytes = Vec::new();
        for _ in 0..length {
            let (any, literal, stack) = (next(256) as u8, 0x30 + next(32) as u8, 0x12 + next(28) as u8);
            // DW_OP_const1u, DW_OP_breg7, DW_OP_stack_value and DW_OP_piece among them.
            let byte = match next(16) {
                _ if is_wild => any,
                _ if bytes.len() < 3 => literal,
                0..4 => literal,
                4..12 => stack,
                12 => 0x08,
                13 => 0x77,
                14 => 0x9f,
                _ => 0x93,
            };
            let has_piece = bytes.iter().any(|it| matches!(it, 0x93 | 0x9d));
            bytes.push(match byte {
                0x24..=0x26 if encoding.address_size < 8 => 0x22,
                0x00..=0x07 | 0x18 | 0x70..=0x92 | 0x94..=0x9c | 0xa0.. if has_piece => literal,
                _ => byte,
            });
        }
        Case::new(encoding, bytes)
    };
    ("made up".into(), (0..count).map(|_| one()).collect())
}

fn main() -> ExitCode {
    if compare(&ROWS, &[made_up(20_000)]) {
        measure("In Rust", &ROWS, env::args().any(|it| it == "--bench"))
    } else {
        ExitCode::FAILURE
    }
}

/// Compares the results, and then prints times if they are asked for.
pub fn measure(side: &str, rows: &[Row], is_timed: bool) -> ExitCode {
    let lists = lists();
    if !compare(rows, &lists) {
        return ExitCode::FAILURE;
    }
    if is_timed {
        print_times(side, rows, &lists);
    }
    ExitCode::SUCCESS
}

/// Runs each expression twice, since the first run may leave something that changes the second.
fn compare(rows: &[Row], lists: &[List]) -> bool {
    let (mut passed, mut failed) = (0, 0);
    for (list, cases) in lists {
        for row in rows {
            let [theirs, ours] = row.summed;
            let differs = |case: &&Case| theirs(slice::from_ref(case), 2) != ours(slice::from_ref(case), 2);
            let mut differing = cases.iter().filter(differs);
            if let Some(first) = differing.next() {
                failed += 1;
                let count = 1 + differing.count();
                println!("{list}, {}: {count} of {} differ, first {:02x?}", row.name, cases.len(), first.bytes);
            } else {
                passed += 1;
            }
        }
    }
    println!("{passed} passed, {failed} failed");
    failed == 0
}

/// Prints a table of Markdown.
fn print_times(side: &str, rows: &[Row], lists: &[List]) {
    let heads: String = lists.iter().map(|(list, _)| format!(" {list}, in order | each 16 times |")).collect();
    println!("\n| {side} |{heads}\n|---|{}", "---|".repeat(2 * lists.len()));
    for row in rows {
        print!("| {} |", row.name);
        for (_, cases) in lists {
            let items =
                if row.name.starts_with("decode") { theirs::decode::<false>(cases, 1) } else { cases.len() as u64 };
            for times in [1, 16] {
                print!(" {} |", time(row.timed, cases, times, items * u64::from(times)));
            }
        }
        println!();
    }
}

/// The median of the ratios to gimli's time, and the least of gimli's times for an operation or an expression.
fn time(works: [Work; 2], cases: &[Case], times: u32, items: u64) -> String {
    // Rounds are short, so that most of them aren't interrupted.
    let passes = (200_000 / items).max(1);
    let mut least = f64::MAX;
    let mut ratios = [0; ROUNDS].map(|_| {
        let [theirs, ours] = works.map(|work| {
            let start = processor_time();
            for _ in 0..passes {
                black_box(work(black_box(cases), times));
            }
            processor_time() - start
        });
        least = least.min(theirs);
        ours / theirs
    });
    ratios.sort_by(f64::total_cmp);
    format!("{:.2} of {:.1} ns", ratios[ROUNDS / 2], least / (passes * items) as f64)
}

#[cfg(target_os = "linux")]
unsafe extern "C" {
    fn clock_gettime(clock: i32, time: &mut [std::ffi::c_long; 2]) -> i32;
}

/// The processor time of this process so far, in nanoseconds. Other processes don't count.
#[cfg(target_os = "linux")]
fn processor_time() -> f64 {
    let mut time = [0; 2];
    // SAFETY: it writes a `struct timespec`, which is two numbers. The clock is CLOCK_PROCESS_CPUTIME_ID.
    assert_eq!(unsafe { clock_gettime(2, &mut time) }, 0, "the clock can't be read");
    time[0] as f64 * 1e9 + time[1] as f64
}

/// The nanoseconds since the epoch.
#[cfg(not(target_os = "linux"))]
fn processor_time() -> f64 {
    std::time::UNIX_EPOCH.elapsed().expect("it is after 1970").as_nanos() as f64
}
