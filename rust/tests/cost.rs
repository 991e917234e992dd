//! Counts what it costs to decode and to evaluate, exactly and without a clock: what is asked of the reader and of the
//! lists, and what is allocated. cost.txt has the counts, so that each change of them is seen.
//!
//!     DWEXPR_LISTS=shapes.tsv:mix.tsv cargo test cost
//!
//! It runs over the expressions of the conformance suite, and over the first lines of these lists, whose form
//! rust/benches/beside_gimli.rs describes. If a count differs, the test prints what cost.txt would be.

use crate::EvaluationResult::*;
use crate::sources::eval::store::{List, OneInLine};
use crate::storage::sealed::Sealed;
use crate::{
    ArrayLike, Encoding, EndianSlice, Evaluation, EvaluationStorage, Format, Piece, Reader, Result, RunTimeEndian,
    SliceVec, StoreInSlices, Value, ValueType,
};
use conformance::bytes_of;
use std::alloc::{GlobalAlloc, Layout, System};
use std::array::from_fn;
use std::cell::Cell;
use std::hint::black_box;
use std::path::Path;
use std::{env, fs};

#[path = "../../tests/conformance/src/lib.rs"]
#[allow(dead_code, unused_imports, reason = "the tests of rows call more of it")]
mod conformance;

const MOST_EXPRESSIONS: usize = 20_000;
// The maximum number of operations.
const MOST_OPERATIONS: u32 = 1000;

macro_rules! counts {
    ($($count:ident $name:literal,)+) => {
        // A list's counts follow its first.
        #[allow(dead_code)]
        #[derive(Clone, Copy)]
        enum Count {
            $($count),+
        }

        const NAMES: &[&str] = &[$($name),+];
    };
}

counts! {
    Expression "expressions",
    Reply "replies",
    Operation "operations",
    Allocation "allocations",
    AllocatedByte "allocated bytes",
    ByteRead "bytes read",
    ByteSplit "bytes split off",
    ReadFixed "read_fixed",
    Split "split",
    Skip "skip",
    Len "len",
    // Each step of a run asks once.
    IsEmpty "is_empty",
    Empty "empty",
    OffsetFrom "offset_from",
    Clone "clones",
    ValuePushed "values: push",
    ValuePopped "values: pop",
    ValuesSeen "values: as_slice",
    CallerPushed "callers: push",
    CallerPopped "callers: pop",
    CallersSeen "callers: as_slice",
    PiecePushed "pieces: push",
    PiecePopped "pieces: pop",
    PiecesSeen "pieces: as_slice",
}

thread_local! {
    static COUNTED: [Cell<usize>; NAMES.len()] = const { [const { Cell::new(0) }; NAMES.len()] };
}

fn add(count: usize, more: usize) {
    let _ = COUNTED.try_with(|all| all[count].set(all[count].get() + more));
}

fn count(count: Count) {
    add(count as usize, 1);
}

struct Allocator;

impl Allocator {
    fn count(size: usize) {
        count(Count::Allocation);
        add(Count::AllocatedByte as usize, size);
    }
}

// SAFETY: the memory is the system's.
unsafe impl GlobalAlloc for Allocator {
    unsafe fn alloc(&self, layout: Layout) -> *mut u8 {
        Allocator::count(layout.size());
        unsafe { System.alloc(layout) }
    }

    unsafe fn dealloc(&self, place: *mut u8, layout: Layout) {
        unsafe { System.dealloc(place, layout) }
    }

    unsafe fn realloc(&self, place: *mut u8, layout: Layout, size: usize) -> *mut u8 {
        Allocator::count(size);
        unsafe { System.realloc(place, layout, size) }
    }
}

#[global_allocator]
static ALLOCATOR: Allocator = Allocator;

/// A reader that counts its calls.
#[derive(Debug)]
struct Counting<'a>(EndianSlice<'a, RunTimeEndian>);

impl Clone for Counting<'_> {
    fn clone(&self) -> Self {
        count(Count::Clone);
        Counting(self.0)
    }
}

impl Reader for Counting<'_> {
    type Offset = usize;

    fn len(&self) -> usize {
        count(Count::Len);
        self.0.len()
    }

    fn is_empty(&self) -> bool {
        count(Count::IsEmpty);
        self.0.is_empty()
    }

    fn empty(&mut self) {
        count(Count::Empty);
        self.0.empty();
    }

    fn offset_from(&self, base: &Self) -> usize {
        count(Count::OffsetFrom);
        self.0.offset_from(base.0)
    }

    fn skip(&mut self, len: usize) -> Result<()> {
        count(Count::Skip);
        self.0.skip(len)
    }

    fn split(&mut self, len: usize) -> Result<Self> {
        count(Count::Split);
        add(Count::ByteSplit as usize, len.min(self.0.len()));
        self.0.split(len).map(Counting)
    }

    fn read_fixed(&mut self, n: u8) -> Result<u64> {
        count(Count::ReadFixed);
        add(Count::ByteRead as usize, usize::from(n).min(self.0.len()));
        self.0.read_fixed(n)
    }
}

/// A list that counts its calls: `FIRST` is the count of pushes, and the next two are those of pops and of views.
struct Counted<L, const FIRST: usize>(L);

impl<L: List, const FIRST: usize> List for Counted<L, FIRST> {
    type Item = L::Item;

    fn as_slice(&self) -> &[L::Item] {
        add(FIRST + 2, 1);
        self.0.as_slice()
    }

    fn pop(&mut self) -> Option<L::Item> {
        add(FIRST + 1, 1);
        self.0.pop()
    }

    fn push(&mut self, item: L::Item) -> core::result::Result<(), L::Item> {
        add(FIRST, 1);
        self.0.push(item)
    }
}

impl<T: Clone, const FIRST: usize> Sealed for Counted<Vec<T>, FIRST> {}

impl<T: Clone, const FIRST: usize> ArrayLike for Counted<Vec<T>, FIRST> {
    type Item = T;
    type List = Self;
    type Pieces = Counted<OneInLine<T, Vec<T>>, FIRST>;

    fn new_list() -> Self {
        Counted(Vec::new_list())
    }
}

impl<T: Clone, const FIRST: usize> From<Counted<Vec<T>, FIRST>> for Counted<OneInLine<T, Vec<T>>, FIRST> {
    fn from(list: Counted<Vec<T>, FIRST>) -> Self {
        Counted(list.0.into())
    }
}

/// Keeps the lists on the heap, and counts their calls.
struct StoreCounted;

impl<R: Reader> EvaluationStorage<R> for StoreCounted {
    type Stack = Counted<Vec<Value>, { Count::ValuePushed as usize }>;
    type ExpressionStack = Counted<Vec<(R, R)>, { Count::CallerPushed as usize }>;
    type Result = Counted<Vec<Piece<R>>, { Count::PiecePushed as usize }>;
}

struct Expression {
    encoding: Encoding,
    order: RunTimeEndian,
    bytes: Vec<u8>,
}

impl Expression {
    fn of(encoding: conformance::Encoding, bytes: Vec<u8>) -> Expression {
        let conformance::Encoding { address_size, version, .. } = encoding;
        let format = if encoding.is_dwarf64 { Format::Dwarf64 } else { Format::Dwarf32 };
        let order = if encoding.is_big_endian { RunTimeEndian::Big } else { RunTimeEndian::Little };
        Expression { encoding: Encoding { address_size, format, version }, order, bytes }
    }

    fn reader<'a>(&self, bytes: &'a [u8]) -> Counting<'a> {
        Counting(EndianSlice::new(bytes, self.order))
    }

    fn text(&self) -> Counting<'_> {
        self.reader(&self.bytes)
    }

    /// Evaluates, and answers each request. The answer to a call is a DW_OP_nop. Returns whether it is complete.
    fn completes<'a, S: EvaluationStorage<Counting<'a>>>(&self, it: &mut Evaluation<Counting<'a>, S>) -> bool {
        it.set_max_iterations(MOST_OPERATIONS);
        let content = Value::Generic(0x1234);
        let mut reply = it.evaluate();
        loop {
            count(Count::Reply);
            let Ok(request) = reply else { return false };
            reply = match request {
                Complete => return true,
                RequiresMemory { .. } => it.resume_with_memory(content),
                RequiresRegister { .. } => it.resume_with_register(content),
                RequiresFrameBase => it.resume_with_frame_base(0x7000),
                RequiresTls(_) => it.resume_with_tls(0x7000),
                RequiresCallFrameCfa => it.resume_with_call_frame_cfa(0x7000),
                RequiresAtLocation(_) => it.resume_with_at_location(self.reader(&[0x96])),
                RequiresEntryValue(_) => it.resume_with_entry_value(content),
                RequiresParameterRef(_) => it.resume_with_parameter_ref(0x7000),
                RequiresRelocatedAddress(address) => it.resume_with_relocated_address(address),
                RequiresIndexedAddress { .. } => it.resume_with_indexed_address(0x7000),
                RequiresBaseType(_) => it.resume_with_base_type(ValueType::Generic),
                RequiresWasmLocal { .. } | RequiresWasmGlobal { .. } | RequiresWasmStack { .. } => {
                    it.resume_with_wasm_value(content)
                }
            };
        }
    }
}

fn decode(it: &Expression) {
    let mut operations = crate::Expression(it.text()).operations(it.encoding);
    while let Ok(Some(operation)) = operations.next() {
        count(Count::Operation);
        black_box(operation);
    }
}

fn evaluate(it: &Expression) {
    let mut evaluation = Evaluation::<_, StoreCounted>::new_in(it.text(), it.encoding);
    if it.completes(&mut evaluation) {
        black_box((evaluation.as_result(), evaluation.value_result()));
    }
}

/// Takes the pieces out.
fn take_result(it: &Expression) {
    let mut evaluation = Evaluation::new(it.text(), it.encoding);
    if it.completes(&mut evaluation) {
        black_box(evaluation.result());
    }
}

/// Evaluates twice over the same lists.
fn restart(it: &Expression) {
    let mut evaluation = Evaluation::<_, StoreCounted>::new_in(it.text(), it.encoding);
    it.completes(&mut evaluation);
    evaluation.restart(it.text(), it.encoding);
    it.completes(&mut evaluation);
}

fn in_slices(it: &Expression) {
    let mut values = [Value::default(); 64];
    let mut callers: [_; 16] = from_fn(|_| (it.text(), it.text()));
    let mut pieces: [_; 32] = from_fn(|_| Piece::default());
    let mut evaluation = Evaluation::<_, StoreInSlices>::with_lists(
        it.text(),
        it.encoding,
        SliceVec::new(&mut values),
        SliceVec::new(&mut callers),
        SliceVec::new(&mut pieces),
    );
    it.completes(&mut evaluation);
}

type Run = fn(&Expression);

const RUNS: [(&str, Run); 5] = [
    ("decode", decode),
    ("evaluate", evaluate),
    ("take result", take_result),
    ("restart", restart),
    ("in slices", in_slices),
];

fn counts_of(run: Run, expressions: &[Expression]) -> Vec<usize> {
    COUNTED.with(|all| all.iter().for_each(|it| it.set(0)));
    for expression in expressions {
        count(Count::Expression);
        run(expression);
    }
    COUNTED.with(|all| all.clone()).iter().map(Cell::get).collect()
}

/// The table of a list: a line for each count, and a column for each run.
fn table(name: &str, expressions: &[Expression]) -> String {
    let line = |name: &str, columns: &[String]| {
        let columns: String = columns.iter().map(|it| format!("{it:>12}")).collect();
        format!("{name:<17}{columns}\n")
    };
    let counts = RUNS.map(|(_, run)| counts_of(run, expressions));
    let lines = NAMES.iter().enumerate().map(|(at, name)| line(name, &counts.each_ref().map(|it| it[at].to_string())));
    line(name, &RUNS.map(|it| it.0.to_string())) + &lines.collect::<String>()
}

/// The expressions of the conformance suite.
fn rows() -> Vec<Expression> {
    let cases = conformance::cases().into_iter().map(|it| Expression::of(it.encoding, it.bytes));
    let decodings = conformance::decodings().into_iter().map(|it| Expression::of(it.encoding, it.bytes));
    cases.chain(decodings).collect()
}

fn listed(path: &Path) -> Vec<Expression> {
    let expression_of = |line: &str| {
        let columns: Vec<String> = line.split('\t').map(String::from).collect();
        Some(Expression::of(conformance::Encoding::of(&columns[..4])?, bytes_of(&columns[4])?))
    };
    let text = fs::read_to_string(path).unwrap();
    let lines = text.lines().filter(|it| !it.starts_with('#')).take(MOST_EXPRESSIONS);
    lines.map(|it| expression_of(it).unwrap()).collect()
}

#[test]
fn costs_are_as_written() {
    let mut tables = vec![table("rows", &rows())];
    let lists = env::var_os("DWEXPR_LISTS").unwrap_or_default();
    for path in env::split_paths(&lists).filter(|it| !it.as_os_str().is_empty()) {
        tables.push(table(path.file_stem().unwrap().to_str().unwrap(), &listed(&path)));
    }
    let written = include_str!("cost.txt");
    let name_of = |table: &str| table.split_whitespace().next().map(String::from);
    // The tables of lists that aren't given stay.
    let is_given = |it: &&str| tables.iter().any(|given| name_of(given) == name_of(it));
    let kept: Vec<&str> = written.split("\n\n").filter(|it| !is_given(it)).map(str::trim_end).collect();
    let tables: Vec<&str> = tables.iter().map(|it| it.trim_end()).chain(kept).collect();
    let given = tables.join("\n\n") + "\n";
    assert!(given == written, "cost.txt would be:\n{given}");
}
