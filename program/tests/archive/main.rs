//! Compares an archive for C with the Rust crate in one process: the proved one, or the library that rustc builds. The
//! variable DWEXPR_ARCHIVE names it; without it, nothing is compared.
//!
//! Both decode and evaluate the rows, all texts of at most two bytes, full lists, and made-up cases. Each field that C
//! is given has to be what the crate's result says, and 0 if it says nothing.
#![cfg(archive)]

mod calls;
#[allow(dead_code)]
#[path = "../../../tests/conformance/src/lib.rs"]
mod conformance;
mod made_up;
mod shown;

use calls::{Answer, Held, MAX_CALLERS, MAX_PIECES, MAX_VALUES, Outcome, Settings, decode};
// The suite's macro names these from the crate.
use conformance::{Call, Case, Encoding, Implementation, Operation, Step, Value, ValueType};
use dwexpr::ValueType::{Generic, U8};
use dwexpr::{
    EndianSlice, Evaluation, EvaluationResult, EvaluationStorage, Piece, RunTimeEndian, SliceVec, Status, StoreInSlices,
};
use std::collections::BTreeSet;
use std::fmt::Debug;
use std::panic::{AssertUnwindSafe, catch_unwind, set_hook, take_hook};
use std::sync::Once;
use std::thread;

implementation!(ours = dwexpr);

type Bytes<'a> = EndianSlice<'a, RunTimeEndian>;
type Reply<R> = dwexpr::Result<EvaluationResult<R>>;

/// A step, and the number of the text that it gives, if it answers a call.
type Taken = (Step, usize);

/// How many made-up cases are compared, and how many of them share their lists and the archive's memory.
const COUNT: u64 = if cfg!(target_arch = "x86_64") { 1_000_000 } else { 20_000 };
const PART: u64 = 1_000;
/// Addresses of 8 bytes.
const WIDE: Encoding = Encoding { address_size: 8, is_dwarf64: false, version: 5, is_big_endian: false };
/// What has to come up: operations, errors without that of an offset, replies, an answer out of turn, kinds of pieces,
/// and a value of each type or none.
const MET: usize = 55 + 20 + 15 + 1 + 6 + 10;

/// An evaluation of the first text.
struct Subject<'a> {
    encoding: Encoding,
    texts: Vec<&'a [u8]>,
    settings: Settings,
}

impl<'a> Subject<'a> {
    fn read(&self, text: usize) -> Bytes<'a> {
        EndianSlice::new(self.texts[text], ours::order_of(self.encoding))
    }

    /// Takes a step, which panics if it is out of turn.
    fn take<S: EvaluationStorage<Bytes<'a>>>(
        &self,
        it: &mut Evaluation<Bytes<'a>, S>,
        (step, text): &Taken,
    ) -> Option<Reply<Bytes<'a>>> {
        ours::take(it, step, |_| self.read(*text))
    }
}

/// The lists of an evaluation of the crate, as many as the archive has, and what came up.
struct Comparison<'a> {
    held: Held,
    in_slices: Evaluation<Bytes<'a>, StoreInSlices<'a>>,
    met: BTreeSet<String>,
    /// The archive is handed the other byte order, on purpose.
    is_wrong: bool,
}

static HOOK: Once = Once::new();

/// An answer out of turn panics, as it has to, and there are many. Only other panics are said.
fn hide_expected_panics() {
    let usual = take_hook();
    set_hook(Box::new(move |it| {
        if !it.to_string().contains("`Evaluation::") {
            usual(it)
        }
    }));
}

/// Runs a comparison over lists of its own.
fn comparing<'a, T>(compare: impl FnOnce(&mut Comparison<'a>) -> T) -> T {
    HOOK.call_once(hide_expected_panics);
    let nothing = EndianSlice::new(&[][..], RunTimeEndian::Little);
    let encoding = ours::encoding_of(WIDE);
    // They are never freed, and there are few.
    let values = SliceVec::new(vec![dwexpr::Value::default(); MAX_VALUES].leak());
    let callers = SliceVec::new(vec![(nothing, nothing); MAX_CALLERS].leak());
    let pieces = SliceVec::new(vec![Piece::default(); MAX_PIECES].leak());
    let in_slices = Evaluation::with_lists(nothing, encoding, values, callers, pieces);
    compare(&mut Comparison { held: Held::new(), in_slices, met: BTreeSet::new(), is_wrong: false })
}

/// The name of a variant, from its `Debug`.
fn name_of(shown: &impl Debug) -> String {
    format!("{shown:?}").split(|it: char| !it.is_alphanumeric()).next().unwrap_or_default().into()
}

impl<'a> Comparison<'a> {
    /// Expects that both say the same.
    fn same<T: PartialEq + Debug>(&self, of: &Subject, theirs: T, ours: T) -> Result<(), String> {
        let differs = || format!("{:?}, {:x?}: the archive: {theirs:x?}, the crate: {ours:x?}", of.encoding, of.texts);
        if theirs == ours { Ok(()) } else { Err(differs()) }
    }

    /// The encoding for the archive.
    fn encoding(&self, of: &Subject) -> calls::Encoding {
        let it = shown::encoding_of(of.encoding);
        calls::Encoding { big_endian: it.big_endian ^ u8::from(self.is_wrong), ..it }
    }

    /// Compares the operations of each text.
    fn decode(&mut self, of: &Subject<'a>) -> Result<(), String> {
        for text in of.texts.iter().copied() {
            let mut offset = 0;
            while offset < text.len() {
                let shown = decode(text, self.encoding(of), offset);
                let place = (shown.offset, shown.opcode);
                self.same(of, place, (offset, text[offset].into()))?;
                let rest = EndianSlice::new(&text[offset..], ours::order_of(of.encoding));
                match ours::decoded(rest, ours::encoding_of(of.encoding)) {
                    Ok(operation) => {
                        self.same(of, shown.fault, 0)?;
                        self.met.insert(operation.name.clone());
                        offset += operation.length;
                        self.same(of, shown::operation_of(text, &shown), operation)?;
                    }
                    Err(said) => {
                        let (fault, detail) = shown::code_of(&said);
                        let ours = calls::Operation { offset, opcode: place.1, fault, detail, ..Default::default() };
                        self.same(of, shown, ours)?;
                        break;
                    }
                }
            }
        }
        Ok(())
    }

    /// Compares what a reply led to with it. The pieces and the value are compared too.
    fn reply(&mut self, of: &Subject<'a>, reply: Reply<Bytes<'a>>) -> Result<(), String> {
        let mut ours = shown::outcome_of(&of.texts, reply);
        self.met.insert(reply.map_or_else(ours::fault, |it| name_of(&it)).split(' ').next().unwrap().into());
        if self.in_slices.status() == Status::Complete {
            let (value, pieces) = (self.in_slices.value_result(), self.in_slices.as_result());
            let kinds = pieces.iter().map(|it| format!("in {}", name_of(&it.location)));
            self.met.extend(kinds);
            self.met.insert(format!("a {:?}", value.map(|it| it.value_type())));
            let pieces: Vec<_> = pieces.iter().map(|it| shown::piece_of(&of.texts, *it)).collect();
            ours = shown::complete(value, pieces.len());
            self.same(of, self.held.pieces[..pieces.len()].to_vec(), pieces)?;
        }
        self.same(of, self.held.outcome, ours)
    }

    /// Calls with arguments that aren't allowed, which change nothing.
    fn disturb(&mut self, of: &Subject<'a>) -> Result<(), String> {
        let bad = [(11, 0, of.texts.len()), (0, 0, 0), (13, 3, 0), (1, 0, 0), (4, 10, 0), (12, 0, 0), (12, 10, 0)];
        let (encoding, before) = (self.encoding(of), self.held.outcome);
        for (kind, value_type, text) in bad {
            self.held.resume(&of.texts, Answer { kind, value_type, number: 0, text });
            self.same(of, self.held.outcome.code, if kind == 11 { shown::BAD_TEXT } else { shown::BAD_ANSWER })?;
        }
        self.held.evaluate(&[], encoding, &of.settings);
        self.same(of, self.held.outcome.code, shown::BAD_TEXT)?;
        self.held.evaluate(&of.texts, calls::Encoding { version: 6, ..encoding }, &of.settings);
        self.same(of, self.held.outcome.code, shown::BAD_ENCODING)?;
        self.held.outcome = before;
        Ok(())
    }

    /// Evaluates, and compares each reply. `answer` gives the answers, of which each may be the last.
    fn evaluate(
        &mut self,
        of: &Subject<'a>,
        mut answer: impl FnMut(usize, &Outcome) -> Option<Taken>,
    ) -> Result<(), String> {
        let Settings { max_iterations, object_address, initial_value, .. } = of.settings;
        let mut steps = vec![Step::MaxIterations(max_iterations)];
        steps.extend((of.settings.has_object_address != 0).then_some(Step::ObjectAddress(object_address)));
        steps.extend((of.settings.has_initial_value != 0).then_some(Step::InitialValue(initial_value)));
        steps.push(Step::Evaluate);
        let mut taken: Vec<Taken> = steps.into_iter().map(|step| (step, 0)).collect();
        let mut replies = Vec::new();
        self.in_slices.restart(of.read(0), ours::encoding_of(of.encoding));
        for step in &taken {
            replies.extend(of.take(&mut self.in_slices, step));
        }
        self.held.evaluate(&of.texts, self.encoding(of), &of.settings);
        self.reply(of, replies[0])?;
        for given in 0.. {
            self.disturb(of)?;
            let Some(step) = answer(given, &self.held.outcome) else { break };
            let Some(it) = shown::answer_of(&step) else { break };
            self.held.resume(&of.texts, it);
            let Ok(reply) = catch_unwind(AssertUnwindSafe(|| of.take(&mut self.in_slices, &step))) else {
                self.met.insert("misplaced".into());
                return self.same(of, self.held.outcome, Outcome { code: shown::MISPLACED, ..Outcome::default() });
            };
            self.reply(of, reply.expect("an answer has a reply"))?;
            replies.extend(reply);
            taken.push(step);
        }
        // The heap has no limits.
        if !replies.contains(&Err(dwexpr::Error::StackFull)) {
            let mut on_heap = Evaluation::new(of.read(0), ours::encoding_of(of.encoding));
            let again = taken.iter().filter_map(|step| of.take(&mut on_heap, step));
            self.same(of, replies, again.collect())?;
            if on_heap.status() == Status::Complete {
                self.same(of, self.in_slices.as_result().to_vec(), on_heap.as_result().to_vec())?;
                self.same(of, self.in_slices.value_result(), on_heap.value_result())?;
            }
        }
        Ok(())
    }
}

/// The subject of a case, and its answers. `None` if C can't take its encoding or its first steps: settings that don't
/// stand once and before the start. `has` is what says that a setting is there, any number but 0.
fn subject_of(case: &Case, has: u16) -> Option<(Subject<'_>, Vec<Taken>)> {
    let steps = case.steps.as_ref().filter(|_| (1..=8).contains(&case.encoding.address_size))?;
    let mut settings = Settings { max_iterations: 1_000_000, ..Settings::default() };
    let start = steps.iter().position(|it| *it == Step::Evaluate)?;
    for step in &steps[..start] {
        match *step {
            Step::MaxIterations(maximum) => settings.max_iterations = maximum,
            Step::ObjectAddress(address) => (settings.has_object_address, settings.object_address) = (has, address),
            Step::InitialValue(value) if settings.has_initial_value == 0 => {
                (settings.has_initial_value, settings.initial_value) = (has, value)
            }
            _ => return None,
        }
    }
    let (mut texts, mut answers) = (vec![&case.bytes[..]], Vec::new());
    for step in &steps[start + 1..] {
        answers.push((step.clone(), texts.len()));
        if let Step::AtLocation(text) = step {
            texts.push(text);
        }
    }
    Some((Subject { encoding: case.encoding, texts, settings }, answers))
}

#[test]
fn rows() {
    let cases = conformance::cases();
    let mut count = 0;
    comparing(|it| {
        // An answer in front of the first start.
        it.held.resume(&[], Answer { kind: 7, ..Answer::default() });
        assert_eq!(it.held.outcome.code, shown::MISPLACED);
        for (index, case) in cases.iter().enumerate() {
            let Some((of, answers)) = subject_of(case, 1 << (index % 16)) else { continue };
            let same = it.decode(&of).and_then(|()| it.evaluate(&of, |given, _| answers.get(given).cloned()));
            assert_eq!(same, Ok(()), "{}", case.name);
            count += 1;
        }
    });
    assert!(count > 1700, "{count} rows are compared");
}

#[test]
fn a_difference_is_found() {
    // DW_OP_const2u
    let settings = Settings { max_iterations: 1, ..Settings::default() };
    let of = Subject { encoding: WIDE, texts: vec![&[0x0a, 1, 2]], settings };
    comparing(|it| {
        assert_eq!(it.decode(&of), Ok(()));
        it.is_wrong = true;
        assert!(it.decode(&of).is_err() && it.evaluate(&of, |_, _| None).is_err());
    });
}

/// Each text is evaluated with at most 16 operations, and each request is answered by 0, a text of a DW_OP_nop, or the
/// type `U8`.
#[test]
fn texts_of_at_most_two_bytes() {
    let encoding = Encoding { address_size: 4, is_dwarf64: false, version: 4, is_big_endian: false };
    let texts: Vec<[u8; 2]> = (0..=u16::MAX).map(u16::to_le_bytes).collect();
    let lengths = [(0, 1), (1, 256), (2, 65_536)];
    comparing(|it| {
        for (length, count) in lengths {
            for text in &texts[..count] {
                let settings = Settings { max_iterations: 16, ..Settings::default() };
                let of = Subject { encoding, texts: vec![&text[..length], &[0x96]], settings };
                let answer = |given, outcome: &Outcome| {
                    let value_type = if outcome.request == 12 { U8 } else { Generic };
                    let is_open = given < 16 && outcome.request > shown::COMPLETE;
                    is_open.then(|| (made_up::answer_to(outcome.request, value_type, 0), 1))
                };
                assert_eq!(it.decode(&of).and_then(|()| it.evaluate(&of, answer)), Ok(()));
                assert!(it.held.outcome.request <= shown::COMPLETE, "{text:x?} doesn't end");
            }
        }
    });
}

/// Each list is filled from the start, and after a request; and one item more is refused.
#[test]
fn full_lists() {
    let lists: [(&[u8], &[u8], usize); 3] = [
        (&[0x35], &[], MAX_VALUES),
        (&[0x93, 1], &[], MAX_PIECES),
        (&[0x98, 5, 0, 0x96], &[0x98, 5, 0, 0x96], MAX_CALLERS),
    ];
    for (item, called, most) in lists {
        for (begin, more) in [(0, 0), (0, 1), (1, 0), (1, 1)] {
            let times = if called.is_empty() { most + more } else { 1 };
            let text = [[0x9c, 0x13].repeat(begin), item.repeat(times)].concat();
            let settings = Settings { max_iterations: 1000, ..Settings::default() };
            let of = Subject { encoding: WIDE, texts: vec![&text, called], settings };
            comparing(|it| {
                let answer = |given, outcome: &Outcome| {
                    let is_open = outcome.request > shown::COMPLETE && given < begin + most + more;
                    is_open.then(|| (made_up::answer_to(outcome.request, Generic, 1), 1))
                };
                assert_eq!(it.evaluate(&of, answer), Ok(()));
                let is_full = it.held.outcome.code == shown::code_of("StackFull").0;
                assert_eq!(is_full, more == 1, "{text:x?}, {:?}", it.held.outcome);
            });
        }
    }
}

/// Compares every so many parts of the made-up cases.
fn compare_parts(first: u64, every: u64) -> Result<BTreeSet<String>, String> {
    let mut met = BTreeSet::new();
    for start in (first * PART..COUNT).step_by((every * PART) as usize) {
        let cases: Vec<_> = (start..COUNT.min(start + PART)).map(made_up::Case::new).collect();
        comparing(|it| {
            for case in &cases {
                let (of, mut numbers) = (case.subject(), case.numbers());
                it.decode(&of)?;
                it.evaluate(&of, |given, outcome| case.answer(given, outcome, &mut numbers))?;
            }
            met.append(&mut it.met);
            Ok::<_, String>(())
        })?;
    }
    Ok(met)
}

#[test]
fn made_up_cases() {
    let threads = thread::available_parallelism().map_or(1, |it| it.get()) as u64;
    let met = thread::scope(|scope| {
        let running: Vec<_> = (0..threads).map(|first| scope.spawn(move || compare_parts(first, threads))).collect();
        let found = running.into_iter().map(|it| it.join().expect("nothing else panics"));
        found.collect::<Result<Vec<_>, _>>()
    });
    let met: BTreeSet<_> = met.expect("both say the same").into_iter().flatten().collect();
    assert_eq!(met.len(), MET, "not all that can came up: {met:?}");
}
