//! An evaluation that is restarted drops every reader that it had, whichever lists it has.

use super::gimli::{EndianArcSlice, LittleEndian};
use super::interop::ENCODING;
use super::readers::{clones_of, own};
use dwexpr::EvaluationResult::*;
use dwexpr::{
    ArrayLike, Encoding, Evaluation, EvaluationStorage, GimliReader, Location, Piece, SliceVec, Value, ValueType,
};
use std::array;
use std::marker::PhantomData;
use std::sync::Arc;

type Shared = GimliReader<EndianArcSlice<LittleEndian>>;

fn shared(bytes: &Arc<[u8]>) -> Shared {
    GimliReader(EndianArcSlice::new(bytes.clone(), LittleEndian))
}

/// Lists of callers and of pieces.
struct Lists<C, P>(PhantomData<(C, P)>);

impl<C: ArrayLike<Item = (Shared, Shared)>, P: ArrayLike<Item = Piece<Shared>>> EvaluationStorage<Shared>
    for Lists<C, P>
{
    type Stack = Vec<Value>;
    type ExpressionStack = C;
    type Result = P;
}

/// Evaluates, and answers the first requests, a call by `called`. The last reply is dropped.
fn answer<S: EvaluationStorage<Shared>>(it: &mut Evaluation<Shared, S>, answers: usize, called: &Arc<[u8]>) {
    let mut reply = it.evaluate();
    for _ in 0..answers {
        reply = match reply {
            Ok(RequiresBaseType(_)) => it.resume_with_base_type(ValueType::U64),
            Ok(RequiresEntryValue(_)) => it.resume_with_entry_value(Value::Generic(1)),
            Ok(RequiresAtLocation(_)) => it.resume_with_at_location(shared(called)),
            other => other,
        };
    }
}

/// Of the new reader each of the `slots` for a caller has two clones.
fn lets_go<S: EvaluationStorage<Shared>>(mut it: Evaluation<Shared, S>, slots: usize) {
    for text in [
        // Bytes, also in three pieces, and in a location that no piece follows.
        &[0x9e, 2, 1, 2][..],
        &[0x9e, 1, 1, 0x93, 1, 0x9e, 1, 2, 0x93, 1, 0x9e, 1, 3, 0x93, 1],
        &[0x9e, 1, 1, 0x96],
        // A literal of a type, cut off; an entry value; and calls, also of pieces.
        &[0xa4, 3, 1, 2],
        &[0xa3, 1, 0x50, 0x9f],
        &[0x98, 5, 0, 0x98, 5, 0, 0x31],
        &[0x9e, 1, 1, 0x93, 1, 0x98, 5, 0, 0x93, 1],
        // A fault after a piece of bytes, in a called expression.
        &[0x9e, 1, 1, 0x93, 1, 0x98, 5, 0, 0x22],
    ] {
        for (answers, address_size) in (0..5).flat_map(|answers| [(answers, 8), (answers, 0)]) {
            let [first, called, second]: [Arc<[u8]>; 3] = [text, text, &[0x31]].map(Arc::from);
            it.restart(shared(&first), ENCODING.into());
            answer(&mut it, answers, &called);
            // Also with an encoding that is refused.
            it.restart(shared(&second), Encoding { address_size, ..ENCODING.into() });
            let counts = [first, called, second].map(|it| Arc::strong_count(&it));
            assert_eq!(counts, [1, 1, 1 + 2 + 2 * slots], "{text:x?} after {answers} answers");
        }
    }
}

#[test]
fn a_restart_lets_go_of_each_reader() {
    type Callers<'a> = SliceVec<'a, (Shared, Shared)>;
    type Pieces<'a> = SliceVec<'a, Piece<Shared>>;
    let text: Arc<[u8]> = Arc::from([0x31]);
    let mut callers = array::from_fn::<_, 2, _>(|_| (shared(&text), shared(&text)));
    let mut pieces =
        array::from_fn::<_, 2, _>(|_| Piece { location: Location::Bytes { value: shared(&text) }, ..Piece::default() });
    macro_rules! lets_go {
        ($callers:ty, $pieces:ty, $slots:literal: $list:expr, $other:expr) => {
            lets_go(
                Evaluation::<_, Lists<$callers, $pieces>>::with_lists(
                    shared(&text),
                    ENCODING.into(),
                    vec![],
                    $list,
                    $other,
                ),
                $slots,
            );
        };
    }
    lets_go!(Vec<_>, Vec<_>, 0: vec![], vec![]);
    lets_go!(Callers, Vec<_>, 2: SliceVec::new(&mut callers), vec![]);
    lets_go!(Vec<_>, Pieces, 0: vec![], SliceVec::new(&mut pieces));
    lets_go!(Callers, Pieces, 2: SliceVec::new(&mut callers), SliceVec::new(&mut pieces));
    #[cfg(feature = "arrayvec")]
    lets_go(Evaluation::<_, Lists<[_; 2], [_; 2]>>::new_in(shared(&text), ENCODING.into()), 0);
    // What the slots had before is dropped too.
    assert_eq!(Arc::strong_count(&text), 1);
    assert!(pieces.iter().all(|it| *it == Piece::default()));
}

/// A reader that needs no drop is cloned once for a restart, whichever lists there are.
#[test]
fn a_restart_overwrites_no_slots_without_need() {
    let text = GimliReader(own(&[0x31]));
    let mut callers = array::from_fn::<_, 8, _>(|_| (text.clone(), text.clone()));
    let mut it = Evaluation::<_, dwexpr::StoreInSlices>::with_lists(
        text.clone(),
        ENCODING.into(),
        SliceVec::new(&mut []),
        SliceVec::new(&mut callers),
        SliceVec::new(&mut []),
    );
    assert_eq!(clones_of(|| it.restart(text, ENCODING.into())).0, 1);
}
