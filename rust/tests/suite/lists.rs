//! Evaluates in lists of fixed capacity: lent ones and arrays, also of readers that have to be dropped.

use crate::conformance::{Encoding, bytes_of, json::Json, steps_of};
use crate::{ours, slice, vectors};
use dwexpr::{Evaluation, EvaluationStorage, Piece, Reader, RunTimeEndian, SliceVec, StoreInSlices, Value};

/// The capacity of a list that has no limit.
const AMPLE: usize = 100;

#[cfg(feature = "arrayvec")]
struct InArrays;

#[cfg(feature = "arrayvec")]
impl<R: Reader> EvaluationStorage<R> for InArrays {
    type Stack = [Value; 1];
    type ExpressionStack = arrayvec::ArrayVec<(R, R), 1>;
    type Result = [Piece<R>; 2];
}

#[cfg(feature = "arrayvec")]
struct InBoxes;

#[cfg(feature = "arrayvec")]
impl<R: Reader> EvaluationStorage<R> for InBoxes {
    type Stack = Box<[Value; 1]>;
    type ExpressionStack = Box<[(R, R); 1]>;
    type Result = Box<[Piece<R>; 2]>;
}

type Read<R> = fn(&'static [u8], RunTimeEndian) -> R;

fn text<'a>(vector: &'a Json, name: &str) -> &'a str {
    vector.get(name).expect(name).text()
}

fn encoding_of(vector: &Json) -> Encoding {
    let words: Vec<String> = text(vector, "in").split(' ').map(String::from).collect();
    Encoding::of(&words).expect("an encoding")
}

/// Evaluates as a vector says, twice over the same lists, and expects its lines and its status.
fn assert_evaluated<R: Reader, S: EvaluationStorage<R>>(vector: &Json, mut it: Evaluation<R, S>, read: Read<R>) {
    let (encoding, steps) = (encoding_of(vector), steps_of(text(vector, "input")).expect("steps"));
    let bytes = bytes_of(text(vector, "bytes")).expect("pairs of digits");
    let read = |bytes: &[u8]| read(bytes.to_vec().leak(), ours::order_of(encoding));
    for _ in 0..2 {
        it.restart(read(&bytes), ours::encoding_of(encoding));
        assert_eq!(ours::evaluation_lines(&mut it, &steps, read), text(vector, "output"), "{vector:?}");
        if let Some(status) = vector.get("status") {
            assert_eq!(format!("{:?}", it.status()), status.text(), "{vector:?}");
        }
    }
}

/// Evaluates in lent lists with the limits of a vector, and in arrays if these are 1, 1 and 2.
fn assert_limited<R: Reader>(vector: &Json, read: Read<R>) {
    let (nothing, encoding) = (read(&[], RunTimeEndian::Little), ours::encoding_of(encoding_of(vector)));
    let limits = [0, 1, 2].map(|list| vector.get("limits").unwrap().items()[list].text().parse().unwrap_or(AMPLE));
    let mut values = vec![Value::default(); limits[0]];
    let mut callers = vec![(nothing.clone(), nothing.clone()); limits[1]];
    let mut pieces = vec![Piece::default(); limits[2]];
    let lists = (SliceVec::new(&mut values), SliceVec::new(&mut callers), SliceVec::new(&mut pieces));
    let it = Evaluation::<_, StoreInSlices>::with_lists(nothing.clone(), encoding, lists.0, lists.1, lists.2);
    assert_evaluated(vector, it, read);
    #[cfg(feature = "arrayvec")]
    if limits == [1, 1, 2] {
        assert_evaluated(vector, Evaluation::<_, InArrays>::new_in(nothing.clone(), encoding), read);
        assert_evaluated(vector, Evaluation::<_, InBoxes>::new_in(nothing, encoding), read);
    }
}

#[test]
fn lists_of_fixed_capacity_are_as_their_vectors_say() {
    for vector in vectors("lists", include_str!("../../../tests/vectors/lists.json")) {
        assert_limited(&vector, slice);
        #[cfg(feature = "gimli")]
        assert_limited(&vector, |bytes, order| dwexpr::GimliReader(crate::gimlis::arc(bytes, order)));
    }
}

/// The crate has no `replay`, so no list of replies that may be full.
#[test]
fn replays_are_as_their_vectors_say() {
    let vectors = vectors("replay", include_str!("../../../tests/vectors/replay.json"));
    let has_room = |it: &&Json| it.get("limits").unwrap().items()[3].text() == "null";
    vectors.iter().filter(has_room).for_each(|vector| assert_limited(vector, slice));
}
