//! Lists that are handed over. The conformance suite's tests fill lists of each kind.

use super::{ENCODING, little, panics};
use dwexpr::{Error, Evaluation, Piece, StoreInSlices, Value};

#[test]
fn a_lent_list_that_is_made_has_no_room() {
    let mut without_room = Evaluation::<_, StoreInSlices>::new_in(little(&[0x31]), ENCODING);
    assert_eq!(without_room.evaluate(), Err(Error::StackFull));
}

#[test]
fn each_list_that_is_handed_over_is_empty() {
    let text = little(&[0x31]);
    let starts = |values, callers, pieces| {
        !panics(|| Evaluation::<_>::with_lists(text, ENCODING, values, callers, pieces).status())
    };
    assert!(starts(Vec::with_capacity(8), vec![], vec![]));
    for count in 1..=3 {
        assert!(!starts(vec![Value::default(); count], vec![], vec![]));
        assert!(!starts(vec![], vec![(text, text); count], vec![]));
        assert!(!starts(vec![], vec![], vec![Piece::default(); count]));
    }
}
