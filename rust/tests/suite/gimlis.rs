//! Runs the conformance suite on gimli. A page has each row that has another result there.

use crate::conformance::{Difference, differences};
use gimli::{EndianArcSlice, EndianRcSlice, EndianSlice, RunTimeEndian};

crate::implementation!(theirs = gimli);

pub fn slice(bytes: &[u8], order: dwexpr::RunTimeEndian) -> EndianSlice<'_, RunTimeEndian> {
    EndianSlice::new(bytes, order.into())
}

pub fn arc(bytes: &[u8], order: dwexpr::RunTimeEndian) -> EndianArcSlice<RunTimeEndian> {
    EndianArcSlice::new(bytes.into(), order.into())
}

pub fn rc(bytes: &[u8], order: dwexpr::RunTimeEndian) -> EndianRcSlice<RunTimeEndian> {
    EndianRcSlice::new(bytes.into(), order.into())
}

/// The page's rows: the name, gimli's result and the row's, with lines after one another.
fn listed() -> Vec<Difference> {
    let page = include_str!("../../../tests/conformance/gimli.md");
    let lines = page.lines().filter_map(|line| line.strip_prefix("| `")?.strip_suffix(" |"));
    let row = |line: &str| {
        let cells: Vec<_> = line.split(" | ").map(|cell| cell.trim_matches('`')).collect();
        let [name, result, wanted, _] = cells[..] else { panic!("{line} has four cells") };
        Difference { name: name.into(), result: result.into(), wanted: wanted.into() }
    };
    lines.map(row).collect()
}

#[test]
#[cfg_attr(not(debug_assertions), ignore = "the page is of a gimli that checks for overflows")]
fn gimli_differs_in_the_rows_of_its_page() {
    let in_one_line = |text: String| text.trim_end().replace('\n', "; ");
    let found = differences(&theirs::Over(EndianSlice::new));
    let found: Vec<_> = found
        .into_iter()
        .map(|it| Difference { name: it.name, result: in_one_line(it.result), wanted: in_one_line(it.wanted) })
        .collect();
    for it in found.iter().filter(|it| !listed().contains(it)) {
        println!("| `{}` | `{}` | `{}` | |", it.name, it.result, it.wanted);
    }
    assert_eq!(found, listed());
}
