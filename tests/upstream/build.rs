//! Carries gimli's own tests over: their `use` lines are changed to name this crate, and nothing else but what is left
//! out, by name below. The folder that GIMLI_TESTS names has the test modules of gimli 0.34.0: of src/read/value.rs as
//! `tests-part1.rs.txt`, and of src/read/op.rs as `tests-part2.rs.txt`.

use std::path::Path;
use std::{env, fs};

const PARTS: [(&str, &str); 2] = [("value", "tests-part1.rs.txt"), ("op", "tests-part2.rs.txt")];
/// Tests that aren't run, each with the reason.
const LEFT_OUT: [(&str, &str); 2] = [
    ("valuetype_from_encoding", "it reads an entry's attributes, which is the layer above"),
    ("test_compute_pc", "it calls a private function"),
];
/// A copy that ends within its last test is cut before this comment of that test.
const LAST: &str = "        // Test `evaluate_entry_value` callback.\n";
/// How a `use` item begins, and what it becomes. All others stay.
const USES: [(&str, &str); 6] = [
    ("use super::*;", "use dwexpr::*; #[allow(unused_imports)] use crate::generic_type;"),
    ("use crate::common::", "use dwexpr::"),
    ("use crate::endianity::", "use dwexpr::"),
    ("use crate::constants", "use dwexpr::constants"),
    ("use crate::read::", "use dwexpr::read::"),
    ("use test_assembler::", "use crate::test_assembler::"),
];

/// The name of the function that a part of a module begins with.
fn name_of(part: &str) -> &str {
    let (_, after) = part.split_once("    fn ").unwrap_or_default();
    after.split('(').next().unwrap_or_default()
}

/// A `use` item in the form that it has here. What else there is stays, but for a row of floating point.
fn line_of(line: &str) -> String {
    let said = line.trim_start();
    let is_float = said.starts_with('(') && said.ends_with("),\n") && (said.contains("F32") || said.contains("F64"));
    if is_float || said == "use alloc::vec::Vec;\n" || said == "#[cfg(feature = \"write\")]\n" {
        return String::new();
    }
    match USES.iter().find(|it| said.starts_with(it.0)) {
        Some((before, after)) => line.replacen(before, after, 1),
        None => line.into(),
    }
}

/// A test module in the form in which it runs here.
fn carried(text: &str) -> String {
    let mut text = text.to_owned();
    // It names what is of the layer above.
    if let Some((before, after)) = text.split_once("use crate::read::{\n        Abbreviation,") {
        text = format!("{before}use dwexpr::read::{{EndianSlice, UnitOffset}};{}", after.split_once(";").unwrap().1);
    }
    if text.matches('{').count() != text.matches('}').count() {
        let at = text.find(LAST).expect("the copy ends within its last test");
        println!(
            "cargo::warning=cut: {}: its copy ends within it",
            name_of(&text[..at][text[..at].rfind("#[test]").unwrap()..])
        );
        text.truncate(at);
        text += "    }\n}\n";
    }
    let mut parts = text.split("    #[test]\n");
    let mut said = parts.next().unwrap_or_default().to_owned();
    for part in parts {
        let (test, after) = part.split_once("\n    }\n").expect("a test ends");
        match LEFT_OUT.iter().find(|it| it.0 == name_of(part)) {
            Some((name, reason)) => println!("cargo::warning=left out: {name}: {reason}"),
            None => said = said + "    #[test]\n" + test + "\n    }\n",
        }
        said += after;
    }
    said.split_inclusive('\n').map(line_of).collect()
}

fn main() {
    println!("cargo::rerun-if-env-changed=GIMLI_TESTS");
    let out = env::var_os("OUT_DIR").expect("Cargo sets it");
    for (part, file) in PARTS {
        let text = env::var_os("GIMLI_TESTS").map(|folder| {
            let path = Path::new(&folder).join(file);
            println!("cargo::rerun-if-changed={}", path.display());
            fs::read_to_string(&path).unwrap_or_else(|error| panic!("{}: {error}", path.display()))
        });
        let said = text.map(|it| carried(&it)).unwrap_or_default();
        fs::write(Path::new(&out).join(format!("{part}.rs")), said).expect("a file is written");
    }
}
