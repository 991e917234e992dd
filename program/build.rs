//! Takes the contracts out of the proved sources of the program, which stand over the Rust crate here.

#[path = "../rust/build/cargo.rs"]
mod cargo;
#[path = "../rust/build/contracts.rs"]
mod contracts;
#[path = "../rust/build/sources.rs"]
mod sources;

use std::path::{Path, PathBuf};
use std::{env, fs};

const CRATES: &[(&str, &str)] = &[("dwarf_replay", "replay"), ("dwexpr_cli", "cli"), ("dwexpr", "program")];
// Laws, and tests in Rattle.
const LEFT_OUT: &[&str] = &["dwarf_replay/src/equality.rt", "dwexpr/src/tests.rt"];
/// The sources of the archive for C that have a struct each.
const STRUCTS: [&str; 6] = ["answers", "encodings", "operations", "outcomes", "pieces", "settings"];
const ALLOWED: &str = "#![allow(dead_code, unused_imports, unused_variables, non_upper_case_globals, clippy::all)]";

/// Links tests to the archive for C that a variable names, and takes its structs from its sources.
fn link_archive(top: &Path, out: &Path) {
    println!("cargo::rerun-if-env-changed=DWEXPR_ARCHIVE\ncargo::rustc-check-cfg=cfg(archive)");
    let Some(path) = env::var_os("DWEXPR_ARCHIVE") else { return };
    let path = fs::canonicalize(path).expect("DWEXPR_ARCHIVE names the archive");
    println!("cargo::rerun-if-changed={0}\ncargo::rustc-link-arg-tests={0}\ncargo::rustc-cfg=archive", path.display());
    let mut structs = String::new();
    for name in STRUCTS {
        let source = sources::read(&top.join(format!("crates/dwexpr_c/src/{name}.rt")));
        let (_, rest) = source.split_once("#[repr(C)]\n#[derive(Clone, Copy)]\n").expect("the source has a struct");
        let (fields, _) = rest.split_once("\n}").expect("the struct ends");
        structs += &format!("#[repr(C)]\n#[derive(Clone, Copy, Debug, Default, PartialEq)]\n{fields}\n}}\n");
    }
    fs::write(out.join("structs.rs"), structs).expect("the structs are written");
}

fn main() {
    let (top, out) = (Path::new(".."), PathBuf::from(env::var_os("OUT_DIR").expect("Cargo sets it")));
    cargo::watch("..", &["program/build.rs", "program/preconditions", "rust/build", "crates/dwexpr_c/src"], CRATES);
    let mut sources = sources::Sources::read(top, CRATES, LEFT_OUT);
    sources.check_preconditions("program/preconditions", |_| true);
    sources.apply("rust/build/rows/program");
    sources.write(&out.join("sources"), ALLOWED, "use crate::kit::prelude::*;");
    fs::write(out.join("lib.rs"), "mod sources;\n").expect("the file is written");
    link_archive(top, &out);
}
