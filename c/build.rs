//! Takes the contracts out of the proved sources of the library for C, and sets the soname of the shared library. While
//! the major version is 0, each minor version has a soname of its own, since its calls may be others.

#[path = "../rust/build/cargo.rs"]
mod cargo;
#[path = "../rust/build/contracts.rs"]
mod contracts;
#[path = "../rust/build/sources.rs"]
mod sources;

use std::path::{Path, PathBuf};
use std::{env, fs};

const CRATES: &[(&str, &str)] = &[
    ("dwarf_base", "base"),
    ("dwarf_value", "value"),
    ("dwarf_meaning", "meaning"),
    ("dwarf_op", "op"),
    ("dwarf_eval", "eval"),
    ("dwarf_replay", "replay"),
    ("dwexpr_c", "c"),
];
// Lists that take an allocator, which C hasn't.
const LEFT_OUT: &[&str] = &["dwarf_eval/src/store/heap.rt", "dwarf_eval/src/eval/heap.rt"];
// Much in these crates is only for Rust.
const ALLOWED: &str = "#![allow(dead_code, unused_imports, unused_variables, non_upper_case_globals)]
#![allow(unstable_name_collisions, clippy::all)]";

fn main() {
    let set = |name: &str| env::var(name).expect("Cargo sets it");
    cargo::watch("..", &["c/build.rs", "c/preconditions", "rust/build"], CRATES);
    let mut sources = sources::Sources::read(Path::new(".."), CRATES, LEFT_OUT);
    sources.check_preconditions("c/preconditions", |path| path.starts_with("crates/dwexpr_c/"));
    sources.apply("rust/build/rows/both");
    sources.apply("rust/build/rows/c");
    let out = PathBuf::from(set("OUT_DIR"));
    sources.write(&out.join("sources"), ALLOWED, "use crate::casts::{CastSigned as _, CastUnsigned as _};");
    fs::write(out.join("lib.rs"), "mod sources;\n").expect("the file is written");
    let version = format!("{}.{}", set("CARGO_PKG_VERSION_MAJOR"), set("CARGO_PKG_VERSION_MINOR"));
    match set("CARGO_CFG_TARGET_OS").as_str() {
        "linux" | "android" | "freebsd" | "netbsd" | "openbsd" | "dragonfly" => {
            println!("cargo::rustc-cdylib-link-arg=-Wl,-soname,libdwexpr.so.{version}");
        }
        "macos" => println!("cargo::rustc-cdylib-link-arg=-Wl,-install_name,@rpath/libdwexpr.{version}.dylib"),
        _ => {}
    }
}
