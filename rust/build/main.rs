//! Makes the sources of the Rust crate from the proved ones, in a build from the repository. The published package has
//! them already, and no build script.

mod cargo;
mod contracts;
mod sources;
mod translation;

use std::path::Path;
use std::{env, fs};

fn main() {
    println!("cargo::rerun-if-env-changed=GIMLI_TESTS\ncargo::rustc-check-cfg=cfg(gimli_tests)");
    if env::var_os("GIMLI_TESTS").is_some() {
        println!("cargo::rustc-cfg=gimli_tests");
    }
    cargo::watch("", &["rust/build", "rust/src/pages"], translation::CRATES);
    let out = env::var_os("OUT_DIR").expect("Cargo sets it");
    let out = Path::new(&out);
    translation::write_sources(Path::new(""), out);
    fs::write(out.join("lib.rs"), "mod sources;\n").expect("the file is written");
}
