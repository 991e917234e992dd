//! What a build script tells Cargo.

use std::path::Path;

/// Makes Cargo run the build script again if a file in one of these folders changes, or one in the sources of these
/// crates.
pub fn watch(top: &str, folders: &[&str], crates: &[(&str, &str)]) {
    let sources = crates.iter().map(|(name, _)| format!("crates/{name}/src"));
    for folder in sources.chain(folders.iter().map(|&it| it.into())) {
        println!("cargo::rerun-if-changed={}", Path::new(top).join(folder).display());
    }
}
