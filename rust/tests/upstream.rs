//! gimli's own tests, in a package of its own, since they need files outside of the repository.

use std::path::Path;
use std::process::Command;

#[test]
#[cfg_attr(not(gimli_tests), ignore = "the variable GIMLI_TESTS has to name a folder with gimli's own tests")]
fn gimlis_own_tests_pass() {
    let folder = Path::new(env!("CARGO_MANIFEST_DIR")).join("tests/upstream");
    let target = Path::new(env!("CARGO_TARGET_TMPDIR")).join("upstream");
    let mut cargo = Command::new(env!("CARGO"));
    cargo.args(["test", "--quiet", "--lib"]).current_dir(folder).env("CARGO_TARGET_DIR", target);
    assert!(cargo.status().expect("Cargo runs").success());
}
