//! The sources of the Rust crate, made from the proved ones.

use crate::sources::{Source, Sources, files_in, read};
use std::path::Path;

/// The crates that it has, and the module that each becomes.
pub const CRATES: &[(&str, &str)] = &[
    ("dwarf_base", "base"),
    ("dwarf_value", "value"),
    ("dwarf_meaning", "meaning"),
    ("dwarf_op", "op"),
    ("dwarf_eval", "eval"),
];
// For these the crate has code written by hand: the lists of the first two take an allocator, and gimli's traits have
// more than those of the third.
const BY_HAND: &[&str] =
    &["dwarf_eval/src/store/heap.rt", "dwarf_eval/src/eval/heap.rt", "dwarf_eval/src/store/storage.rt"];
// Why lints are allowed: the functions that state laws aren't called, only a list on the heap hands out its pieces,
// opcodes have the standard's names, and `crate::casts` has two methods that std has from 1.87 on.
const ALLOWED: &str = "#![allow(dead_code, unused_imports, non_upper_case_globals, unstable_name_collisions)]
#![allow(clippy::incompatible_msrv, clippy::manual_range_patterns, clippy::module_inception)]
#![allow(clippy::redundant_pattern_matching, clippy::should_implement_trait, clippy::upper_case_acronyms)]";

/// Adds `_unchecked` to the names of the public methods with this precondition, and to all calls of them. The code that
/// is written by hand has the old names, and checks the precondition.
fn rename_unchecked(sources: &mut Sources, condition: &str) {
    let all = sources.all.iter().flat_map(|it| &it.preconditions).filter(|it| it.1 == condition);
    for name in all.map(|it| it.0.clone()).collect::<Vec<_>>() {
        let met = sources.replace(|_| true, &format!("pub fn {name}("), &format!("pub(crate) fn {name}_unchecked("));
        assert!(met == 1, "{met} public functions are `{name}`, whose precondition is `{condition}`");
        sources.replace(|_| true, &format!(".{name}("), &format!(".{name}_unchecked("));
    }
}

/// Does the same for the public methods in these sources that have a precondition. The sources don't call them.
fn rename_uncalled(sources: &mut Sources) {
    for path in ["crates/dwarf_eval/src/eval/evaluation.rt", "crates/dwarf_eval/src/op/expressions.rt"] {
        let is_its = |it: &Source| it.path == path;
        let all = sources.all.iter().filter(|it| is_its(it)).flat_map(|it| &it.preconditions);
        let mut names: Vec<_> = all.map(|it| it.0.clone()).collect();
        names.dedup();
        for name in names {
            sources.replace(is_its, &format!("pub fn {name}("), &format!("pub(crate) fn {name}_unchecked("));
        }
    }
}

/// Appends the pages in a folder, which have an example each, to the docs of public items: `base/Reader.md` goes to
/// the item `Reader` in the module `base`.
fn add_pages(sources: &mut Sources, folder: &str) {
    let folder = sources.top.join(folder);
    for page in files_in(&folder, "md") {
        let module = page.parent().and_then(|it| it.strip_prefix(&folder).ok()?.to_str()).expect("it is in the folder");
        let name = page.file_stem().and_then(|it| it.to_str()).expect("it has a name");
        let items = ["trait", "struct", "enum", "fn"].map(|kind| format!("pub {kind} {name}"));
        let doc = format!("#[doc = {:?}]", read(&page));
        let met: usize =
            items.iter().map(|it| sources.replace(|of| of.module == module, it, &format!("{doc} {it}"))).sum();
        assert!(met == 1, "{} is of {met} items", page.display());
    }
}

/// Writes the module `sources` into a folder, from the repository at `top`.
pub fn write_sources(top: &Path, folder: &Path) {
    let mut sources = Sources::read(top, CRATES, BY_HAND);
    sources.check_preconditions("rust/build/preconditions", |_| true);
    sources.apply("rust/build/rows/both");
    sources.apply("rust/build/rows/rust");
    rename_unchecked(&mut sources, "IsAddressMask addr_mask");
    rename_uncalled(&mut sources);
    add_pages(&mut sources, "rust/src/pages");
    sources.write(&folder.join("sources"), ALLOWED, "use crate::casts::{CastSigned as _, CastUnsigned as _};");
}
