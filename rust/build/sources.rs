//! Makes the sources of a package from the proved ones: puts contracts in comments, applies rows, and roots paths.

use crate::contracts::{Precondition, commented, is_in_word};
use std::collections::BTreeSet;
use std::fs;
use std::path::{Path, PathBuf};

/// The length of the tokens at the beginning of a text, with white space and contracts between them. `None` if the text
/// begins with other tokens.
fn taken(text: &str, tokens: &str) -> Option<usize> {
    let mut rest = text;
    for sign in tokens.chars().filter(|it| !it.is_whitespace()) {
        while let Some((_, after)) = rest.trim_start().strip_prefix("/*").and_then(|it| it.split_once("*/")) {
            rest = after;
        }
        rest = rest.trim_start().strip_prefix(sign)?;
    }
    (!tokens.ends_with(is_in_word) || !rest.starts_with(is_in_word)).then_some(text.len() - rest.len())
}

/// Whether a place is in a comment.
fn is_comment(text: &str, at: usize) -> bool {
    let line = text[..at].rfind('\n').map_or(0, |it| it + 1);
    text[line..at].contains("//") || text[..at].rfind("/*") > text[..at].rfind("*/")
}

/// Replaces tokens wherever they are in code. Returns the number of places.
fn replace(text: &mut String, old: &str, new: &str) -> usize {
    let (mut left, mut end, mut met) = (String::new(), 0, 0);
    for (at, _) in text.match_indices(old.split(char::is_whitespace).next().unwrap_or(old)) {
        let is_inside = old.starts_with(is_in_word) && text[..at].ends_with(|it| it == '$' || is_in_word(it));
        let Some(length) = taken(&text[at..], old).filter(|_| at >= end && !is_inside && !is_comment(text, at)) else {
            continue;
        };
        let lines = text[at..at + length].matches('\n').count();
        let more = lines.checked_sub(new.matches('\n').count()).expect("a row has no more lines than it replaces");
        left = left + &text[end..at] + new + &"\n".repeat(more);
        end = at + length;
        met += 1;
    }
    *text = left + &text[end..];
    met
}

pub fn read(path: &Path) -> String {
    let text = fs::read_to_string(path).unwrap_or_else(|error| panic!("{}: {error}", path.display()));
    text.replace("\r\n", "\n")
}

/// The files with an extension in a folder and its subfolders, in order, without an editor's such as `.#lib.rt`.
pub fn files_in(folder: &Path, extension: &str) -> Vec<PathBuf> {
    let entries = fs::read_dir(folder).unwrap_or_else(|error| panic!("{}: {error}", folder.display()));
    let mut paths: Vec<_> = entries.map(|it| it.expect("the folder is read").path()).collect();
    paths.sort();
    paths.retain(|it| !it.file_name().is_some_and(|name| name.as_encoded_bytes().starts_with(b".")));
    paths.retain(|it| it.is_dir() || it.extension().is_some_and(|its| its == extension));
    paths.into_iter().flat_map(|it| if it.is_dir() { files_in(&it, extension) } else { vec![it] }).collect()
}

fn write(path: &Path, text: &str) {
    let folder = path.parent().expect("it is in a folder");
    let written = fs::create_dir_all(folder).and_then(|()| fs::write(path, text));
    written.unwrap_or_else(|error| panic!("{}: {error}", path.display()));
}

/// A source that is being changed.
pub struct Source {
    /// Its path in the repository.
    pub path: String,
    /// The module that its crate becomes, and the path of its own module there.
    pub module: &'static str,
    place: PathBuf,
    text: String,
    pub preconditions: Vec<Precondition>,
}

/// The sources of proved crates. Each crate becomes a module.
pub struct Sources {
    pub top: PathBuf,
    crates: &'static [(&'static str, &'static str)],
    pub all: Vec<Source>,
}

impl Sources {
    /// Reads the sources in the folder `crates` of the repository at `top`, except those whose paths there begin with
    /// one of `left_out`.
    pub fn read(top: &Path, crates: &'static [(&str, &str)], left_out: &[&str]) -> Self {
        let mut sources = Vec::new();
        for (name, module) in crates {
            let folder = top.join("crates").join(name).join("src");
            for file in files_in(&folder, "rt") {
                let place = file.strip_prefix(&folder).expect("it is in the folder");
                let path = format!("{name}/src/{}", place.display()).replace('\\', "/");
                if left_out.iter().any(|it| path.starts_with(it)) {
                    continue;
                }
                let path = format!("crates/{path}");
                let is_root = place.ends_with("lib.rt") || place.ends_with("main.rt");
                let place = if is_root { Path::new("mod.rs") } else { &place.with_extension("rs") };
                let (text, preconditions) = commented(&read(&file)).unwrap_or_else(|why| panic!("{path}: {why}"));
                sources.push(Source { path, module, place: place.to_owned(), text, preconditions });
            }
        }
        Sources { top: top.to_owned(), crates, all: sources }
    }

    /// Checks that the preconditions are those in a file. Each line there has a precondition, a colon, and the
    /// functions with it, or `*` for any function. Other lines tell what checks the preconditions below them.
    pub fn check_preconditions(&self, list: &str, is_of: impl Fn(&str) -> bool) {
        let text = read(&self.top.join(list));
        let lines = text.lines().filter(|it| !it.starts_with('#')).filter_map(|it| it.rsplit_once(": "));
        let listed = lines.flat_map(|(condition, names)| names.split(' ').map(move |it| (it, condition)));
        let mut unmet: BTreeSet<_> = listed.collect();
        let listed = unmet.clone();
        for source in self.all.iter().filter(|it| is_of(&it.path)) {
            for (name, condition) in &source.preconditions {
                let ways = [(name.as_str(), condition.as_str()), ("*", condition.as_str())];
                unmet.retain(|it| !ways.contains(it));
                if !ways.iter().any(|it| listed.contains(it)) {
                    panic!("`{name}` in {} has the precondition `{condition}`, which {list} doesn't name", source.path);
                }
            }
        }
        assert!(unmet.is_empty(), "{list} names preconditions that no function has: {unmet:?}");
    }

    /// Applies the rows of a file. A row has the path of a source, or `everywhere`; the text after `-` is replaced by
    /// that after `+`. A source has that text exactly once. A line that begins with `# ` is a remark.
    pub fn apply(&mut self, rows: &str) {
        let text = read(&self.top.join(rows));
        let text: String = text.split_inclusive('\n').filter(|it| !it.starts_with("# ")).collect();
        for row in text.trim().split("\n\n") {
            let (place, lines) = row.split_once('\n').expect("a row has more than one line");
            let of = |sign| lines.lines().filter_map(move |it| it.strip_prefix(sign)).collect::<Vec<_>>();
            let (old, new) = (of("- ").join("\n"), of("+ "));
            // A comment needs a line of its own.
            let new = new.join(if new.iter().any(|it| it.contains("//")) { "\n" } else { " " });
            let met = self.replace(|it| place == "everywhere" || it.path == place, &old, &new);
            assert!(met == 1 || place == "everywhere" && met > 1, "a row of {rows} is met {met} times: {row}");
        }
    }

    /// Replaces tokens in some of the sources. Returns the number of places.
    pub fn replace(&mut self, is_one: impl Fn(&Source) -> bool, old: &str, new: &str) -> usize {
        self.all.iter_mut().filter(|it| is_one(it)).map(|it| replace(&mut it.text, old, new)).sum()
    }

    /// Writes the module `sources` into a folder of this name. It allows rustc and clippy what `allowed` says, and adds
    /// an import to each file. Paths begin at the module that a crate becomes; `$crate` is the package's root.
    pub fn write(mut self, folder: &Path, allowed: &str, import: &str) {
        for Source { module, place, text, .. } in &mut self.all {
            replace(text, "crate::", &format!("$crate::sources::{module}::"));
            for (name, module) in self.crates {
                replace(text, &format!("{name}::"), &format!("$crate::sources::{module}::"));
            }
            write(&folder.join(module).join(place), &format!("{}{import}\n", text.replace("$crate", "crate")));
        }
        let modules: String = self.crates.iter().map(|it| format!("pub mod {};\n", it.1)).collect();
        write(&folder.join("mod.rs"), &format!("{allowed}\n\n{modules}"));
    }
}
