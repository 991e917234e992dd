//! Makes the packages `dwexpr` and `dwexpr-conformance` as they are published, in a new folder. The first one has the
//! translated sources in `src`, so it needs no build script. Nothing in them leads out of them.
//!
//!     cargo run --manifest-path rust/package/Cargo.toml FOLDER
//!
//! Then `cargo publish` in FOLDER/dwexpr publishes the first one.

#[path = "../build/contracts.rs"]
mod contracts;
#[path = "../build/sources.rs"]
mod sources;
#[path = "../build/translation.rs"]
mod translation;

use std::path::{Path, PathBuf};
use std::process::ExitCode;
use std::{env, fs, io};

/// Files and folders that are copied, and their places in a package.
type Copied = &'static [(&'static str, &'static str)];

const DWEXPR: Copied = &[
    ("rust/src", "src"),
    ("rust/benches", "benches"),
    ("rust/examples", "examples"),
    ("rust/tests", "tests"),
    ("tests/conformance/README.md", "tests/conformance/README.md"),
    ("tests/conformance/gimli.md", "tests/conformance/gimli.md"),
    ("tests/conformance/rows", "tests/conformance/rows"),
    ("tests/conformance/src", "tests/conformance/src"),
    ("tests/counts.json", "tests/counts.json"),
    ("tests/rows", "tests/rows"),
    ("tests/vectors", "tests/vectors"),
    ("rust/README.md", "README.md"),
    ("docs/DECISIONS.md", "docs/DECISIONS.md"),
    ("docs/DIFFERENCES.md", "docs/DIFFERENCES.md"),
    ("docs/PROOFS.md", "docs/PROOFS.md"),
    ("CHANGELOG.md", "CHANGELOG.md"),
    ("LICENSE-APACHE", "LICENSE-APACHE"),
    ("LICENSE-MIT", "LICENSE-MIT"),
];
const CONFORMANCE: Copied = &[
    ("tests/conformance/README.md", "README.md"),
    ("tests/conformance/gimli.md", "gimli.md"),
    ("tests/conformance/rows", "rows"),
    ("tests/conformance/src", "src"),
    ("tests/rows", "rows"),
    ("tests/vectors", "vectors"),
    ("LICENSE-APACHE", "LICENSE-APACHE"),
    ("LICENSE-MIT", "LICENSE-MIT"),
];
/// What isn't: pages that are in the translated sources, and a test that needs files outside of the repository.
const LEFT_OUT: &[&str] = &["rust/src/pages", "rust/tests/upstream.rs"];
/// How a build from the repository finds the translated sources. The package has them as a module.
const INCLUDED: &str = "include!(concat!(env!(\"OUT_DIR\"), \"/lib.rs\"));";

/// A package's manifest, from the repository's: without the workspace, the build script, the list of files and the test
/// that is left out. What is in the folder `rust` there is at the top here.
fn manifest(text: &str) -> String {
    let is_left_out = |paragraph: &&str| {
        paragraph.starts_with("[workspace]") || LEFT_OUT.iter().any(|it| paragraph.contains(&format!("\"{it}\"")))
    };
    let (before, list) = text.split_once("include = [\n").unwrap_or((text, ""));
    let text = before.to_owned() + list.split_once("]\n").map_or("", |(_, after)| after);
    let paragraphs: Vec<_> = text.split("\n\n").filter(|it| !is_left_out(it)).collect();
    let is_published = |line: &&str| !["build = ", "publish = ", "#"].iter().any(|it| line.starts_with(it));
    let package: Vec<_> = paragraphs[0].lines().filter(is_published).collect();
    let text = [&[package.join("\n").as_str()], &paragraphs[1..]].concat().join("\n\n");
    text.replace("\"rust/", "\"")
}

/// Whether a file is nearer to the top in the package than in the repository.
fn is_nearer(from: &Path, to: &Path) -> bool {
    from.components().count() > to.components().count()
}

/// A page whose links stay in the package. The text of a link that would lead out of it is no link.
fn page(text: &str, from: &Path, place: &Path, copied: Copied) -> String {
    let is_nearer = is_nearer(from, place);
    let (mut left, mut rest) = (String::new(), text);
    while let Some((before, after)) = rest.split_once("](") {
        let (link, after) = after.split_once(')').expect("a link ends");
        let (front, name) = before.rsplit_once('[').expect("a link has a text");
        let link = if is_nearer { link.strip_prefix("../").unwrap_or(link) } else { link };
        let target = link.split('#').next().unwrap_or_default();
        let is_here = |target: &str| copied.iter().any(|(_, to)| place.with_file_name(target).starts_with(to));
        let stays = target.is_empty() || target.contains("://") || is_here(target);
        left = left + front + &if stays { format!("[{name}]({link})") } else { name.to_owned() };
        rest = after;
    }
    left + rest
}

/// A package that is being made.
struct Package<'a> {
    /// The repository.
    top: &'a Path,
    folder: PathBuf,
    copied: Copied,
}

impl Package<'_> {
    /// A file's text in the package. A file that is nearer to the top there names others from there.
    fn adapted(&self, text: String, from: &Path, to: &Path) -> String {
        match to.extension().and_then(|it| it.to_str()) {
            Some("md") => page(&text, from, to, self.copied),
            Some("rs") if is_nearer(from, to) => text.replace("\"../../", "\"../").replace(INCLUDED, "mod sources;"),
            _ => text,
        }
    }

    /// Copies a file, or the files of a folder, from a place in the repository to one in the package.
    fn copy(&self, from: &Path, to: &Path) -> io::Result<()> {
        let (source, target) = (self.top.join(from), self.folder.join(to));
        if LEFT_OUT.iter().any(|it| from == Path::new(it)) {
            return Ok(());
        }
        if source.is_dir() {
            fs::create_dir_all(&target)?;
            for entry in fs::read_dir(source)? {
                let name = entry?.file_name();
                self.copy(&from.join(&name), &to.join(&name))?;
            }
            return Ok(());
        }
        fs::create_dir_all(target.parent().expect("it is in the package"))?;
        fs::write(target, self.adapted(fs::read_to_string(source)?, from, to))
    }

    fn make(&self, manifest_path: &str) -> io::Result<()> {
        for (from, to) in self.copied {
            self.copy(Path::new(from), Path::new(to))?;
        }
        let text = fs::read_to_string(self.top.join(manifest_path))?;
        fs::write(self.folder.join("Cargo.toml"), manifest(&text))
    }
}

fn make(top: &Path, folder: &Path) -> io::Result<()> {
    fs::create_dir(folder)?;
    let package = |name, copied| Package { top, folder: folder.join(name), copied };
    let crate_itself = package("dwexpr", DWEXPR);
    translation::write_sources(top, &crate_itself.folder.join("src"));
    crate_itself.make("Cargo.toml")?;
    package("dwexpr-conformance", CONFORMANCE).make("tests/conformance/Cargo.toml")
}

fn main() -> ExitCode {
    let top = Path::new(env!("CARGO_MANIFEST_DIR")).join("../..");
    let words: Vec<_> = env::args_os().skip(1).collect();
    let [folder] = &words[..] else {
        eprintln!("usage: package FOLDER");
        return ExitCode::from(2);
    };
    match make(&top, Path::new(folder)) {
        Ok(()) => ExitCode::SUCCESS,
        Err(error) => {
            eprintln!("package: {}: {error}", Path::new(folder).display());
            ExitCode::FAILURE
        }
    }
}
