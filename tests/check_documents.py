#!/usr/bin/env python3
"""What the pages name is there.

- Each path in a page leads to a file or folder of the repository; what is built, gimli's files and the web aside. Each
  link to a part of a page finds its heading.
- Each block whose fence names a file has whole lines of that file, and all of them if it is a proof.
- docs/GUIDE.md names exactly the operations that are known and aren't the standard's, and docs/ARCHITECTURE.md each
  crate. Figures of README.md and the guide are those of the sources.
- docs/DIFFERENCES.md names exactly the public names that gimli doesn't have, and the types with a default. DWEXPR_GIMLI
  names a folder with gimli 0.34; without it, the page may have too few names.
- crates/dwarf_expr/CALLING.md has the contract of each public call in the files that it names, and dwarf_example calls
  each.
- c/include/dwexpr.h asserts the place of each field, as docs/PROOFS.md says.
- All files that name the version name one. The manual page has no fault that groff knows, if that is there.

It prints a line for each failure. The last line is `N passed, M failed`.
"""

import fnmatch
import os
import re
import shutil
import subprocess

import checks
from checks import expect
from commands import TOP

# Folders of what is built or kept beside the repository, and no part of it; and those of a package.
BESIDE = {"out", "target", "sources", "__pycache__", ".git", "dist", "lib", "share"}
# Files that aren't here: gimli's, and one that a user may write.
ELSEWHERE = {"op.rs", "value.rs", "config.toml"}
# A quoted path has a slash, or the ending of a file of the repository.
PATH = re.compile(r"`([\w.*/-]*(?:/[\w.*-]*|\.(?:rt|antt|edit|md|py|json|txt|rs|c|h)))`")
# A link: a page, which may be the same one, and perhaps a part of it.
LINK = re.compile(r"\]\(([^)#\s]*)#?([^)\s]*)\)")
HEADING = re.compile(r"^#+ (.*)$", re.MULTILINE)
# Fences, in which nothing is a heading; and those that name a file after their language.
FENCE = re.compile(r"^```.*?^```$", re.MULTILINE | re.DOTALL)
BLOCK = re.compile(r"^```\w+ (\S+)\n(.*?)^```$", re.MULTILINE | re.DOTALL)
# Figures of README.md and docs/GUIDE.md, and a file that has the same.
FIGURES = [
    (r"(\d+)\s+values,\s+(\d+)\s+callers\s+and\s+(\d+)\s+pieces", "c/include/dwexpr.h", r"DWEXPR_MAX_\w+ (\d+)"),
    (r"at most ([\d,]+) bytes", "c/include/dwexpr.h", r"DWEXPR_EVALUATION_SIZE (\d+)"),
    (r"`([0-9a-f]{16})`", "docs/PROOFS.md", r"`([0-9a-f]{16})`"),
]
# The crates that users of the library name, and gimli's files that have the same.
CRATES = ("base", "value", "op", "eval", "replay", "expr")
GIMLI = ["lib.rs", "common.rs", "endianity.rs", "constants.rs"]
GIMLI += [f"read/{name}.rs" for name in ("endian_slice", "mod", "op", "reader", "util", "value")]
# Public names: items, and members of traits and enums.
WORDS = r"(?:fn|struct|enum|trait|type|const|mod)"
ITEM = re.compile(rf"^ *pub (?:const |final )*{WORDS} (\w+)|^pub use .*::([A-Z]\w+);", re.MULTILINE)
TYPE = re.compile(r"^pub (?:enum|trait) (\w+)[^{]*\{\n(.*?)^\}", re.MULTILINE | re.DOTALL)
MEMBER = re.compile(r"^    (?:final )?(?:(?:fn|const|type) (\w+)|([A-Z]\w+)[,({ ])", re.MULTILINE)
IN_GIMLI = re.compile(rf"\b{WORDS} (\w+)|^    ([A-Z]\w+)|\b(D[wW]\w+)", re.MULTILINE)
DEFAULT = re.compile(r"^pub (?:struct|enum) (\w+)<(?:[^>({]*, )?\w+ = ", re.MULTILINE)
# A public call with a contract: its name, and the rest up to its body.
CALL = re.compile(r"^ *pub fn (\w+)((?:(?!\n *(?:pub )?fn ).)*?)\n *\{(?:\})?$", re.MULTILINE | re.DOTALL)
QUOTED = re.compile(r"`(\w+)`")
# The files and folders of the repository; an editor's are none.
PLACES = [it.relative_to(TOP) for it in TOP.rglob("*") if not re.match(r"\.?#|.*(?:\.sw.|~)$", it.name)]
PLACES = {str(it) for it in PLACES if not BESIDE.intersection(it.parts)}


def read(path):
    return (TOP / path).read_text(encoding="utf-8")


def paths(page, text):
    """A quoted path may begin at the top, at the page's folder, or at any other."""
    for path in sorted(set(PATH.findall(text))):
        if not (BESIDE | ELSEWHERE).intersection(path.split("/")):
            there = any(fnmatch.fnmatch(f"/{place}", f"*/{path.rstrip('/')}") for place in PLACES)
            expect(there, f"{page} names {path}, which isn't there")


def links(page, text):
    for path, part in LINK.findall(text):
        there = os.path.normpath(os.path.join(os.path.dirname(page), path)) if path else page
        if "://" not in path:
            expect(there in PLACES, f"{page} links to {path}, which isn't there")
            headings = HEADING.findall(FENCE.sub("", read(there))) if part else []
            found = part in {re.sub(r"\s", "-", re.sub(r"[^\w\s-]", "", it.lower())) for it in headings}
            expect(found or not part, f"{page} links to {path}#{part}, which isn't there")


def blocks(page, text):
    for path, block in BLOCK.findall(text):
        shown = block == read(path) if "/proofs/" in path else f"\n{block}" in f"\n{read(path)}"
        expect(shown, f"a block of {page} isn't what stands in {path}")


def figures(page, text):
    for pattern, path, there in FIGURES if page in ("README.md", "docs/GUIDE.md") else ():
        for found in re.findall(pattern, text):
            named, known = [found] if isinstance(found, str) else found, set(re.findall(there, read(path)))
            same = known.issuperset(it.replace(",", "") for it in named)
            expect(same, f"{page} names {' and '.join(named)}, and {path} has {known}")


# What names the version, and how.
VERSIONS = {
    "Cargo.toml": r'^version = "(.*)"',
    "c/Cargo.toml": r'^version = "(.*)"',
    "c/include/dwexpr.h": r'^#define DWEXPR_VERSION "(.*)"',
    "crates/dwexpr_cli/src/help.rt": r'"dwexpr (.*)\\n"',
    "man/dwexpr.1": r'^\.TH .* "dwexpr (.*?)"',
}


def versions(wanted):
    for path, pattern in VERSIONS.items():
        found = re.findall(pattern, read(path), re.MULTILINE)
        expect(found == [wanted], f"{path} has the version {found}, and CHANGELOG.md {wanted}")


def manual(page):
    if not shutil.which("groff"):
        print("left out: the manual page: there is no groff")
        return
    words = ["groff", "-ww", "-man", "-t", "-Tutf8", "-z"]
    said = subprocess.run(words, input=page, capture_output=True, text=True, check=False).stderr
    expect(not said, "man/dwexpr.1", said)


def shown(call, contract):
    """A call as CALLING.md shows it: `S` and `S'` are what `self` is at the call and at the return."""
    signature, *clauses = [" ".join(it.split()) for it in re.split(r"\n *(?=requires|ensures)", contract)]
    clauses = [re.sub(r"^([\w ]+?) \{ (.*) \}$", r"\1: \2", it) for it in clauses]
    text = "\n  ".join([f"fn {call}{signature}".replace("( ", "(").replace(", )", ")"), *clauses])
    return re.sub(r"\bself\.(?:old|now)\b", "S", re.sub(r"\bself\.new\b", "S'", text))


def calling(page, text):
    """A file, and then the contract of each public call in it; and calls of each."""
    example = "\n".join(it.read_text(encoding="utf-8") for it in (TOP / "crates/dwarf_example/src").glob("*.rt"))
    for path, listed in re.findall(r"^(\w+/\S+\.rt)\n(.*?)\n(?:\n|```)", text, re.MULTILINE | re.DOTALL):
        known = CALL.findall(read(f"crates/{path}"))
        same = listed.split() == " ".join(shown(*it) for it in known).split()
        expect(known and same, f"{page} doesn't have the contracts of {path}")
        for call, _ in known:
            expect(re.search(rf"\b{call}\(", example), f"dwarf_example doesn't call {call} of {path}")


# What is wrong on purpose.
WRONG = [
    (calling, "dwarf_replay/src/stepping.rt\nfn take_step()\n```"),
    (paths, "`tests/nothing.py`"),
    (links, "[a page](nothing.md)"),
    (links, "[a part](README.md#nothing)"),
    (blocks, "```rust bin/test\nnothing\n```\n"),
    (figures, "at most 1 bytes"),
]


def found(pattern, text):
    """What the groups of a pattern find."""
    return {it for groups in pattern.findall(text) for it in ([groups] if isinstance(groups, str) else groups) if it}


def differences(page, text):
    """Names that gimli doesn't have, but for members of such types; and defaults of type parameters."""
    sources = [it for name in CRATES for it in (TOP / f"crates/dwarf_{name}/src").rglob("*.rt")]
    sources = "\n".join(it.read_text(encoding="utf-8") for it in [*sources, *(TOP / "rust/src").rglob("*.rs")])
    sources = re.sub(r"#\[doc\(hidden\)\]\n.*", "", sources)
    folder = os.environ.get("DWEXPR_GIMLI")
    theirs = found(IN_GIMLI, "\n".join(read(f"{folder}/src/{it}") for it in GIMLI)) if folder else set()
    ours = found(ITEM, sources)
    for name, members in TYPE.findall(sources):
        ours |= found(MEMBER, members) if name in theirs or not folder else set()
    names, defaults = text.split("\n## Names of our own\n")[1].split("\nBy default, ")
    named = found(QUOTED, "\n".join(re.findall(r"^\| (`.*?) \|", names, re.MULTILINE))) - {"_laws"}
    own = {it for it in ours - theirs if not it.endswith("_laws")}
    if not folder:
        print("left out: public names that gimli doesn't have: DWEXPR_GIMLI names no folder")
        own &= named
    expect(named == own, f"{page} and the sources differ in names of our own: {sorted(named ^ own)}")
    known = found(DEFAULT, sources)
    expect(known <= found(QUOTED, defaults), f"{page} doesn't have all types with a default: {sorted(known)}")


def main():
    for check, text in WRONG:
        checks.expect_failure(check, "README.md", text)
    for page in sorted(place for place in PLACES if place.endswith(".md")):
        for check in (paths, links, blocks, figures):
            check(page, read(page))
    versions(re.search(r"^## (.*)$", read("CHANGELOG.md"), re.MULTILINE)[1])
    checks.expect_failure(versions, "0.0.0")
    page = read("man/dwexpr.1")
    manual(page)
    if shutil.which("groff"):
        checks.expect_failure(manual, f"{page}.nothing\n")
    calling("CALLING.md", read("crates/dwarf_expr/CALLING.md"))
    page = read("docs/DIFFERENCES.md")
    differences("docs/DIFFERENCES.md", page)
    checks.expect_failure(differences, "docs/DIFFERENCES.md", page.replace("`copy_of`", "`copy`"))
    header = re.sub(r"/\*.*?\*/", "", read("c/include/dwexpr.h"), flags=re.DOTALL)
    for struct, fields in re.findall(r"^typedef struct (\w+) \{\n(.*?)^\}", header, re.MULTILINE | re.DOTALL):
        for field in re.findall(r"(\w+);", fields):
            there = f"\nDWEXPR_AT({struct}, {field}, " in header
            expect(there, f"dwexpr.h doesn't assert the place of {struct}.{field}")
    # The guide names the standard's operations by its section, and all others, which are from DW_OP_lo_user on.
    named = read("docs/GUIDE.md").split("\n## The operations\n")[1].split("\n## ")[0]
    known = re.findall(r"^pub const (DW_OP_\w+): DwOp = DwOp\(0x[ef]", read("crates/dwarf_base/src/constants.rt"), re.M)
    same = set(re.findall(r"`(DW_OP_\w+)`", named)) == set(known)
    expect(same, "docs/GUIDE.md names other operations of vendors than are known")
    for name in re.findall(r"^(\w+)", read("crates.txt"), re.MULTILINE):
        expect(f"\n| `{name}` |" in read("docs/ARCHITECTURE.md"), f"docs/ARCHITECTURE.md has no row of {name}")


if __name__ == "__main__":
    checks.end_with(main, __doc__)
