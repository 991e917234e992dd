#!/usr/bin/env python3
"""Judges what the build scripts of the Rust crate, of the library for C and of the program make of the proved sources,
by a second reader, which goes by tokens.

- Each file that is written has the tokens of its source, each in its line, docs too, without contracts and after the
  rows.
- A row changes attributes and bounds that can't change what a function does, or is one of PAIRS.
- What has a precondition isn't public, as its name says, or the list of preconditions says who checks it.

It wants rustc, and no Rattle kit. The last line is `N passed, M failed`.
"""

import functools
import os
import re

import checks
from checks import commands, expect
from commands import TOP

# White space, a comment, a lifetime, a word or a number, or one sign.
TOKEN = re.compile(r"\s+|//[^\n]*|/\*.*?\*/|'[a-z_]\w*|\w+|.", re.DOTALL)
# Each token is a line. A block is all between braces.
BLOCK = r"\{\n\}\n"
for _ in range(12):
    BLOCK = rf"\{{\n(?:[^{{}}].*\n|{BLOCK})*\}}\n"
HEAD = r"(?:[^{};].*\n)*?"
CLAUSE = rf"(?:requires|ensures)\n(?:\*\n)?(?:[^{{*].*\n)?{BLOCK}"
GHOST = rf"(?:pub\n(?:\(\ncrate\n\)\n)?)?ghost\n(?:use\n{HEAD}(?:{BLOCK})?;\n|\w+\n[:=]\n{BLOCK}(?:[;,]\n)?)"
ATTRIBUTE = r"#\n(?:!\n)?\[\n(?:tactic\n(?:[^]].*\n)*|derive\n\(\nDrop\n\)\n)\]\n"
# A clone that may fail gives the same bits; Rust derives one.
COPY = r"fn clone ( & self ) - > Result < Self , AllocError > { Ok ( * self ) } }".replace(" ", "\n") + "\n"
MODEL = rf"impl\n{HEAD}(?:Model\nfor\n{HEAD}{BLOCK}|Clone\nfor\n{HEAD}\{{\n(?:{GHOST})*{re.escape(COPY)})"
IMPORT = r"use\nstd\n:\n:\n(?:marker\n:\n:\nModel|alloc\n:\n:\nAllocError)\n;\n"
CONTRACT = f"^(?:{CLAUSE}|{GHOST}|{ATTRIBUTE}|{MODEL}|{IMPORT}|final\n(?=fn\n))"
# A function with contracts, and a trait. A clause may have a name.
SEEN = r"pub\n(?:\(\ncrate\n\)\n|extern\n.*\n.*\n.*\n)?"
CONTRACTED = re.compile(rf"^({SEEN})?(?:final\n)?fn\n(\w+)\n{HEAD}((?:{CLAUSE})+)", re.MULTILINE)
EXPORTED = "pub extern \" C \" ".replace(" ", "\n")
TRAIT = re.compile(rf"^pub\ntrait\n{HEAD}{BLOCK}", re.MULTILINE)
REQUIRED = re.compile(rf"^requires\n(?:[^{{].*\n)?({BLOCK})", re.MULTILINE)

# Attributes that don't change what a function does.
ATTRIBUTES = {
    "#[cold]",
    "#[inline]",
    "#[inline(always)]",
    "#[inline(never)]",
    '#[cfg_attr(not(any(feature = "small", debug_assertions)), inline(always))]',
    "#[non_exhaustive]",
    "#[repr(usize)]",
}
# Traits that are bounds.
BOUNDS = "Clone Copy core::fmt::Debug core::hash::Hash Debug Default Drop Eq Ord $crate::orders::LittleOrBig".split()
# What else a row replaces, and by what.
PAIRS = {
    # A clone is that of each field.
    "#[derive(Copy": "#[derive(Clone, Copy",
    "{Model, PhantomData}": "PhantomData",
    # With a feature.
    "mod arrays;": '#[cfg(feature = "arrayvec")] mod arrays;',
    # Written by hand.
    "mod heap;": "",
    "pub use heap::StoreOnHeap;": "",
    "#[inline] fn offset_id(&self) -> ReaderOffsetId { ReaderOffsetId(0) }": "",
    "Debug, PartialEq, Eq)] #[repr(u8)] pub enum Operation": "PartialEq, Eq)] #[repr(u8)] pub enum Operation",
    "mod storage;": "use $crate::storage;",
    # A reader is cloned.
    "where Self: Copy,": "",
    "{ *it }": "{ it.clone() }",
    # Names.
    "pub fn number": "pub(crate) fn number",
    "bytes: R,": "data: R,",
    "bytes: long_block": "data: long_block",
    "ImplicitValue { bytes }": "ImplicitValue { data: bytes }",
    "ImplicitValue { bytes: block }": "ImplicitValue { data: block }",
    "ArrayLike": "List",
    # Types.
    "S::Stack": "$crate::storage::ListOf<S::Stack>",
    "S::ExpressionStack": "$crate::storage::ListOf<S::ExpressionStack>",
    "S::Result": "$crate::storage::PiecesOf<S::Result>",
    "S: EvaluationStorage<R>> { machine: Machine<R, S>, }": """#[cfg(feature = "alloc")]
    S: EvaluationStorage<R> = $crate::StoreOnHeap, #[cfg(not(feature = "alloc"))]
    S: EvaluationStorage<R>> { pub(crate) machine: Machine<R, S>, }""",
    # C: exports that are written by hand.
    '#[unsafe(no_mangle)] pub extern "C" fn': "pub fn",
    """use crate::answers::DwexprAnswer; use crate::encodings::DwexprEncoding; use crate::memory::DwexprEvaluation;
    use crate::operations::DwexprOperation; use crate::outcomes::DwexprOutcome; use crate::pieces::DwexprPiece;
    use crate::settings::DwexprSettings; use crate::texts::DwexprText; use crate::values::DwexprValue;""":
    """pub use self::{answers::*, computing::*, decoding::*, encodings::*, evaluations::*, memory::*, operations::*};
    pub use self::{outcomes::*, pieces::*, settings::*, texts::*, values::*};""",
    "pub bytes: &'a [u8],": "pub bytes: $crate::exports::Bytes<'a>,",
    "if text.bytes.is_empty() { &[] } else { text.bytes }": "text.bytes.slice()",
    # The program: the Rust crate has what the crates below have, and the kit's library is written by hand.
    "dwarf_base::": "$crate::library::",
    "dwarf_value::": "$crate::library::",
    "dwarf_eval::eval::": "$crate::library::",
    "dwarf_eval::op::": "$crate::library::",
    "dwarf_eval::store::": "$crate::kit::store::",
    "std::": "$crate::kit::",
    "use hex::FromHexError;": "use $crate::kit::hex::{self, FromHexError};",
    "fmt<W: fmt::Write>(&self, f: &mut Formatter<W>)": "fmt(&self, f: &mut Formatter<'_>)",
    # The crate's evaluation takes no allocator, its steps are cloned, and it may have more errors.
    "Evaluation::new( alloc, text,": "Evaluation::new_in( text,",
    "steps[index]": "steps[index].clone()",
    'Error::StackFull => ("StackFull", None),': '_ => ("StackFull", None),',
    # Laws, which are left out.
    "mod equality;": "",
    "pub use equality::{answer_equality_laws, step_equality_laws};": "",
    "fn main": "pub fn main",
}
# What a file ends with.
CASTS = "use crate::casts::{CastSigned as _, CastUnsigned as _};\n"
# Of each package its build script, its folder, its rows, what it adds to each file, and its list of preconditions.
PACKAGES = {
    "rust": ("rust/build/main.rs", ".", ["both", "rust"], CASTS, "rust/build/preconditions"),
    "c": ("c/build.rs", "c", ["both", "c"], CASTS, "c/preconditions"),
    "program": ("program/build.rs", "program", ["program"], "use crate::kit::prelude::*;\n", "program/preconditions"),
}
# The crates whose modules have other names than theirs without `dwarf_`, and other roots than `lib.rt`.
CRATES = {"c": "dwexpr_c", "cli": "dwexpr_cli", "program": "dwexpr"}
ROOTS = {"program": "main"}
CLAUSE_OF_FROM = "ensures { Returns (λ r. r.0) result (register_of register) }"
CLAUSE_OF_TURN = "requires runs { self.old.status ≡ Running }"


def row(file, path, old, new):
    """A row that is added to a file of rows, and what it changes in what is written."""
    added = f"{path}\n- {old}\n+ {new}\n\n# "
    return [(f"rows/{file}", "# ", added), (place_of(path), old, new)]


def wrong_in_package():
    """Changes that are refused: of what is written, of rows, or of sources."""
    operations, types = "crates/dwarf_eval/src/run/operations.rt", "crates/dwarf_value/src/types.rt"
    constants, machine = "crates/dwarf_base/src/constants.rt", "crates/dwarf_eval/src/run/machine.rt"
    turns, values = "crates/dwarf_eval/src/run/turns.rt", "crates/dwarf_value/src/arithmetic.rt"
    maximum = "self.iteration >= self.max_iterations"
    return {
        "a token of code is deleted": [("base/reading.rs", "Ok(number as u8)", "Ok(number)")],
        "a token is in another line": [("base/reading.rs", "Ok(number as u8)\n", "Ok(number as\nu8)")],
        "a contract is left": [("base/common.rs", f"/* {CLAUSE_OF_FROM} */", CLAUSE_OF_FROM)],
        "a type is changed": [("base/common.rs", "pub address_size: u8,", "pub address_size: u16,")],
        "docs are lost": [("base/common.rs", "/// Offsets have 4 bytes.", "// Offsets have 4 bytes.")],
        "anyone may call what has a precondition": [("value/masks.rs", "pub fn", "pub fn x_unchecked() {} pub fn")],
        "a row is met more often": row("both", machine, "#[inline(always)]", "#[cold]"),
        "a row changes a comparison": row("both", machine, maximum, f"{maximum} - 1"),
        "a row changes a constant": row("both", constants, "addr: DwOp = DwOp(0x03)", "addr: DwOp = DwOp(0x04)"),
        "a row changes a name": row("both", constants, "DW_OP_addr: DwOp", "DW_OP_address: DwOp"),
        "a row empties a value": row("both", operations, "StackValue => self.locate_value()", "StackValue => {}"),
        "a row redirects an import": row("both", turns, "use dwarf_base::{Error,", "use crate::casts::{Error,"),
        "a row replaces a derive": row("both", types, "Copy, Debug, PartialEq, Eq", "Copy, Debug, Eq"),
        "a row adds an attribute": row("both", values, "pub fn add", '#[cfg(feature = "small")] pub fn add'),
        "a pair has another end": [("rows/both", "+ #[derive(Clone, Copy", "+ #[derive(Copy, Clone")],
        "a clone that does something": [("crates/dwarf_op/src/operations.rt", "Ok(*self)", "Ok(self.copied())")],
        "a contract doesn't end": [(turns, CLAUSE_OF_TURN, CLAUSE_OF_TURN.removesuffix("}"))],
    }


def wrong_preconditions():
    """The same, of the list of preconditions of the Rust crate."""
    return {
        "a precondition isn't listed": [("preconditions", "IsClosed self.old.status: evaluate\n", "")],
        "a listed precondition is gone": [("preconditions", "\nIsClosed", "\nIsOpen self: evaluate\nIsClosed")],
        "what has a precondition is public": [
            ("eval/eval/evaluation.rs", "pub(crate) fn evaluate_unchecked", "pub fn evaluate")
        ],
    }


def wrong_in_program():
    """The same, for the program."""
    endings = "crates/dwexpr_cli/src/endings.rt"
    return {
        "a token of code is deleted": [("cli/lines.rs", "Some(u64::from(size))", "Some(size)")],
        "a status is another": [("cli/endings.rs", "Ok(MISUSED)", "Ok(FAILED)")],
        "a row changes code": row("program", endings, "MISUSED: u8 = 2", "MISUSED: u8 = 1"),
    }


class Wrong(Exception):
    """Why what is written is refused."""


@functools.cache
def tokens_of(text):
    """The tokens of a text, each with its line, without white space and comments; docs stay."""
    tokens, line = [], 0
    for token in TOKEN.findall(text):
        if not re.match(r"\s|//(?![/!])|/\*", token):
            tokens.append((token, line))
        line += token.count("\n")
    return tokens


def code(tokens):
    """Each token as a line."""
    return "".join(f"{token}\n" for token, _ in tokens)


def substituted(tokens, pattern, new):
    """Tokens with others in place of those that a pattern matches, and how often it does. For a match, `new` has the
    tokens, each with its line from the first that is replaced on."""
    text, left, end = code(tokens), [], 0
    matches = list(re.finditer(pattern, text, re.MULTILINE))
    for match in matches:
        start = text.count("\n", 0, match.start())
        left += tokens[end:start] + [(token, tokens[start][1] + line) for token, line in new(match)]
        end = start + match[0].count("\n")
    return left + tokens[end:], len(matches)


def rows_in(text):
    """The place of each row of a file, what it replaces, and by what."""
    for row in re.sub(r"^# .*\n", "", text, flags=re.MULTILINE).strip().split("\n\n"):
        place, *lines = row.split("\n")
        yield place, *("\n".join(line[2:] for line in lines if line[0] == sign) for sign in "-+")


def without_attributes_and_bounds(text):
    """What a row may not change, unless it is one of PAIRS."""
    text = code(tokens_of(text))
    for attribute in ATTRIBUTES:
        text = text.replace(code(tokens_of(attribute)), "")
    bounds = "|".join(re.escape(code(tokens_of(it))) for it in BOUNDS)
    return re.sub(rf"^[:+]\n(?:{bounds})(?:\+\n(?:{bounds}))*", "", text, flags=re.MULTILINE)


def allow(old, new):
    """Refuses a row that could change code."""
    pairs = {code(tokens_of(one)): code(tokens_of(other)) for one, other in PAIRS.items()}
    is_pair = pairs.get(code(tokens_of(old))) == code(tokens_of(new))
    if not is_pair and without_attributes_and_bounds(old) != without_attributes_and_bounds(new):
        raise Wrong(f"a row changes code: {old}")


def apply(rows, tokens):
    """Applies rows to the tokens of each source, by its path."""
    for place, old, new in rows:
        # A comment needs a line of its own.
        new = tokens_of(new if "//" in new else new.replace("\n", " "))
        met = 0
        for path in tokens if place == "everywhere" else [place]:
            pattern = "^" + re.escape(code(tokens_of(old)))
            tokens[path], times = substituted(tokens[path], pattern, lambda _, new=new: new)
            met += times
        if met != 1 and (place != "everywhere" or not met):
            raise Wrong(f"a row is met {met} times: {place}: {old}")


def module_of(crate):
    """The module that a crate becomes."""
    return next((it for it in CRATES if CRATES[it] == crate), crate.removeprefix("dwarf_"))


def place_of(path):
    """Where a source is written, in the module that its crate becomes."""
    crate, file = re.fullmatch(r"crates/(\w+)/src/(.*)\.rt", path).groups()
    module = module_of(crate)
    return f"{module}/{'mod' if file == ROOTS.get(module, 'lib') else file}.rs"


def path_of(place):
    """The source of what is written."""
    module, file = place.removesuffix(".rs").split("/", 1)
    file = ROOTS.get(module, "lib") if file == "mod" else file
    return f"crates/{CRATES.get(module, f'dwarf_{module}')}/src/{file}.rt"


def rooted(path, tokens):
    """Paths begin at the module that a crate becomes."""
    own = place_of(path).split("/")[0]

    def root(match):
        return tokens_of(f"crate::sources::{module_of(match[1]) if match.lastindex else own}::")

    tokens, _ = substituted(tokens, r"(?<!\$\n)^crate\n:\n:\n", root)
    tokens, _ = substituted(tokens, r"^(dwarf_\w+|dwexpr_\w+)\n:\n:\n", root)
    return substituted(tokens, r"^\$\ncrate\n", lambda _: tokens_of("crate"))[0]


def plain(tokens):
    """Without what tells calls with a precondition."""
    tokens = [(token.removesuffix("_unchecked"), line) for token, line in tokens]
    return substituted(tokens, r"^pub\n\(\ncrate\n\)\n", lambda _: tokens_of("pub"))[0]


def differ(what, ours, theirs):
    """Refuses a difference."""
    at = len(os.path.commonprefix([ours, theirs]))
    if ours[at:] or theirs[at:]:
        raise Wrong(f"{what}: {ours[at : at + 6]}, and {theirs[at : at + 6]} is wanted")


def preconditions_in(text):
    """The name of each function that others can call, whether it is a trait's, and one of its preconditions."""
    text = code(tokens_of(text))
    traits = [match.span() for match in TRAIT.finditer(text)]
    for match in CONTRACTED.finditer(text):
        is_of_trait = any(start < match.start() < end for start, end in traits)
        if match[1] in ("pub\n", EXPORTED) or is_of_trait:
            for clause in REQUIRED.finditer(match[3]):
                yield match[2], is_of_trait, clause[1].removeprefix("{\n").removesuffix("}\n")


def judge_preconditions(package, texts):
    """Refuses a precondition that isn't listed, or of a function that is still public."""
    lines = [line.rsplit(": ", 1) for line in texts["preconditions"].split("\n") if re.match(r"[^#].*: ", line)]
    listed = {(code(tokens_of(condition)), name) for condition, names in lines for name in names.split(" ")}
    met = set()
    for path in [it for it in texts if it.startswith("crates/" if package != "c" else "crates/dwexpr_c/")]:
        written = code(tokens_of(texts[place_of(path)]))
        for name, is_of_trait, condition in preconditions_in(texts[path]):
            met_here = listed.intersection({(condition, name), (condition, "*")})
            if not met_here:
                raise Wrong(f"{path}: a precondition of {name} isn't listed: {condition.split()}")
            is_public = re.search(rf"^pub\nfn\n{name}\n", written, re.MULTILINE)
            if package == "rust" and is_public and not is_of_trait:
                raise Wrong(f"{path}: {name} has a precondition, and is public")
            met |= met_here
    if listed != met:
        raise Wrong(f"preconditions that no function has: {[it[1] for it in listed - met]}")


def judge(package, texts):
    """Refuses texts, by their paths, of which what is written isn't that of the sources and rows."""
    _, _, names, added, _ = PACKAGES[package]
    rows = [row for name in names for row in rows_in(texts[f"rows/{name}"])]
    for _, old, new in rows:
        allow(old, new)
    wanted, written = {}, {}
    for path in [it for it in texts if it.startswith("crates/")]:
        wanted[path], _ = substituted(tokens_of(texts[path]), CONTRACT, lambda _: [])
        place = place_of(path)
        text = texts[place]
        if text.count("\n") != texts[path].count("\n") + 1 or not text.endswith(added):
            raise Wrong(f"{place} has other lines")
        written[path] = tokens_of(text.removesuffix(added))
        if re.search(r"^pub\nfn\n\w+_unchecked$", code(written[path]), re.MULTILINE):
            raise Wrong(f"{place}: what has a precondition is public")
    apply(rows, wanted)
    for path, tokens in written.items():
        differ(path, plain(tokens), plain(rooted(path, wanted[path])))
    judge_preconditions(package, texts)


def texts_of(package, folder):
    """What the build script of a package writes, without pages of docs, and what it reads."""
    script, home, rows, _, preconditions = PACKAGES[package]
    out = folder / package
    commands.run("rustc", "--edition=2024", TOP / script, "-o", f"{out}.script")
    out.mkdir()
    variables = {"CARGO_PKG_VERSION_MAJOR": "0", "CARGO_PKG_VERSION_MINOR": "0", "CARGO_CFG_TARGET_OS": ""}
    variables["OUT_DIR"] = str(out)
    commands.run(f"{out}.script", env={**os.environ, **variables}, cwd=TOP / home)
    texts = {f"rows/{name}": (TOP / "rust/build/rows" / name).read_text(encoding="utf-8") for name in rows}
    texts["preconditions"] = (TOP / preconditions).read_text(encoding="utf-8")
    pages = 0
    for file in sorted((out / "sources").rglob("*/*.rs")):
        place = str(file.relative_to(out / "sources"))
        texts[place], met = re.subn(r'#\[doc = "(?:[^"\\]|\\.)*"\] ', "", file.read_text(encoding="utf-8"))
        pages += met
        texts[path_of(place)] = (TOP / path_of(place)).read_text(encoding="utf-8")
    wanted = len(list((TOP / "rust/src/pages").rglob("*.md"))) if package == "rust" else 0
    expect(pages == wanted, f"{package}: {pages} of {wanted} pages are among the docs")
    return texts


def refused(package, texts):
    """Why texts are refused, or nothing."""
    try:
        return judge(package, texts)
    except Wrong as wrong:
        return str(wrong)


def main():
    with commands.temporary() as folder:
        for package in PACKAGES:
            texts = texts_of(package, folder)
            said = refused(package, texts)
            expect(len(texts) > 30 and not said, f"{package}: {said}")
            wrong = wrong_in_program() if package == "program" else wrong_in_package()
            for name, changes in (wrong | wrong_preconditions() if package == "rust" else wrong).items():
                other = dict(texts)
                for file, old, new in changes:
                    if file in other:
                        other[file] = other[file].replace(old, new, 1)
                expect(other != texts and refused(package, other), f"{package}: {name}: it is taken")


if __name__ == "__main__":
    checks.end_with(main, __doc__)
