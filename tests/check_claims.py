#!/usr/bin/env python3
"""README.md and docs/GUIDE.md do what they say.

- Each command after a `$` prints the lines that follow it. `bin/test` is the gate itself, and isn't run.
- Each program in C, a fence with a `main`, is built by the commands of its page, which install the library under DIR.
  It prints what the remarks after `printf` say. So does each program in Rust, with the crate.

It wants the program built, cc, CMake, pkg-config and Cargo. The last line is `N passed, M failed`.
"""

import re
import subprocess
import textwrap

import checks
import commands
from commands import TOP

PAGES = {name: (TOP / name).read_text(encoding="utf-8") for name in ("README.md", "docs/GUIDE.md")}
# A command and what it prints, up to an empty line or the next command.
SESSION = re.compile(r"^    \$ (.+)\n((?:    (?!\$).+\n)*)", re.MULTILINE)
# A fence that names no file, with all that is in it.
FENCE = re.compile(r"^```(\w+)\n(.*?)^```$", re.MULTILINE | re.DOTALL)
PRINTED = re.compile(r"print(?:f|ln!)\(.*;.*?(?:/\*|//) (.*?)(?: \*/)?$", re.MULTILINE)
# The commands that install the library for C and build a program.
BUILD = re.compile(r"^    ((?:cmake -S c|cc program\.c) .+)$", re.MULTILINE)
# Empty packages stand in for those of the crate's features, since there may be no network.
MANIFEST = f"""[package]
name = "app"
edition = "2024"
[dependencies]
dwexpr.path = "{TOP}"
[workspace]
[patch.crates-io]
gimli.path = "{TOP}/tests/crate/stand_ins/gimli"
arrayvec.path = "{TOP}/tests/crate/stand_ins/arrayvec"
"""


def prints(name, command, wanted, folder=TOP):
    """Runs a command of a shell, which has to print this and to end with status 0."""
    ran = subprocess.run(["bash", "-ec", command], capture_output=True, text=True, timeout=600, cwd=folder)
    checks.expect((ran.stdout, ran.returncode) == (wanted, 0), name, ran.stdout + ran.stderr)


def main():
    checks.expect_failure(prints, "another text", "echo 1", "2\n")
    checks.expect_failure(prints, "another status", "echo 1; exit 1", "1\n")
    for page, text in PAGES.items():
        for command, wanted in SESSION.findall(text):
            if command != "bin/test":
                prints(f"{page}: `{command}`", command, textwrap.dedent(wanted))
        for fence in FENCE.finditer(text):
            if "main(" not in fence[2]:
                continue
            with commands.temporary() as folder:
                if fence[1] == "c":
                    (folder / "program.c").write_text(fence[2])
                    build = "\n".join(BUILD.findall(text)).replace("DIR", "$PWD/package")
                    build = build.replace("-S c", f"-S {TOP}/c -DBUILD_TESTING=OFF")
                    command = f"{{ {build}\n}} >&2\n./a.out"
                else:
                    (folder / "Cargo.toml").write_text(MANIFEST)
                    (folder / "src").mkdir()
                    (folder / "src/main.rs").write_text(fence[2])
                    command = "cargo run --quiet --offline"
                wanted = "".join(f"{line}\n" for line in PRINTED.findall(fence[2]))
                prints(f"{page}: a program in {fence[1]}", command, wanted, folder)


if __name__ == "__main__":
    checks.end_with(main, __doc__)
