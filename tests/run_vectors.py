#!/usr/bin/env python3
"""Runs each file of tests/vectors through `dwarf_vectors`, the program in Rattle that makes the calls of vectors.

Each vector has to be as it says, and each file has to have as many as tests/counts.json says. A file that lacks one, and
one with a changed word, have to fail. It wants the program that `rt ci` has built. The last line is `N passed, M
failed`.
"""

import json
import re
import subprocess

import checks
from commands import TOP

PROGRAM = TOP / "crates/dwarf_vectors/out/dwarf_vectors"


def run(kind, text, count):
    ran = subprocess.run([PROGRAM], input=text, capture_output=True, encoding="utf-8", timeout=60)
    checks.expect(ran.stdout == f"{count} passed, 0 failed\n", kind, f"{ran.stdout[-1000:]} {ran.stderr[-200:]}")


def main():
    counts = json.loads((TOP / "tests/counts.json").read_text(encoding="utf-8"))
    for kind in counts.keys() - {"rows"}:
        text = (TOP / f"tests/vectors/{kind}.json").read_text(encoding="utf-8")
        run(kind, text, counts[kind])
        checks.expect_failure(run, kind, text.replace("{", "", 1), counts[kind])
        changed = re.sub('"(kind|value|answer|output)": "', r'"\1": "x', text, count=1)
        checks.expect_failure(run, kind, changed, counts[kind])


if __name__ == "__main__":
    checks.end_with(main, __doc__)
