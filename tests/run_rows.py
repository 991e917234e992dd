#!/usr/bin/env python3
"""Runs each row of tests/rows on the built program and compares what it prints and its status.

A row has a name, the program's words, its input, and the output and the status that are wanted. A word, an input or an
output is a text; `{"hex": ..}`, its bytes as digits; or a list of parts, each a text or a pair of a text and how often
it stands. A row may say besides
- `program`: the program's name, the word before its words;
- `input_from`: in place of an input, a `directory`, whose read fails, or a pipe that stays `open` and gives nothing;
- `output_to`: a device, such as one on which every write fails, or a `terminal`;
- `megabytes`: how much memory the program may have;
- `error`: all of standard error;
- `output_pattern` or `error_pattern`: a regular expression for it;
- `by`: the script of the repository that is run in place of the program;
- `wrong`: what it wants wrong on purpose. Each script that runs rows has to find that.

Each vector of tests/vectors/decode.json is a row too: `dwexpr ops` lists its operation by its name, or its fault. One
with `bits` is about offsets of another width.

It wants the program that `bin/build` or `rt ci` has built. If DWEXPR_PROGRAM names another build of the program, that
is run, and no script of the repository is. The last line is `N passed, M failed`.
"""

import json
import os
import pathlib
import re
import resource
import subprocess
import tty

import checks
from commands import TOP

PROVED = TOP / "crates/dwexpr/out/dwexpr"
PROGRAM = pathlib.Path(os.environ.get("DWEXPR_PROGRAM", PROVED))


def rows_in(name):
    """The rows of a file."""
    return json.loads((TOP / "tests" / name).read_text(encoding="utf-8"))


def listing_of(vector):
    """The row of a vector."""
    digits, code = vector["bytes"], vector.get("code")
    parts = (code or vector["kind"]).split("_")
    name = "".join(part if part in ("TLS", "CFA") else part.capitalize() for part in parts)
    said = f"fault {name} {vector.get('detail', '')}".rstrip() if code else f"{digits} {name}"
    words = ["ops", *vector["in"].split(), digits]
    return {"name": digits, "words": words, "input": "", "output": f"0 {said}\n", "status": int(bool(code))}


def bytes_of(text):
    """The bytes that a text, digits or a list of parts stand for."""
    if isinstance(text, dict):
        return bytes.fromhex(text["hex"])
    parts = (part if isinstance(part, list) else (part, 1) for part in ([text] if isinstance(text, str) else text))
    return b"".join(part.encode("utf-8") * times for part, times in parts)


def ends_of(row):
    """What the program reads from and writes to, in the words of `subprocess`, and the `screen` of its terminal."""
    ends = {"stdout": subprocess.PIPE, "stderr": subprocess.PIPE}
    if "input" in row:
        ends["input"] = bytes_of(row["input"])
    else:
        ends["stdin"] = os.open("/", os.O_RDONLY) if row["input_from"] == "directory" else os.pipe()[0]
    if row.get("output_to") == "terminal":
        ends["screen"], ends["stdout"] = os.openpty()
        tty.setraw(ends["stdout"])
    elif "output_to" in row:
        ends["stdout"] = os.open(row["output_to"], os.O_WRONLY)
    if "megabytes" in row:
        limits = [row["megabytes"] << 20] * 2
        ends["preexec_fn"] = lambda: resource.setrlimit(resource.RLIMIT_AS, limits)
    return ends


def is_wanted(row, field, printed):
    if f"{field}_pattern" in row:
        return re.fullmatch(row[f"{field}_pattern"].encode("utf-8"), printed, re.DOTALL)
    return field not in row or printed == bytes_of(row[field])


def run(group, row):
    program = str(TOP / row["by"] if "by" in row else PROGRAM)
    words = [bytes_of(row.get("program", program)), *map(bytes_of, row["words"])]
    name = f"{group}: {row['name']}"
    ends = ends_of(row)
    screen = ends.pop("screen", None)
    try:
        ran = subprocess.run(words, executable=program, timeout=60, cwd=TOP, **ends)
    except subprocess.TimeoutExpired as error:
        checks.expect(False, name, error)
        return
    output = os.read(screen, 1 << 16) if screen else ran.stdout or b""
    good = is_wanted(row, "output", output) and is_wanted(row, "error", ran.stderr) and ran.returncode == row["status"]
    checks.expect(good, name, f"{output[-200:]} {ran.stderr[-200:]}, status {ran.returncode}")


def main():
    files = {file.stem: rows_in(file) for file in sorted((TOP / "tests/rows").glob("[!.]*.json"))}
    count = sum(map(len, files.values()))
    checks.expect(count == rows_in("counts.json")["rows"], f"{count} rows, and tests/counts.json has another number")
    for group, rows in files.items():
        for row in rows:
            if "by" in row and PROGRAM != PROVED:
                continue
            checks.expect_failure(run, group, row) if "wrong" in row else run(group, row)
    for vector in rows_in("vectors/decode.json"):
        if "bits" not in vector:
            run("decode", listing_of(vector))


if __name__ == "__main__":
    checks.end_with(main, __doc__)
