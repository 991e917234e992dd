#!/usr/bin/env python3
"""Refuses each allocation, each read and each write of the built program in turn, by `tests/refuse.c`, in the rows of
tests/rows/refused_calls.json.

- Allocations: a run whose Nth is refused has to print the answers that it gives with ample memory, up to one of them,
  and then `fault StackFull` for that call and each later one, or `no memory`; and it has to end with status 1. A trace
  has to print the lines that it gives with ample memory, up to one of them, and then `no memory`, or all operations and
  then the fault at the end.
- Reads, of a byte each: if one is refused, by any error but an interruption, nothing is printed, and the status is 1.
- Writes, of a byte each: if one is refused, or takes no byte, nothing is printed after the bytes before it, and the
  status is 1.
- A read or a write that a signal interrupts changes nothing.

The proved program's writes are tried twice: with the buffer of standard output, which the kit's library empties, and
without memory for it, where the program hands each text to the system itself. Another build of the program, which
DWEXPR_PROGRAM names, has no buffer. A refused read or write is named on standard error.

The last line is `N passed, M failed`, of the runs. It wants cc.
"""

import errno
import os
import subprocess

import checks
import commands
import run_rows

# More allocations than a run has, and than a trace has.
ALLOCATIONS = 60
OF_TRACE = 400
READ_ERRORS = [error for error in errno.errorcode if error != errno.EINTR]
# The rows whose lists grow, and those that print each kind of line, of which the first completes.
ROWS = run_rows.rows_in("rows/refused_calls.json")
ROWS = [row | {it: run_rows.bytes_of(row[it]).decode() for it in ("input", "output")} for row in ROWS]
MANY = [row for row in ROWS if row["name"].startswith("many ")]
FEW = [row for row in ROWS if row not in MANY]
TRACES = [row for row in ROWS if row["words"][0] == "trace"]


def run(library, row, failure, refused):
    """Runs a row while these calls, one of a kind, are refused. What it prints, its status, and what it says."""
    numbers = {f"REFUSED_{kind}": str(number) for kind, number in refused.items()}
    env = os.environ | {"LD_PRELOAD": str(library), "REFUSED_WITH": str(failure)} | numbers
    words = [run_rows.PROGRAM, *map(run_rows.bytes_of, row["words"])]
    ran = subprocess.run(words, input=row["input"], capture_output=True, text=True, timeout=60, env=env)
    return (ran.stdout, ran.returncode), ran.stderr


def whole(row):
    """What a row prints with ample memory, and its status."""
    return row["output"], row["status"]


def cut(row):
    """What a row may print without an allocation, and its status."""
    steps, lines = row["input"].count("\n"), row["output"].splitlines(keepends=True)
    for known in range(steps + 1):
        yield "".join(lines[:known]) + "no memory\n", 1
    for known in range(steps):
        yield "".join(lines[:known]) + "fault StackFull\n" * (steps - known), 1


def cut_trace(row):
    """What a trace may print without an allocation, and its status."""
    lines = row["output"].splitlines(keepends=True)
    for known in range(len(lines) + 1):
        yield "".join(lines[:known]) + "no memory\n", 1
    operations = "".join(line for line in lines if "\t" in line)
    yield f"{operations}{len(row['words'][-1]) // 2}\tfault StackFull\n", 1


def attempt(library, row, failure, refused, allowed, wanted):
    """Tries a row while these calls are refused."""
    printed, said = run(library, row, failure, refused)
    name = f"{row['name']}, {row['input'][:10]!r}, {refused}, error {failure}"
    checks.expect(printed in allowed and wanted in said, name, f"{printed}, {said}")


def tries(buffers):
    """Each row, the error and the calls that are refused, all that may be printed then, and what is said."""
    for row in MANY:
        for number in range(1, ALLOCATIONS + 1):
            # The first allocation is needed, and the last isn't made.
            allowed = [*cut(row)] * (number < ALLOCATIONS) + [whole(row)] * (number > 1)
            yield row, 0, {"ALLOCATION": number}, allowed, ""
    for row in TRACES:
        for number in range(1, OF_TRACE + 1):
            allowed = [*cut_trace(row)] * (number < OF_TRACE) + [whole(row)] * (number > 1)
            yield row, 0, {"ALLOCATION": number}, allowed, ""
    # Neither a byte nor the end, which the last read finds, can be read.
    for text in ("", "evaluate\n", "nonsense\n"):
        for number in range(1, len(text) + 2):
            for failure in READ_ERRORS:
                yield FEW[0] | {"input": text}, failure, {"READ": number}, [("", 1)], "standard input can't be read: "
    for row in FEW:
        for other in ({}, *buffers):
            for number in range(1, len(row["output"]) + 1):
                refused, before = {**other, "WRITE": number}, row["output"][: number - 1]
                for failure in (errno.EIO, errno.EPIPE, 0):
                    yield row, failure, refused, [(before, 1)], "standard output can't be written: "
                yield row, errno.EINTR, refused, [whole(row)], ""
            for number in range(1, len(row["input"]) + 2):
                yield row, errno.EINTR, {**other, "READ": number}, [whole(row)], ""


def main():
    with commands.temporary() as folder:
        library = folder / "refuse.so"
        commands.run("cc", "-O1", "-shared", "-fPIC", commands.TOP / "tests/refuse.c", "-o", library)
        # The first allocation that the proved program can do without is that of its buffer of standard output.
        numbers = ({"ALLOCATION": number} for number in range(1, ALLOCATIONS))
        buffers = (it for it in numbers if run(library, FEW[0], 0, it)[0] == whole(FEW[0]))
        for words in tries([next(buffers)] if run_rows.PROGRAM == run_rows.PROVED else []):
            attempt(library, *words)
        checks.expect_failure(attempt, library, FEW[0], 0, {}, [(FEW[0]["output"], 1)], "")
        checks.expect_failure(attempt, library, FEW[0], 0, {}, [("", 0)], "")
        checks.expect_failure(attempt, library, FEW[0], 0, {}, [whole(FEW[0])], "something is said")


if __name__ == "__main__":
    checks.end_with(main, __doc__)
