#!/usr/bin/env python3
"""Compares another build of the program with the proved one on made-up words and lines: compare_programs.py COUNT

Each run is a row of tests/rows in which digits, words and lines are changed, dropped, doubled or exchanged with those
of other rows. Both have to print the same, also to standard error, and to end with the same status. COUNT is how many
lines of input and of output are compared at least. The seed is fixed.

The last line is `N passed, M failed`, of the runs. It wants the proved program, and DWEXPR_PROGRAM names the other one.
"""

import concurrent.futures
import os
import random
import subprocess

import checks
import run_rows
from commands import TOP

# What may stand in a word, a line or an expression, besides what rows have.
BYTES = [b"", b" ", b"+", b"-", b"0x", b"0", b"18446744073709551616", b"\xff", b"\r", b":", b"u8:256", b"i8:-128"]
# Rows that take a second, or say more than words and input.
ROWS = [
    ([run_rows.bytes_of(word) for word in row["words"]], run_rows.bytes_of(row["input"]).split(b"\n"))
    for file in sorted((TOP / "tests/rows").glob("[!.]*.json"))
    for row in run_rows.rows_in(f"rows/{file.name}")
    if "input" in row and not {"by", "megabytes", "program"} & set(row)
]
ROWS = [row for row in ROWS if sum(map(len, [*row[0], *row[1]])) < 1000]
DIGITS = [words[5] for words, _ in ROWS if len(words) > 5]
LINES = [line for _, lines in ROWS for line in lines]


def changed(text, others):
    """A text with a part of another in place of one of its own, or with one character that is another."""
    at, end = sorted(random.randrange(len(text) + 1) for _ in "12")
    other = random.choice(random.choice([BYTES, others]))
    start, stop = sorted(random.randrange(len(other) + 1) for _ in "12")
    mixed, digit = text[:at] + other[start:stop] + text[end:], b"%x" % (at % 16)
    return random.choice([other, mixed, text[:at] + digit + text[at + 1 :]])


def made_up():
    """The words and the input of a run."""
    words, lines = (list(part) for part in random.choice(ROWS))
    if len(words) > 5 and random.randrange(2):
        words[5] = changed(words[5], DIGITS)
        words[5] = words[5][: len(words[5]) // 2 * 2] if random.randrange(16) else words[5]
    if random.randrange(8) == 0:
        at = random.randrange(len(words) + 1)
        words[at : at + random.randrange(2)] = [random.choice([*random.choice(ROWS)[0], *BYTES])]
    for _ in range(random.randrange(3)):
        at = random.randrange(len(lines))
        lines[at : at + random.randrange(2)] = random.choice([[], [random.choice(LINES)], [changed(lines[at], LINES)]])
        lines = lines or [b""]
    # An operand can't have a zero, and a loop without a maximum takes long.
    return [word.replace(b"\0", b"") for word in words], b"\n".join([b"max 1000", *lines])


def end_of(program, words, given):
    ran = subprocess.run([b"dwexpr", *words], executable=program, input=given, capture_output=True, timeout=60)
    return ran.returncode, ran.stdout, ran.stderr


def compare(case, program=run_rows.PROGRAM):
    """Whether both end alike; what they print, and the number of lines."""
    ends = [end_of(it, *case) for it in (program, run_rows.PROVED)]
    lines = case[1].count(b"\n") + ends[0][1].count(b"\n")
    return ends[0] == ends[1], f"{case}: {ends}", lines


def main(count):
    random.seed(0)
    lines = 0
    checks.expect_failure(lambda: checks.expect(*compare(([b"ops"], b""), "/bin/true")[:2]))
    with concurrent.futures.ThreadPoolExecutor(os.cpu_count()) as pool:
        while lines < count:
            for is_same, said, its in pool.map(compare, [made_up() for _ in range(200)]):
                checks.expect(is_same, "a made-up case", said)
                lines += its
    print(f"{lines} lines")


if __name__ == "__main__":
    checks.end_with(main, __doc__, "count")
