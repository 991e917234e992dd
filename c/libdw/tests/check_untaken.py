#!/usr/bin/env python3
"""Checks that tests take each line and each branch of the library over libdw, but those that the source marks.

    check_untaken.py BUILD     BUILD is the folder of the preset `coverage`, whose tests ran before

The marks are gcovr's: GCOVR_EXCL_LINE on a line that no test runs, GCOVR_EXCL_BR_LINE on one with a branch that no test
takes, or GCOVR_EXCL_BR_START and GCOVR_EXCL_BR_STOP around it. The tests refuse some calls of malloc, so a line that is
marked with `no memory` may be taken. It removes what the tests counted. The last line is `N passed, M failed`.
"""

import itertools
import json
import pathlib
import subprocess
import sys

LIBDW = pathlib.Path(__file__).resolve().parents[1]
SOURCES = [*LIBDW.glob("src/*/*.c"), LIBDW.parent / "src/run.c"]
# At most so many lines of 100 are marked.
MOST_MARKED = 2


def counted_by_gcov(build):
    """How often each line was run, and each of its branches, by the file and the line's number."""
    for file in pathlib.Path(build).rglob("*.gcda"):
        words = ["gcov", "-b", "-c", "--json-format", "--stdout", "-o", file.parent, file]
        found = json.loads(subprocess.run(words, capture_output=True, check=True).stdout)
        for source in found["files"]:
            path = pathlib.Path(source["file"])
            for line in source["lines"] if path in SOURCES else []:
                branches = [branch["count"] for branch in line["branches"]]
                yield (path, line["line_number"]), [line["count"], *branches]
        file.unlink()


def marked_in(path):
    """The lines that a source marks, by their numbers, and whether they may be taken."""
    within = False
    for number, line in enumerate(path.read_text(encoding="utf-8").splitlines(), 1):
        within = within and "GCOVR_EXCL_BR_STOP" not in line
        if within or "GCOVR_EXCL_LINE" in line or "GCOVR_EXCL_BR_LINE" in line:
            yield (path, number), "no memory" in line
        within = within or "GCOVR_EXCL_BR_START" in line


def main():
    counts = {}
    for place, found in counted_by_gcov(sys.argv[1]):
        before = counts.setdefault(place, [0] * len(found))
        counts[place] = [one + other for one, other in itertools.zip_longest(before, found, fillvalue=0)]
    untaken = {place for place in counts if 0 in counts[place]}
    marked = {place: may_be for path in SOURCES for place, may_be in marked_in(path)}
    print(f"{len(untaken)} of {len(counts)} lines aren't taken, or have a branch that isn't")
    faults = [f"no test takes, and it isn't marked: {path}:{line}" for path, line in sorted(untaken - marked.keys())]
    taken = [place for place, may_be in marked.items() if place not in untaken and not may_be]
    faults += [f"tests take what is marked: {path}:{line}" for path, line in taken]
    if len(marked) * 100 > MOST_MARKED * len(counts):
        faults.append("many lines are marked")
    print(*faults, f"{len(counts)} passed, {len(faults)} failed", sep="\n")
    return len(faults) > 0


if __name__ == "__main__":
    sys.exit(main())
