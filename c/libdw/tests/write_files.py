#!/usr/bin/env python3
"""Writes the files that the tests over libdw read, and prints how many expressions `*.elf` have in blocks.

    write_files.py FOLDER
"""

import pathlib
import sys

import dumps
import entries
import every_operation
import functions
import links
import typed
import values

for module in (dumps, entries, every_operation, functions, links, typed, values):
    for name, content in module.files():
        (pathlib.Path(sys.argv[1]) / name).write_bytes(content)
print(every_operation.EveryOperation.total)
