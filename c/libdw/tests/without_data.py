"""Writes a core dump of 64 bits that ends before what it had of the program's own data: without_data.py FROM TO"""

import pathlib
import struct
import sys

content = bytearray(pathlib.Path(sys.argv[1]).read_bytes())
first, count = struct.unpack_from("<Q", content, 32)[0], struct.unpack_from("<H", content, 56)[0]
for at in range(first, first + 56 * count, 56):
    kind, flags, _, address = struct.unpack_from("<IIQQ", content, at)
    if (kind, flags) == (1, 6) and address < 0x600000000000:
        struct.pack_into("<Q", content, at + 8, len(content))
pathlib.Path(sys.argv[2]).write_bytes(content)
