"""Units whose debug information has every operation that libdw decodes, in each encoding.

Each has an entry for each expression, and a location list with all of them.
"""

import itertools
import struct

from dwarf import INDEX, OFFSET, OPERATIONS, Unit, signed_leb, unsigned_leb

# libdw knows no DW_OP_xderef_type and no DW_OP_GNU_uninit.
OPERANDS = {opcode: forms for opcode, forms in OPERATIONS.values() if opcode not in (0xA7, 0xF0)}
NUMBERS = [0, 1, 63, 64, 127, 128, 255, 300, 0x7FFF, 0x8000, 0xFFFF, 0x12345678, 2**31, 2**32 - 1, 2**62, 2**63 - 1]
SIGNED = [*NUMBERS, *(-number for number in NUMBERS[1:]), -(2**63)]


class EveryOperation(Unit):
    total = 0  # of expressions

    def operands(self, form):
        """The bytes of an operand, for each of its values."""
        if form == "a":
            return [self.address(number) for number in (0, 0x401020, 2 ** (8 * self.address_size) - 1)]
        if form == "r":  # DWARF 2 gives it the size of an address
            return [(self.address if self.version == 2 else self.offset)(number) for number in (11, 30)]
        if form == "u":
            return [unsigned_leb(number) for number in [*NUMBERS, 2**64 - 1]]
        if form == "s":
            return [signed_leb(number) for number in SIGNED]
        if form in "kc":
            return [b"\2\xaa\xbb"]
        size = struct.calcsize("=" + form)
        low = 0 if form.isupper() else -(2 ** (8 * size - 1))
        return [self.pack(form, number) for number in (low, 1, low + 2 ** (8 * size) - 1)]

    def expressions(self):
        """Each operation with each value of each operand, and expressions of several operations."""
        for opcode, forms in sorted(OPERANDS.items()):
            for operands in itertools.product(*map(self.operands, forms)):
                # libdw doesn't tell the sign of an implicit pointer's offset, unless another operation follows
                yield bytes([opcode]) + b"".join(operands) + (b"\x93\x04" if forms == "rs" else b"")
        first = {opcode: [self.operands(form)[0] for form in forms] for opcode, forms in OPERANDS.items()}
        yield b"".join(bytes([opcode, *b"".join(operands)]) for opcode, operands in first.items())
        for offset in (0, 63, 128, 0x7FFF):
            yield b"\xa0" + self.operands("r")[0] + signed_leb(offset)
        # LEB128 numbers that are longer than they need to be, before another operation
        for length in (2, 5, 9):
            yield b"\x10" + unsigned_leb(5, length) + b"\x91" + signed_leb(-3, length) + b"\x9f"
            yield b"\xa4" + unsigned_leb(40, length) + b"\1\x07" + b"\xa6\4" + unsigned_leb(40, length) + b"\x9f"
            yield b"\x9e" + unsigned_leb(1, length) + b"\x07" + b"\xa3" + unsigned_leb(1, length) + b"\x55\x9f"

    def block(self, expression):
        if self.version >= 4:
            return 0x18, unsigned_leb(len(expression)) + expression
        return 0x03, self.pack("H", len(expression)) + expression

    def sections(self):
        lists = b""
        for at, expression in enumerate(self.expressions()):
            EveryOperation.total += 1
            self.root.add("variable", location=self.block(expression))
            lists += self.located(at, at + 1, expression)
        lists, begin = self.lists(self.list_of(lists))
        place = (OFFSET if self.version >= 4 else 0x06 if self.offset_size == 4 else 0x07), self.offset(begin)
        if self.version >= 5:
            place = INDEX, b"\0"
            self.root.attributes["loclists_base"] = OFFSET, self.offset(begin - self.offset_size)
        self.root.add("variable", location=place)
        return self.tree() | lists


def files():
    for numbers in itertools.product((4, 8), (4, 8), (2, 3, 4, 5), ("le", "be")):
        if numbers[1:3] != (8, 2):  # the 64-bit format came with DWARF 3
            unit = EveryOperation(*numbers)
            yield f"{unit.name}.elf", unit.elf(unit.sections())
