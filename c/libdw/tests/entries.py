"""Variables whose expressions name other entries: base types, calls, .debug_addr; and constants.

The names of variables are claims on their values, as claims.h has them.
"""

import itertools

from dwarf import BLOCK1, CONSTANT, DATA1, OFFSET, REF4, SDATA, STRING, UDATA, Unit, signed_leb, unsigned_leb

BOOLEAN, COMPLEX, FLOAT, SIGNED, SIGNED_CHAR, UNSIGNED, UNSIGNED_CHAR, DATA16 = 2, 3, 4, 5, 6, 7, 8, 0x1E
ON_NUMBERS = ["abs", "neg", "not", "plus_uconst 1", "and", "div", "minus", "mod", "mul", "or", "plus", "shl", "shr",
              "shra", "xor", "eq", "ge", "gt", "le", "lt", "ne"]


class Entries(Unit):
    def is_value(self, wanted, **attributes):
        wanted = wanted if isinstance(wanted, str) else wanted.hex()
        return self.root.add("variable", name=f"value {wanted}", **attributes)

    def gives(self, wanted, expression):
        return self.is_value(wanted, location=expression)

    def types(self):
        int32, float4 = self.base_type(4, SIGNED), self.base_type(4, FLOAT)
        for size, encoding, number in [
            (1, SIGNED, -56), (1, SIGNED_CHAR, -56), (1, UNSIGNED_CHAR, 200), (1, BOOLEAN, 200), (2, UNSIGNED, 200)
        ]:  # fmt: skip
            first = self.base_type(size, encoding)
            self.gives(self.pack("i", number), f"const1u 200 convert {first} convert {int32} stack_value")
            if encoding == SIGNED:
                int64 = self.base_type(8, SIGNED)
                self.gives(self.pack("q", number), f"const1u 200 convert {first} convert {int64} stack_value")
        # a number isn't converted to a float; a complex number, one of 3 bytes, no type, no entry
        without_size = self.root.add("variable")
        for bad in (float4, self.base_type(8, COMPLEX), self.base_type(3, SIGNED), without_size, 0xFFFF):
            self.gives("a base type", f"const1u 1 convert {bad} stack_value")
        # a float is only moved
        half = self.pack("f", 1.5)
        literal = f"const_type {float4} 4 {half.hex()}"
        self.gives(half, f"{literal} stack_value")
        for operation in ON_NUMBERS:
            self.gives("a base type", f"{literal} {literal} {operation} stack_value")
        read = self.base_type(8, FLOAT)
        self.gives(bytes(range(0x10, 0x18)) if self.address_size == 8 else "more bytes are read than an address has",
                   f"const4u 0x1010 deref_type 8 {read} stack_value")
        self.gives(b"\x12\x13", f"const4u 0x1012 deref_type 2 {self.base_type(2, UNSIGNED)} stack_value")
        self.gives(self.pack("I", 0x55667788), f"regval_type 0 {int32} stack_value")

    def calls(self):
        add = self.root.add
        five, empty, away = add("variable", location="lit5"), add("variable"), add("variable", location="")
        two = add("variable", location=(OFFSET, self.offset(self.list_begins)))
        no_bytes = add("variable", location=(OFFSET, self.offset(self.list_begins + self.second_list)))
        for call in ("call2", "call4", "call_ref"):
            self.gives(self.pack("I", 8), f"lit3 {call} {five} plus stack_value")
        # entries without a location, and one that is optimized away
        for called in (f"call4 {empty}", 2 * f"call4 {empty} ", f"call4 {away}"):
            self.gives(self.pack("I", 7), f"lit7 {called} stack_value")
        # a run has room for 64 texts: its own, and 63 others, however often each is called
        each = [f"call4 {add('variable', location=f'const1u {it}')} plus" for it in range(64)]
        for wanted, texts in [
            (self.pack("I", 140), 70 * [f"call4 {two} plus"]), (self.pack("I", sum(range(63))), each[:63]),
            ("too many texts are called", each),
        ]:  # fmt: skip
            self.gives(wanted, f"lit0 {' '.join(texts)} stack_value")
        # the byte 64 of its expression may be a sign, so its list can't be put together
        self.gives("an entry's location", f"call4 {no_bytes}")
        self.gives("an entry's location", "call4 0xffff")
        self.gives("00", "lit0 stack_value")
        itself = self.gives("a list is full", "")
        itself.attributes["location"] = f"call4 {itself}"
        self.gives("an implicit pointer", f"implicit_pointer {five} 4")

    def constants(self):
        for wanted, form, content in [
            (self.pack("I", 300), UDATA, unsigned_leb(300)),
            (self.pack("i", -3), SDATA, signed_leb(-3)),
            (self.pack("I", 253), DATA1, b"\xfd"),
            (b"\xaa\xbb\xcc", BLOCK1, b"\3\xaa\xbb\xcc"),
            (bytes(range(16)), DATA16, bytes(range(16))),
            (b"abc\0", STRING, b"abc\0"),
            ("libdw refuses the debug information", REF4, self.pack("I", 0)),
        ]:
            self.is_value(wanted, const_value=(form, content))
        # numbers of types with more than 64 bits, in the order of the target
        top = 2**64 - 9
        for kind, widened in [(SIGNED, top - 2**64), (UNSIGNED, top)]:
            for wanted, form, content in [
                (-5, SDATA, signed_leb(-5)), (5, SDATA, signed_leb(5)),
                (widened, UDATA, unsigned_leb(top)), (-5, CONSTANT, signed_leb(-5)),
            ]:  # fmt: skip
                if form != CONSTANT or self.version >= 5:
                    number = (wanted % 2**128).to_bytes(16, "little" if self.order == "<" else "big")
                    self.is_value(number, const_value=(form, content), type=self.base_type(16, kind))
        self.is_value(self.pack("I", 7), const_value=7, type=self.base_type(65, UNSIGNED))

    def indexed(self):
        self.gives(b"\x20\x21\x22\x23", "addrx 1")
        self.gives(self.pack("I", 0x1004), "constx 0 stack_value")
        self.gives("an entry of .debug_addr", "addrx 2")

    def everywhere(self, text):
        """A location list with this expression at each address."""
        expression = self.expression(text)
        if self.version >= 5:
            return self.list_of(b"\5" + bytes([len(expression)]) + expression)  # DW_LLE_default_location
        return self.list_of(self.located(0, 0x10000, expression))

    def sections(self):
        two = self.everywhere("lit2")
        self.second_list = len(two)
        sections, self.list_begins = self.lists(two + self.everywhere("implicit_pointer 0 64"))
        self.types()
        self.calls()
        self.constants()
        if self.version >= 5:
            self.indexed()
            sections |= self.addresses(0x1004, 0x1020)
        return self.tree() | sections


def files():
    for numbers in itertools.product((4, 8), (4, 8), (4, 5), ("le", "be")):
        unit = Entries(*numbers)
        yield f"{unit.name}.entries", unit.elf(unit.sections())
