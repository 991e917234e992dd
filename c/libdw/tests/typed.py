"""Variables of types that compilers write, and of some that they don't, in units of languages.

The names of variables are claims on their types, as claims.h has them. The object is at 0x1010, and each byte of memory
is the lowest one of its address.
"""

import itertools
import struct

from dwarf import DATA1, INDEX, OFFSET, Entry, Unit

SIGNED, UNSIGNED = 5, 7
C99, ADA, RUST = 0x0C, 0x0D, 0x1C
FORTRANS = 0x07, 0x08, 0x0E, 0x22, 0x23
NO_NUMBER, FAULT = b"no", "plus"


def span(low=None, high=None, tag="subrange_type", **attributes):
    """A dimension of an array, whose bounds may be left out."""
    bounds = {"lower_bound": low, "upper_bound": high} | attributes
    return Entry(tag, **{name: value for name, value in bounds.items() if value is not None})


class Types(Unit):
    def __init__(self, language, *numbers):
        super().__init__(*numbers, language=language)
        self.language = language
        self.int, self.byte, self.short = (self.base_type(*it) for it in [(4, SIGNED), (1, UNSIGNED), (2, SIGNED)])

    def says(self, said, kind, **attributes):
        self.root.add("variable", name=said, type=kind, **attributes)

    def number(self, offset, size, signed=False, order=None):
        """What memory has so many bytes after the object's begin."""
        here = bytes(it % 256 for it in range(0x10 + offset, 0x10 + offset + size))
        return int.from_bytes(here, order or ("little" if self.order == "<" else "big"), signed=signed)

    def array(self, kind, *ranges, **attributes):
        return self.root.add("array_type", *ranges, **({"type": kind} if kind else {}), **attributes)

    def arrays(self):
        add, array, int32 = self.root.add, self.array, self.int
        pair = span(0, 1), span(0, 2)
        many, more = span(0, count=2**40), span(0, count=2**63)
        any_rank = span("plus_uconst 1", "plus_uconst 2", "generic_subrange")
        ranked = span(0, 3, "generic_subrange")
        for said, kind in [
            ("size 24; at 1,2 160 32; at 2,0 none; at 0,3 none; at -1,0 none; at 1 none",
             array(int32, *pair, ordering=0)),
            ("size 24; at 1,2 160 32; at 1,1 96 32", array(int32, *pair, ordering=1)),
            # no elements: the upper bound is far below, or there are none of many
            ("size 0; at 5 none", array(int32, span(5, -9))),
            ("size 0", array(int32, span(0, count=0), more)),
            # sizes beyond 64 bits
            ("size none", array(int32, more, span(0, count=4))),
            ("size none", array(int32, more)),
            ("size none", array(int32, more, bit_stride=64)),
            ("size none", array(int32, span(0, count=2), more, span(0, count=4))),
            ("size none", array(self.byte, span(0, count=2**64 - 1), bit_stride=1)),
            ("size none", array(array(int32, many, bit_stride=8), many)),
            ("size none", array(array(int32, many), many)),
            # no bound, as in C; the last index but not the first
            ("size none; at 5 160 32", array(int32, span(0))),
            ("size none; at 1,1 none", array(int32, span(0), span(0), ordering=0)),
            # arrays of arrays, and strides; the elements may not follow each other, or backwards
            ("size 30", array(add("typedef", type=array(self.short, span(0, count=3))), span(0, count=5))),
            ("size 3; at 0 0 1; at 19 19 1", array(self.byte, span(0, 19), bit_stride=1)),
            ("size 64; at 1 128 32", array(int32, span(0, count=4), byte_stride=16)),
            ("size none; at 1 72 32; at 3 216 32", array(int32, span(0, count=4, byte_stride=9))),
            ("size 16; at 3 96 32", array(int32, span(0, count=4, byte_stride=4))),
            ("size 4; at 0 0 32", array(int32, span(0, count=1, byte_stride=9))),
            ("size none; at 4 0 32; at 5 -64 32; at 7 -192 32; at 8 none", array(int32, span(4, 7, byte_stride=-8))),
            ("size none; at 1,1 88 16", array(self.short, span(0, 1, byte_stride=9), span(0, 2), ordering=0)),
            ("size none; at 0 none", array(int32, span(0, count=4, byte_stride=NO_NUMBER))),
            ("size none; at 0 none", array(int32, span(0, count=4), byte_stride=NO_NUMBER)),
            ("size none; at 0 none", array(int32, span(0, count=4), ordering=NO_NUMBER)),
            # too many dimensions, a child that is no dimension, bad types of elements
            ("size none; at 0 none", array(self.byte, *(span(0, count=1) for _ in range(65)))),
            ("size none; at 0 none", array(self.byte, span(NO_NUMBER, 3))),
            ("size 4", array(int32, Entry("typedef"))),
            ("size none; at none none", array(None, span(0, count=2))),
            ("size none; at 0 none", array(add("unspecified_type"), span(0, count=2))),
            # any rank: the object's byte 0 is 16, 1 is 17, ..
            ("size 8; at 2,2 16 16", array(self.short, any_rank, rank="lit2", ordering=1)),
            ("size 2", array(self.short, ranked, rank=0)),
            ("size none", array(self.short, ranked, rank=FAULT)),
            ("size none", array(self.short, ranked, rank=1000)),
            # a bound in the object, which has to be given
            ("size 32; at 16 240 16; data memory; without",
             array(self.short, span(1, "push_object_address deref_size 1"),
                   data_location="push_object_address deref")),
        ]:  # fmt: skip
            self.says(said, kind, location="implicit_value 1 00")
        # as the language has it: the first index of Fortran is the fastest, and begins at 1, as Ada's does
        said = {ADA: "size 24; at 2,1 96 32"} | dict.fromkeys(FORTRANS, "size 24; at 2,1 32 32")
        self.says(said.get(self.language, "size 48; at 1,0 128 32"), array(int32, span(None, 2), span(None, 3)))

    def enumerations(self):
        values = [Entry("enumerator", const_value=it) for it in (1, 5, 9)]
        color = self.root.add("enumeration_type", *values, Entry("typedef"), Entry("enumerator"), byte_size=1)
        part = self.root.add("subrange_type", type=color)
        # the dimension is the enumeration itself
        own = Entry("enumeration_type", *(Entry("enumerator", const_value=it) for it in (-3, 4)), type=self.int)
        for said, dimension in [
            ("size 12; at 1 0 32; at 5 32 32; at 9 64 32; at 10 none; at 0 none", span(1, 9, type=color)),
            ("size 8; at 9 32 32", span(5, 9, type=part)), ("size 0", span(9, 4, type=color)),
            ("size 8; at -3 0 32; at 4 32 32", own),
        ]:  # fmt: skip
            self.says(said, self.array(self.int, dimension))

    def others(self):
        add, word = self.root.add, self.address_size
        natural = add("subrange_type", type=self.int)
        itself, itself_too, circle = add("subrange_type"), add("typedef"), self.array(None, span(0, count=1))
        for entry in (itself, itself_too, circle):
            entry.attributes["type"] = entry
        for said, tag, attributes in [
            ("size 4", "subrange_type", {"type": self.int}), ("size none", "subrange_type", {}),
            ("size 2", "subrange_type", {"type": natural, "byte_size": 2}), ("size none; type none", "typedef", {}),
            (f"size {word}", "ptr_to_member_type", {"type": self.int}), (f"size {word}", "ptr_to_member_type", {}),
            (f"size {2 * word}", "ptr_to_member_type", {"type": add("subroutine_type")}),
            ("size none", "subroutine_type", {}), ("size 4", "enumeration_type", {"type": self.int}),
            ("vtable 4115", "class_type", {"byte_size": 4, "vtable_elem_location": "plus_uconst 3"}),
            ("size 2", "base_type", {"bit_size": 12}), ("size 1", "base_type", {"bit_size": 8}),
            ("size none", "base_type", {"bit_size": FAULT}), ("size none", "base_type", {"byte_size": FAULT}),
            *((f"size {word}", tag, {}) for tag in ("pointer_type", "reference_type", "rvalue_reference_type")),
            *(("size 2", f"{it}_type", {"type": self.short}) for it in ("const", "volatile", "restrict", "atomic",
                                                                        "immutable")),
            # where the data of an object is
            ("data 4112", "structure_type", {}),
            ("data 4115", "structure_type", {"data_location": "push_object_address plus_uconst 3"}),
            *(("data 4112" if value == 1 else "data none", "structure_type", {name: value})
              for name in ("allocated", "associated") for value in (0, 1, FAULT)),
        ]:  # fmt: skip
            self.says(said, add(tag, **attributes))
        self.says("size none", itself)
        self.says("size none", self.array(self.int, span(None, NO_NUMBER, type=itself)))
        self.says("type none", itself_too)
        self.says("size none", circle)

    def strings(self):
        """Lengths: of a variable, or at a place, of a size that is that of an address if it isn't said."""
        length = self.root.add("variable", type=self.byte, location="const4u 0x1023")
        word = int.from_bytes(range(8, 8 + self.address_size), "little" if self.order == "<" else "big")
        self.says("size 7", self.root.add("string_type", byte_size=7))
        self.says("size none", self.root.add("string_type"))
        for said, place, size in [
            (35, length, {}), (word, "const4u 0x1008", {}), (5, "const4u 0x1005", 1), ("none", "const4u 0x1005", 9),
            ("none", "const4u 0x9005", 1), ("none", FAULT, 1), ("none", "", 1),
        ]:  # fmt: skip
            said_size = {"string_length_byte_size": size} if size else {}
            self.says(f"size {said}", self.root.add("string_type", string_length=place, **said_size))

    def numbers(self):
        """Bounds that are the values of variables, or members of the object."""
        add, here = self.root.add, {"location": "const4u 0x1023"}

        def base(**attributes):
            return {"type": add("base_type", **attributes)} | here

        for sign in (SIGNED, 6):  # also of a character
            minus = add("variable", type=self.base_type(1, sign), location="const4u 0x10fe")
            self.says("size 5", self.array(self.byte, span(minus, 2)))
        for said, attributes in [
            (35, {"type": self.byte} | here), (35, base(byte_size=1, encoding=6)),
            (35, {"type": add("subrange_type", type=self.byte)} | here), ("none", here), ("none", {"type": self.byte}),
            ("none", {"type": self.byte, "location": "const4u 0x9000"}), ("none", base(byte_size=1)),
            ("none", base(byte_size=1, encoding="lit1")),
            *(("none", base(byte_size=it, encoding=UNSIGNED)) for it in (9, 0, "lit1")), ("none", base(encoding=7)),
        ]:  # fmt: skip
            self.says(f"size {said}", self.array(self.byte, span(0, count=add("variable", **attributes))))
        # at bytes and not at bits, of an object that has the array as a part
        structure, outer = add("structure_type", byte_size=8), add("structure_type", byte_size=64)
        outer.add("member", name="inner", type=structure, data_member_location=16)
        for number, (said, attributes) in enumerate([
            (f"{8 * 19}", {"data_member_location": 3}), ("none", {"data_member_location": 3, "bit_size": 4}),
            ("none", {"data_bit_offset": 3}), ("none", {}), ("none", {"data_member_location": "plus_uconst 3"}),
            ("none", {"name": "self", "data_member_location": 3, "type": structure}),
            ("none", {"data_member_location": 3, "type": ""}),
        ]):  # fmt: skip
            member = structure.add("member", **{"type": self.byte} | attributes)
            array = self.array(self.byte, span(0, count=member))
            structure.add("member", name=f"items{number}", type=array, data_member_location=4)
            self.says(f"member items{number} 32 {said}", structure)
            self.says("size none", array)
        self.says(f"member inner.items0 160 {8 * 35}", outer)
        signed = add("structure_type", byte_size=256)
        lowest = signed.add("member", name="lowest", type=self.base_type(1, SIGNED), data_member_location=0xE0)
        signed.add("member", name="items", type=self.array(self.byte, span(lowest, -14)), data_member_location=4)
        self.says("member items 32 24; .items[-15] is 21", signed)
        self.says("=.items0[0] is there is no such number", structure, location="implicit_value 8" + 8 * " 01")
        if self.version >= 5:
            # the value 3 at each address
            self.list, place = self.lists(b"\5\1\x33\0")
            self.root.attributes["loclists_base"] = (OFFSET, self.offset(place - self.offset_size))
            for count in ((INDEX, b"\0"), (OFFSET, self.offset(place))):
                self.says("size 12", self.array(self.int, span(0, count=count)))

    def members(self):
        """Of bit fields DWARF 3 counts from the highest bit of what holds them (5.6.6), and DWARF 4 from the lowest
        address of the whole."""
        unknown, of_int = self.root.add("structure_type", declaration=True), {"type": self.int}
        whole = self.root.add("structure_type", byte_size=16)
        old = {"bit_offset": 3, "bit_size": 5, "data_member_location": 8}
        place = 64 + (3 if self.order == ">" else 32 - 3 - 5)
        said = ["size 16"]
        for number, (bits, attributes) in enumerate([
            ("32 32", of_int | {"data_member_location": 4}), ("37 5", of_int | {"data_bit_offset": 37, "bit_size": 5}),
            (f"{place} 5", of_int | old | {"byte_size": 4}), (f"{place} 5", of_int | old),
            ("96 none", {"type": unknown, "data_member_location": 12}),
            ("none none", of_int | {"declaration": True, "external": True}), ("0 32", of_int),
            ("none none", {"data_member_location": 1}), ("none none", {"type": unknown} | old), ("none none", old),
            ("none none", of_int | old | {"byte_size": 4, "bit_offset": NO_NUMBER}),
            ("none none", of_int | old | {"byte_size": FAULT}), ("none none", of_int | {"data_member_location": FAULT}),
            ("48 32", of_int | {"data_member_location": "plus_uconst 6"}),
            ("none none", of_int | {"data_member_location": 2, "bit_size": NO_NUMBER}),
        ]):  # fmt: skip
            whole.add("member", name=f"m{number}", **attributes)
            said.append(f"member m{number} {bits}")
        self.says("; ".join(said), whole)

    def texts(self):
        """Numbers and strings, each at an offset in a structure, as text."""
        add = self.root.add

        def base(size, encoding, **attributes):
            return add("base_type", byte_size=size, encoding=encoding, **attributes)

        def floating(form, offset, digits):
            here = bytes(range(0x10 + offset, 0x10 + offset + struct.calcsize(form)))
            return f"%.{digits}g" % struct.unpack(self.order + form, here)

        def hexadecimal(offset, size):
            return f"0x{self.number(offset, size):0{2 * size}x}"

        of_unit, other = ("little", "big") if self.order == "<" else ("big", "little")
        reversed_order = {"endianity": 1 if other == "big" else 2}
        color = add("enumeration_type", Entry("enumerator", name="blue", const_value=4),
                    Entry("enumerator", name="red", const_value=(DATA1, b"\xf0")), byte_size=1, type=self.byte)
        plain = add("enumeration_type", Entry("enumerator", name="green", const_value=-16), byte_size=1,
                    encoding=SIGNED)  # fmt: skip
        untyped = add("enumeration_type", Entry("enumerator", name="grey", const_value=0xF0), byte_size=1)
        nothing = "there is no such number"
        whole, said = add("structure_type", byte_size=0x1100), []
        word, lost = self.address_size, "memory or a register can't be read"
        twelve = {"data_bit_offset": 8 * 0x21 + 4, "bit_size": 12}
        front, back = self.number(0x21, 2, order="little") >> 4, self.number(0x21, 2, order="big") & 0xFFF
        rows = [
            (0, self.int, self.number(0, 4)), (0xE0, self.int, self.number(0xE0, 4, True)),
            (0xE0, base(1, 6), -16), (0xE0, base(1, 8), 240), (0xE0, base(2, 16), self.number(0xE0, 2)),
            (0xF0, base(1, 2), "false"), (0xF1, base(1, 2), "true"), (0xF2, base(1, 2), 2),
            (0xE0, color, "red"), (0xE1, color, 241), (0xE0, add("subrange_type", type=color), "red"),
            (0xE0, plain, "green"), (0xE0, untyped, "grey"),
            (0x20, base(4, 4), floating("f", 0x20, 9)), (0x20, base(8, 4), floating("d", 0x20, 17)),
            (0x20, base(16, 4), hexadecimal(0x20, 16)), (0x20, base(8, 3), hexadecimal(0x20, 8)),
            (0x20, base(16, SIGNED), hexadecimal(0x20, 16)), (0x20, base(72, 4), nothing), (0x20, base(0, 4), nothing),
            (0x20, add("pointer_type"), hex(self.number(0x20, word))),
            (0x20, add("ptr_to_member_type", type=self.int), hexadecimal(0x20, word)),
            (0x30, add("string_type", byte_size=4), '"@ABC"'), (0x6D, add("string_type", byte_size=3), '"}~?"'),
            (0x0E, add("string_type", byte_size=3), '"?? "'), (0, add("string_type"), nothing),
            (0, add("string_type", byte_size=62), "a location is smaller than its piece"),
            (0xFEF, add("string_type", byte_size=4), lost), (0xFEF, self.int, lost), (0xFEF, base(16, 4), lost),
            (0, add("subroutine_type"), nothing), (0, add("structure_type", byte_size=4), nothing),
            (0, base(0, SIGNED), nothing), (0x20, base(40, 4), "a location is smaller than its piece"),
            (0, add("enumeration_type", Entry("enumerator", name=70 * "x", const_value=16), byte_size=1),
             "a location is smaller than its piece"),
            *((0, base(size, 4, **place), "a division by zero")
              for size, place in [("lit1 lit0 div", {}), (4, {"data_location": "lit1 lit0 div"}),
                                  (16, {"data_location": "lit1 lit0 div"})]),
            # in the other order: bits are counted from the other end of each byte
            (0x21, base(2, 7, **reversed_order), self.number(0x21, 2, order=other)),
            (0x21, base(4, SIGNED, endianity=7), self.number(0x21, 4, order="little")),
            (None, base(4, 7, **reversed_order), front if other == "little" else back, twelve),
            (None, self.int, front if of_unit == "little" else back, twelve),
            (None, base(16, 7, **reversed_order), nothing, {"data_bit_offset": 4, "bit_size": 76}),
        ]  # fmt: skip
        for at, (offset, kind, text, *others) in enumerate(rows):
            place = {} if offset is None else {"data_member_location": offset}
            whole.add("member", name=f"m{at}", type=kind, **place, **(others[0] if others else {}))
            said.append(f".m{at} is {text}")
        for at in range(0, len(said), 8):
            self.says("; ".join(said[at : at + 8]), whole)

    def variants(self):
        """Members that are there by discriminants of 240 or, with a sign, -16."""
        add, sign = self.root.add, self.base_type(1, SIGNED)
        for discriminant, variants, there in [
            (self.byte, [{"discr_value": 239}, {"discr_value": 240}, {}], 1),
            (self.byte, [{"discr_value": -16}, {}], 0), (sign, [{"discr_value": 16}, {"discr_value": 240}], 1),
            (sign, [{}, {"discr_value": -15}], 0), (self.byte, [{"discr_value": 16}], None),
            (None, [{}], None), (add("structure_type", byte_size=4), [{}], None),
            # lists of labels and ranges, whose numbers have a sign, or not
            (self.byte, [{"discr_list": "00 10 00 ef 01"}, {"discr_list": "00 10 00 f0 01"}], 1),
            (self.byte, [{"discr_list": "01 f1 01 ff 01"}, {"discr_list": "01 10 f0 01"}], 1),
            (self.byte, [{"discr_list": "01 6c 76"}, {}], 1),
            (sign, [{"discr_list": "01 71 10"}, {"discr_list": "01 6c 76"}], 1),
            (sign, [{"discr_list": "01 10 f0 01"}, {"discr_list": "00 f0 ff ff ff ff ff ff ff ff 7f"}], 1),
            (self.byte, [*({"discr_list": it} for it in ("00 70", "00", "", "01 10")), {}], 4),
            (self.byte, [{"discr_list": "00 f0 81" + 9 * " 80" + " 00"}, {}], 0),
        ]:  # fmt: skip
            whole = add("structure_type", byte_size=256)
            tag = discriminant and whole.add("member", type=discriminant, data_member_location=0xE0)
            part = whole.add("variant_part", Entry("typedef"), **({"discr": tag} if tag else {}))
            for at, attributes in enumerate(variants):
                member = {"name": f"v{at}", "type": self.byte, "data_member_location": at}
                part.add("variant", Entry("member", **member), **attributes)
            self.says("; ".join(f".v{at} is {16 + at if at == there else 'there is no such part'}"
                                for at in range(len(variants))), whole)
        # a part within a variant
        whole = add("structure_type", byte_size=256)
        tag = whole.add("member", name="tag", type=self.byte, data_member_location=1)
        outer = whole.add("variant_part", discr=tag).add("variant", discr_value=17)
        outer.add("variant_part", discr=tag).add("variant").add("member", name="deep", type=self.byte,
                                                                data_member_location=2)
        self.says(".deep is 18; .tag is 17", whole)

    def parts(self):
        """Parts by paths, in members and bases without the name, and through pointers of two bytes."""
        add = self.root.add
        inner, whole, base = (add("structure_type", byte_size=64) for _ in range(3))
        itself = add("structure_type", byte_size=64)
        inner.add("member", name="low", type=self.byte, data_member_location=3)
        base.add("member", type=inner, data_member_location=2)
        whole.add("inheritance", type=base, data_member_location=4)
        whole.add("member", type=self.int, data_member_location=4)
        whole.add("member", name="table", type=self.array(inner, span(1, 2), span(0, 1), ordering=0),
                  data_member_location=16)
        short = add("pointer_type", type=inner, byte_size=2)
        for name, kind in [("pointer", short), ("nothing", add("pointer_type")),
                           ("reference", add("reference_type", type=self.byte, byte_size=2)),
                           ("moved", add("rvalue_reference_type", type=self.byte, byte_size=2))]:
            whole.add("member", name=name, type=kind, data_member_location=0)
        for _ in range(2):
            itself.add("member", type=itself, data_member_location=1)
        begin = self.number(0, 2) % 256
        none = "there is no such part"
        self.says(f".low is {16 + 4 + 2 + 3}; .table[2,1].low is {16 + 16 + 3 * 64 + 3}; .pointer*.low is {begin + 3}; "
                  f".reference* is {begin}; .moved* is {begin}; .low* is {none}; .low[0] is {none}; "
                  f".table[3,0] is {none}; .nothing* is libdw refuses the debug information; .other is {none}", whole)
        self.says(f".low is {none}", itself)
        for levels, said in [(63, 16 + 3), (64, none)]:
            kind = inner
            for _ in range(levels):
                kind = add("structure_type", Entry("member", type=kind, data_member_location=0), byte_size=64)
            self.says(f".low is {said}", kind)
        self.says("* is there is no such number", add("pointer_type", type=self.byte, byte_size=64))

    def values(self):
        """Parts of variables without an address: in registers, of which 0 has 0x1122334455667788 and 1
        0x99aabbccddeeff00, in other values, and where implicit pointers point."""
        add, word, is_little = self.root.add, self.address_size, self.order == "<"
        number, short = self.base_type(4, UNSIGNED), add("pointer_type", type=self.byte, byte_size=2)
        pair, pointers, inner, odd = (add("structure_type", byte_size=size) for size in (8, 4, 4, 16))
        fault, small, gone = "a division by zero", "a location is smaller than its piece", "optimized away"
        for name, place in [("first", 0), ("second", 4), ("beyond", 8), ("before", -4)]:
            pair.add("member", name=name, type=number, data_member_location=place)
        pair.add("member", name="bits", type=number, data_bit_offset=36, bit_size=8)
        for name, place in [("first", 0), ("second", 2)]:
            pointers.add("member", name=name, type=short, data_member_location=place)
        inner.add("member", name="low", type=self.byte, data_member_location=1)
        odd.add("member", name="odd", type=inner, data_bit_offset=3)
        low, high = 0x55667788, 0x11223344
        first, second, bits = (low, high, high >> 4 & 0xFF) if is_little else (high, low, low >> 20 & 0xFF)
        self.says(f"nowhere; =.first is {first}; =.second is {second}; =.bits is {bits}; =.beyond is {small}; "
                  f"=.before is {small}", pair, location="reg0")
        bits = 0xDDEEFF00 >> (4 if is_little else 20) & 0xFF
        self.says(f"=.first is {low}; =.second is {0xDDEEFF00}; =.bits is {bits}", pair,
                  location="reg0 piece 4 reg1 piece 4")
        self.says(f"= is {self.number(0, 4)}", number, location="addr 0x1010 piece 4")
        self.says("= is 2", number, location="lit1 stack_value piece 0 lit2 stack_value piece 4")
        self.says(f"=.second* is {self.number(2, 2) % 256}", pointers, location="implicit_value 4 10 11 12 13")
        here = self.number(1, 2)
        self.says(f".odd.low is {(here >> 3 if is_little else here >> 5) & 0xFF}", odd)
        # the target of an implicit pointer, at a byte of it; one without a type, or without a value
        held = add("variable", type=pair, location="implicit_value 8 01 02 03 04 05 06 07 08")
        nothing = add("variable", type=add("structure_type", byte_size=4, allocated=0), location="implicit_value 1 00")
        for said, target, offset in [
            (5, held, 4), (9, add("dwarf_procedure", location="lit9 stack_value"), 0),
            (gone, add("variable", type=number), 0), (gone, nothing, 0), (small, held, 8), (small, held, -1),
            ("libdw refuses the debug information", 0xFFFFFF, 0),
        ]:  # fmt: skip
            pointer = add("pointer_type", type=self.byte)
            self.says(f"=* is {said}", pointer, location=f"implicit_pointer {target} {offset}")
        # in the second piece
        both = add("structure_type", byte_size=2 * word)
        for name, place in [("first", 0), ("second", word)]:
            both.add("member", name=name, type=add("pointer_type", type=self.byte), data_member_location=place)
        self.says("=.second* is 6; =.first* is memory or a register can't be read", both,
                  location=f"lit5 stack_value piece {word} implicit_pointer {held} 5 piece {word}")
        self.says("=.second* is optimized away", both, location=f"lit5 stack_value piece {word}")
        # what isn't allocated has no parts
        unallocated = add("structure_type", byte_size=4, allocated=0)
        unallocated.add("member", name="low", type=self.byte, data_member_location=1)
        self.says(f".low is {gone}", unallocated)
        self.says(f"[0] is {gone}", self.array(self.int, span(0, 1), allocated=0))
        self.says(f"* is {fault}", add("pointer_type", type=self.byte, data_location="lit1 lit0 div"))

    def definitions(self):
        """A class that is declared, and defined elsewhere in the unit, in an entry of its kind in the same scope."""
        add = self.root.add
        space, other, again = (add("namespace", name=name) for name in ("space", "other", "space"))
        self.says("size 24", space.add("class_type", name="defined", declaration=True))
        other.add("structure_type", name="defined", byte_size=8)
        add("namespace").add("structure_type", name="defined", byte_size=7)
        again.add("typedef", name="defined", type=self.int)
        again.add("structure_type", name="defined", declaration=True)
        again.add("structure_type", byte_size=3)
        again.add("structure_type", name="defined", byte_size=24)
        for kind, name in [("structure", {"name": "missing"}), ("structure", {}), ("enumeration", {"name": "defined"})]:
            self.says("size none", other.add(f"{kind}_type", declaration=True, **name))
        # the unit is no type
        self.root.attributes["declaration"] = True
        self.says("size none", self.root)

    def alternatives(self):
        """A class that is defined more than once in the unit: it is known if the definitions are alike."""
        add, at0 = self.root.add, {"data_member_location": 0}

        def nested(levels, times):
            kind = self.int
            for _ in range(levels):
                kind = add("structure_type", *(Entry("member", type=kind, **at0) for _ in range(times)), byte_size=4)
            return [Entry("member", type=kind, **at0)]

        def member(tag="member", **attributes):
            return [Entry(tag, **attributes, **at0)]

        def pointer(kind="pointer", **attributes):
            return member(type=add(f"{kind}_type", **attributes))

        def choice(kind):
            return [Entry("variant_part", Entry("variant", *member(type=kind), discr_value=1))]

        def words(count):
            return member(type=self.array(self.int, span(0, count=count)))

        named, long = add("structure_type", name="n", byte_size=4), self.base_type(8, SIGNED)
        letter, number = (add("base_type", name=name, byte_size=1, encoding=SIGNED) for name in ("letter", "number"))
        for is_known, first, second in [
            (True, member(type=self.int), member(type=self.int)), (False, member(type=self.int), member(type=long)),
            (False, member(type=self.int), []), (False, [], member(type=self.int)),
            (False, member(type=self.int) * 2, member(type=self.int)), (False, pointer(), pointer(type=self.int)),
            (False, member(type=self.int, bit_size=3), member(type=self.int)),
            (False, member(type=add("structure_type", byte_size=4)), member(type=self.int)),
            (True, [Entry("typedef"), *member(type=self.int)], member(type=self.int)),
            (True, pointer(type=letter), pointer(type=number)), (False, pointer(type=letter), pointer(type=named)),
            (True, pointer(type=self.int), pointer(type=long)),
            *((True, pointer(kind, type=named), pointer(kind, type=named))
              for kind in ("reference", "rvalue_reference", "ptr_to_member")),
            (True, member("inheritance", type=named), member("inheritance", type=named)),
            (True, words(2), words(2)), (False, words(2), words(3)),
            (True, choice(self.int), choice(self.int)), (False, choice(self.int), choice(long)),
            (False, nested(40, 1), nested(40, 1)), (False, nested(14, 2), nested(14, 2)),
        ]:  # fmt: skip
            name = f"several{len(self.root.children)}"
            self.says(f"size {24 if is_known else 'none'}", add("structure_type", name=name, declaration=True))
            for children in (first, second, first):
                add("structure_type", *children, name=name, byte_size=24)
        for sizes in ((24, "lit24"), ("lit24", "lit24"), ("lit24", 24)):
            self.says("size none", add("structure_type", name=f"s{sizes}", declaration=True))
            for size in sizes:
                add("structure_type", name=f"s{sizes}", byte_size=size)

    def sections(self):
        self.list = {}
        for write in (self.arrays, self.enumerations, self.others, self.strings, self.numbers, self.members,
                      self.texts, self.variants, self.parts, self.values, self.definitions, self.alternatives):
            write()
        return self.tree() | self.list


def files():
    encodings = itertools.product((4, 8), (4,), (4, 5), ("le", "be"))
    for language, numbers in zip((C99, ADA, *FORTRANS, RUST), encodings):
        unit = Types(language, *numbers)
        yield f"{unit.name}.types", unit.elf(unit.sections())
