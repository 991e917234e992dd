"""Values of expressions in a frame whose registers and memory are known, in both byte orders.

The names of variables are claims, as claims.h has them. Their bits are counted by hand: register 0 has
0x1122334455667788, register 1 0x99aabbccddeeff00, and 17 the bytes 00 to 0f. Each byte of memory from 0x1000 to 0x2000
is the lowest one of its address.
"""

from dwarf import Unit

SMALL, GONE, POINTER = "a location is smaller than its piece", "optimized away", "an implicit pointer"
UNREADABLE = "memory or a register can't be read"
# Expressions, and what they are in little and in big endian.
ROWS = [
    ("reg0", "88776655", "55667788"),
    ("reg0 bit_piece 8 600", f"?? {SMALL}", None),
    ("reg0 bit_piece 1 3", "1 bits 01", "1 bits 80"),
    ("reg0 piece 8 reg1 piece 8", "887766554433221100ffeeddccbbaa99", "112233445566778899aabbccddeeff00"),
    ("reg0 piece 4 reg1 piece 4", "8877665500ffeedd", "55667788ddeeff00"),
    ("reg17", "000102030405060708090a0b0c0d0e0f", None),
    ("reg17", "00010203", "0c0d0e0f"),
    ("reg0", f"8877665544332211?? {SMALL}", f"??1122334455667788 {SMALL}"),
    ("reg2", f"???????? {UNREADABLE}", None),
    ("reg0 piece 4 piece 4", f"88776655???????? {GONE}", None),
    ("piece 4 reg0 piece 4", None, f"????????55667788 {GONE}"),
    ("reg0 piece 2", f"8877???? {GONE}", None),
    # the bits 1 to 3 of 88 are 100, and then come five ones, or bits that are optimized away and three ones
    ("reg0 bit_piece 3 1 lit31 stack_value bit_piece 5 0", "fc", "9f"),
    ("reg0 bit_piece 3 1 bit_piece 2 0 lit31 stack_value bit_piece 3 0", f"e4?18 {GONE}", f"87?18 {GONE}"),
    ("reg0 bit_piece 4 0 const1u 16 lit8 shl piece 2", "20 bits 081000", "20 bits 800010"),
    ("const1u 16 lit8 shl", "000102", "000102"),
    ("const1u 16 lit8 shl plus_uconst 5 bit_piece 12 4", "12 bits 6000", "12 bits 5060"),
    # of 07 08, and of the last byte of memory and those around it
    ("const4u 0x1005 bit_piece 8 20", "80", None),
    ("const4u 0x1fff", "ff", None),
    ("const4u 0x1fff", f"ff?? {UNREADABLE}", None),
    ("const4u 0x1ffe piece 4 const4u 0xffe piece 4", f"feff????????0001 {UNREADABLE}", None),
    ("const4u 0xfff bit_piece 24 4", f"00?0f1020 {UNREADABLE}", None),
    ("implicit_value 4 aabbccdd", "aabbccdd", "aabbccdd"),
    ("implicit_value 4 aabbccdd", None, "aa"),
    ("implicit_value 2 a50f bit_piece 4 4", "4 bits 0a", "4 bits 50"),
    ("implicit_value 1 aa", f"aa?? {SMALL}", f"aa?? {SMALL}"),
    ("lit1 stack_value", "01000000", "00000001"),
    ("const1u 165 stack_value bit_piece 4 4", "4 bits 0a", "4 bits a0"),
    ("lit1 stack_value", f"0100000000000000???????????????? {SMALL}", f"????????????????0000000000000001 {SMALL}"),
    # bits of a value that end before those of the piece
    ("const1u 165 stack_value bit_piece 16 60", f"00?f0?? {SMALL}", None),
    ("implicit_pointer 16 2", f"???????????????? {POINTER}", None),
    # the code is that of the first unknown bit
    ("reg0 piece 2 implicit_pointer 16 2 piece 2", f"8877???? {POINTER}", None),
    ("piece 2 implicit_pointer 16 2 piece 2", f"???????? {GONE}", None),
    ("", GONE, None),
    ("plus", "a value is missing on the stack", None),
    ("skip -3", "too many operations", None),
]
# What nothing answers here.
REQUESTS = [
    ("const1u 16 deref", "memory"), ("lit0 const2u 0x1000 xderef", "memory"), ("breg5 0", "a register"),
    ("fbreg 0", "the frame base"), ("lit0 form_tls_address", "thread-local storage"),
    ("call_frame_cfa", "the canonical frame address"), ("call4 0", "an entry's location"),
    ("entry_value 1 reg0 stack_value", "an entry value"), ("GNU_parameter_ref 0", "a parameter"),
    ("addrx 0", "an entry of .debug_addr"), ("lit1 convert 5", "a base type"), ("regval_type 0 5", "a base type"),
    ("ed 00 00", "a WebAssembly local"),
]  # fmt: skip


class Values(Unit):
    def says(self, expression, said, given=""):
        """What an expression is, without the unit; `-` is an empty one."""
        self.root.add("variable", name=f"{self.expression(expression).hex() or '-'} on 0{given} is {said}")

    def sections(self):
        for expression, *said in ROWS:
            of_order = said[self.order == ">"]
            if of_order:
                self.says(expression, of_order)
        if self.order == "<":
            self.only_little()
        return self.tree()

    def only_little(self):
        for expression, request in REQUESTS:
            self.says(expression, request)
        # more bytes than are read at once, from within one
        memory = bytes(at % 256 for at in range(264))
        bits = int.from_bytes(memory, "little") >> 4 & (1 << 2100) - 1
        self.says("const4u 0x1000 bit_piece 2100 4", f"2100 bits {bits.to_bytes(263, 'little').hex()}")
        # what is on the stack at first, and the object's address
        self.says("push_object_address plus", "at 7", " with 3 4")
        self.says("push_object_address plus", "no object's address was set", " with 3")
        # so many operations are done
        for count, said in [(100000, "at 1"), (100001, "too many operations")]:
            self.root.add("variable", name=f"value {said}", location=(count - 1) * "nop " + "lit1")


class Narrow(Values):
    def sections(self):
        """A generic value has the size of an address, which isn't always 8 bytes."""
        self.says("lit1 stack_value", f"01000000???????? {SMALL}")
        return self.tree()


def files():
    for unit in (Values(8, 4, 5, "le"), Values(8, 4, 5, "be"), Narrow(4, 4, 5, "le")):
        yield f"{unit.name}.values", unit.elf(unit.sections())
