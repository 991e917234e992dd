"""Core dumps and the programs that they are dumps of, for x86-64, i386, aarch64 and a big-endian machine.

The names of variables of the programs are claims on the threads, as claims.h has them.
"""

from dwarf import AARCH64, I386, X86_64, Unit

FIRST, MORE, STACK, NEXT, CUT, TOPS = 0x401000, 0x402000, 0x500000, 0x501000, 0x502000, 0x504000
CODE = bytes(range(256)) * 2
# Calls: one after which the thread exits, one without rules, those whose return address is as it was, in register 200
# and in memory, and one by a register.
CALL, EXIT, EXIT_32 = b"\xe8\0\0\0\0", b"\x48\x89\xc7\xb8\x3c\0\0\0\x0f\x05", b"\x89\xc3\xb8\1\0\0\0\x90\x90\x90"
LOAD, DYNAMIC, NOTE, TLS = 1, 2, 4, 7
STATUS, FLOATS, PROCESS, AUXILIARY, XSAVE, FXSAVE, SEGMENTS = 1, 2, 3, 6, 0x202, 0x46E62B7F, 0x200
# How many words of registers a thread has, and which of them are where it stands, the stack's pointer, and the base of
# fs or gs's selector.
WORDS = {X86_64: (27, 16, 19, 21), I386: (17, 12, 15, 10), AARCH64: (34, 32, 31)}
UNREADABLE, UNKNOWN = "memory or a register can't be read", "thread-local storage"
CUT_OFF = "the frames are cut off"


class Core(Unit):
    def __init__(self, address_size, order="le", machine=None):
        super().__init__(address_size, 4, 4, order)
        self.machine = machine or self.machine
        self.wide, self.notes, self.tops = address_size == 8, b"", b""
        self.functions = [(FIRST, len(CODE))]  # those with rules

    def says(self, thread, *claims):
        self.root.add("variable", name=f"{thread}: " + "; ".join(claims))

    def note(self, name, kind, content):
        def padded(text):
            return text + bytes(-len(text) % 4)

        self.notes += self.pack("III", len(name) + 1, len(content), kind) + padded(name.encode() + b"\0")
        self.notes += padded(content)

    def status(self, thread, stack, third=0, place=FIRST + 0x10):
        """A thread that stands at a place, with the stack's pointer and the base of fs or gs's selector."""
        count, *fields = WORDS.get(self.machine, [48])
        words = [0x100 * thread + number for number in range(count)]
        for at, field in zip(fields, (place, stack, third)):
            words[at] = field
        front = bytes(32 if self.wide else 24) + self.pack("I", thread) + bytes(76 if self.wide else 44)
        self.note("CORE", STATUS, front + self.address(*words) + bytes(self.address_size))

    def ends(self, has_program=True):
        """What libdwfl takes for the process, and where the program is."""
        before, after = (24, 108) if self.wide else (12, 108)
        self.note("CORE", PROCESS, bytes(before) + self.pack("I", 100) + bytes(after))
        if has_program:
            self.note("CORE", AUXILIARY, self.address(33, 0, 3, FIRST, 0, 0) + b"\0")

    def stack(self, thread, place, top, below=0):
        """A thread that stands at no code, with a word on top of the stack, and one below it unless that is None."""
        if below is not None:
            self.tops += self.address(below)
        self.status(thread, TOPS + len(self.tops), 0, place)
        self.tops += self.address(top)

    def program(self):
        for name, begin, size in [("f", FIRST, len(CODE)), ("g", MORE + 0x100, 0x20), ("h", MORE + 0x120, 0x20)]:
            function = self.root.add("subprogram", name=name, **self.placed(begin, size))
            function.add("variable", name="here", location=f"const4u {begin} stack_value")
        places = [b"", CALL + (EXIT if self.wide else EXIT_32), CALL, CALL, CALL, CALL, b"\xff\xd0", b"", b"", b""]
        more = b"".join(it.ljust(0x20, b"\x90") for it in places)
        returns, first = (16, b"\x0c\7\x08") if self.wide else (8, b"\x0c\4\4")
        called = bytes([0x80 + returns, 1])
        rules = self.rules(*self.functions, (MORE + 0x60, 0x20, bytes([0x08, returns])),
                           (MORE + 0x80, 0x20, b"\x05\xc8\1\1", 200), (MORE + 0xA0, 0x20, called),
                           (MORE + 0xE0, 0x20, called, returns, first, b"S"), (MORE + 0x100, 0x40))
        # it begins 8 bytes after an address with its alignment, or has none
        local = (TLS, 0x403008, b"\1" * 4, 20, 16 if self.wide else 0)
        return self.elf(self.tree() | rules, [(LOAD, FIRST, CODE, len(CODE)), (LOAD, MORE, more, len(more)), local], 2)

    def core(self):
        """Of the stack's segment the file has 0x20 bytes of 0x40, and then those of the next one. One ends after the
        file, two begin there, one of them at code of the program, and one of notes has more bytes than the file."""
        return self.elf({}, [
            (NOTE, 0, self.notes, 0), (LOAD, STACK, bytes(range(0x20)), 0x40), (LOAD, NEXT, b"\xee" * 0x20, 0x20),
            (LOAD, STACK + 0x20, b"\xdd" * 0x10, 0x10), (LOAD, CUT, (-4, 0x10), 0x10),
            (LOAD, CUT + 0x10, (4, 0x10), 0x10), (LOAD, MORE + 0x130, (4, 0x10), 0x10),
            (LOAD, TOPS, self.tops, len(self.tops)), (NOTE, 0, (-8, 0x100), 0),
        ], 4)  # fmt: skip


def floats(byte):
    """xmm0 to xmm15, each with a byte of its own, as FXSAVE has them."""
    return bytes(160) + b"".join(bytes([byte + number]) * 16 for number in range(16)) + bytes(96)


def xsave(byte, mask, state):
    whole = bytearray(floats(byte) + bytes(64))
    whole[464], whole[512] = mask, state
    return bytes(whole) + b"".join(bytes([byte + 0x80 + number]) * 16 for number in range(16))


class Glibc(Core):
    """Modules of which the dynamic linker of glibc keeps where their thread-local storage is. It isn't known without
    the linker's symbols."""

    FIELDS = {"link_map_l_tls_offset": 8, "link_map_l_tls_modid": 9, "pthread_dtvp": 1, "dtv_slotinfo_gen": 0,
              "rtld_global__dl_tls_dtv_slotinfo_list": 2, "dtv_slotinfo_list_slotinfo": 2, "dtv_slotinfo_list_next": 1}
    MEMORY, DEBUG, GLOBAL, SIZE, MAPS, VECTOR, LISTS, BLOCKS = (0x600000 + 0x1000 * at for at in range(8))
    # The distance from the thread pointer, or the number in the thread's vector, its block, and when it was loaded. The
    # vector is of generation 5.
    NONE, FAR = -1, 4000
    MODULES = [(0x40, 0, 0, 0), (0, 1, BLOCKS, 5), (NONE, 4, BLOCKS + 0x40, 4), (0, 0, BLOCKS, 0), (0, 2, 0, 0),
               (0, 5, BLOCKS + 1, 0), (0, 3, BLOCKS, 6), (0, FAR, BLOCKS, 0)]
    # Where the byte 4 of those is that are known, by the thread. The vector of the second thread can't be read.
    PLACES = {(401, 0): 0x4FFFC4, (401, 1): 0x607004, (401, 2): 0x607044, (402, 0): 0x4FFFC4}

    def __init__(self, address_size, has_linker=True):
        super().__init__(address_size)
        self.has_linker = has_linker

    def library(self, number):
        """The last three aren't in the linker's list, have no dynamic section, and no thread-local storage."""
        begin, count = 0x800000 + 0x10000 * number, len(self.MODULES)
        segments = [(LOAD, begin, b"x" * 16, 16)]
        segments += [(TLS, begin + 8, b"", 32)] * (number != count + 2)
        segments += [(DYNAMIC, begin, b"", 16)] * (number != count + 1)
        unit = Core(self.address_size)
        unit.root.attributes["name"] = f"library {number}"
        unit.root.add("variable", name="local", location="const1u 4 form_tls_address")
        for thread in (401, 402):
            place = self.PLACES.get((thread, number)) if self.has_linker else None
            distance = 2 * self.address_size * (thread - 401)
            unit.says(thread, f"local of unit is {f'at {place + distance:x}' if place else UNKNOWN}")
        return unit.elf(unit.tree(), segments, 2)

    def linker(self):
        """The dynamic linker, with the names that tell debuggers where its fields are."""
        places = {"_r_debug": self.DEBUG, "_rtld_global": self.GLOBAL, "_thread_db_sizeof_dtv_slotinfo": self.SIZE}
        places |= {f"_thread_db_{name}": self.MEMORY + 16 * at for at, name in enumerate(self.FIELDS)}
        symbols = [(name, place, 0x11) for name, place in places.items()]
        return self.elf({}, [(LOAD, 0x700000, b"x" * 16, 16)], 2, symbols, ".dynsym")

    def memory(self):
        """What the process has at these addresses. The lists of the wide one have no end."""
        size, last = self.address_size, len(self.MODULES) - 1
        maps, vector = b"", [5, 0] + 2 * [0] * 9
        for at, (distance, number, block, _) in enumerate(self.MODULES):
            after = self.MAPS + 0x100 * min(at + 1, last)
            entry = [0, 0, 0x800000 + 0x10000 * at, after if self.wide or at < last else 0, 0, 0, 0, 0]
            maps += (self.address(*entry, distance % 256**size, number)).ljust(0x100, b"\0")
            if 0 < number < self.FAR:
                vector[2 * number] = block
        loaded = {number: generation for _, number, _, generation in self.MODULES}
        slots = [it for at in range(6) for it in (loaded.get(at, 0), 0)]
        after = self.LISTS + 0x80
        lists = self.address(3, after, *slots[:6]).ljust(0x80, b"\0")
        parts = {
            self.MEMORY: b"".join(bytes(8) + self.pack("II", size * it, 0) for it in self.FIELDS.values()),
            self.DEBUG: self.address(0, self.MAPS), self.GLOBAL: self.address(0, 0, self.LISTS),
            self.SIZE: self.pack("I", 2 * size), self.MAPS: maps, self.VECTOR: self.address(*vector),
            self.LISTS: lists + self.address(3, after if self.wide else 0, *slots[6:]),
            STACK: self.address(0, self.VECTOR, 0, 0x10), self.VECTOR + 2 * size * self.FAR: self.address(self.BLOCKS),
        }  # fmt: skip
        return [(LOAD, address, content, len(content)) for address, content in parts.items()]

    def files(self):
        """Of a thread whose pointer is the stack's, and one whose vector can't be read."""
        name = f"{'glibc' if self.has_linker else 'alone'}{8 * self.address_size}"
        for thread, pointer in [(401, STACK), (402, STACK + 2 * self.address_size)]:
            self.status(thread, pointer, pointer if self.wide else 0x63)
            self.note("LINUX", SEGMENTS, self.pack("IIII", 0x63 >> 3, pointer, 0, 0))
        self.ends(has_program=self.wide)
        for number in range(len(self.MODULES) + 3):
            yield f"{name}.library{number}", self.library(number)
        if self.has_linker:
            yield f"{name}.linker", self.linker()
        yield f"{name}.core", self.elf({}, [(NOTE, 0, self.notes, 0), *self.memory()], 4)


def stacks(core, first):
    """Threads that stand at no code: where, how many of 10 frames are found, what is on top of the stack, and below it.
    A call may change each register but those that the program's producer says it keeps, and it says nothing."""
    called = FIRST + CODE.index(0xE8) + 5
    for thread, (place, found, *top) in enumerate([
        (0x10, f"1, {CUT_OFF}", called, None),       # the word below the top can't be read
        (0x10, "2, all", called),                    # after a call
        (0, "2, all", called),                       # of NULL
        (0x10, f"1, {CUT_OFF}", called, 0x10),       # after a return
        (0x10, f"1, {CUT_OFF}", FIRST + 0x102),      # the top follows no call
        (0x10, f"1, {CUT_OFF}", 0x10),               # .. nor any code
        (0x10, "2, all", MORE + 0x25),               # the caller ends the thread
        (0x10, f"2, {CUT_OFF}", MORE + 0x45),        # or has no rules
        (0x10, f"3, {CUT_OFF}", MORE + 0x65),        # the return address is as it was: no code is there
        (0x10, f"2, {CUT_OFF}", MORE + 0x85),        # it is in a register that isn't known
        (0x10, f"2, {CUT_OFF}", MORE + 0xC2),        # a call by a register
        (0x10, f"1, {CUT_OFF}", None),               # the top can't be read
        (0x10, "10, there are more frames", MORE + 0xA5),
    ], first):  # fmt: skip
        if top == [None]:
            core.status(thread, 0x10, 0, place)
        else:
            core.stack(thread, place, *top)
        core.says(thread, f"frames 10 is {found}")
        if not found.startswith("1,"):
            core.says(thread, f"register {17 if core.wide else 21} in 1 is {UNREADABLE}")
    # after the call of the second one the stack's pointer is a word higher, and the CFA is the next word
    core.says(first + 1, f"9c on 1 is at {TOPS + 4 * core.address_size:x}")
    core.tops += core.address(*[MORE + 0xA5] * 12)
    # a handler of a signal, and what the signal stopped: it stands at its next instruction, the first of a function
    core.status(first + 13, TOPS + len(core.tops), 0, MORE + 0xA5)
    core.tops += core.address(MORE + 0xE1, MORE + 0x120)
    core.says(first + 13, "frames 10 is 3, all", "address in 0 is 4020a5", "address in 1 is 4020e1",
              "address in 2 is 402120", "function in 2 is h", "here in 2 is 20214000")


# What registers the first threads have: general ones, xmm0 to xmm15 with the upper halves of ymm0 to ymm15, which may
# be in their first state, or not be in the dump; and the base of fs.
REGISTERS = {
    101: {0: "0a65000000000000", 7: "0800500000000000", 58: "6500600000000000", 17: 16 * "01" + 16 * "81",
          32: 16 * "10" + 16 * "90", 33: UNREADABLE, 60: UNREADABLE, 100000: UNREADABLE},
    102: {0: "0a66000000000000", 58: "6600600000000000", 18: 16 * "03" + 16 * "00"},
    103: {17: 16 * "03"}, 104: {17: 16 * "04" + 16 * "84", 32: 16 * "13"}, 105: {17: 16 * "05"}, 106: {17: 16 * "06"},
    107: {18: 16 * "08", 19: UNREADABLE},
    201: {4: "08005000", 17: UNREADABLE, 21: 16 * "01", 29: UNREADABLE}, 202: {28: 16 * "09"}, 203: {},
}  # fmt: skip
# In the dump, across two segments, missing in a segment, in the program's file, and after its end.
MEMORY = [
    (0x500008, 4, "08090a0b"), (0x50001E, 4, "1e1fdddd"), (0x50002E, 4, UNREADABLE), (0x501000, 2, "eeee"),
    (0x50101F, 2, UNREADABLE), (0x50001F, 1, "1f"), (0x500030, 1, UNREADABLE), (0x401010, 4, "10111213"),
    (0x4010FF, 2, "ff00"), (0x4011FF, 2, UNREADABLE), (0x502002, 4, UNREADABLE), (0x502010, 1, UNREADABLE),
    (0x502000, 4, "known"), (0x10, 1, UNREADABLE), (0x402134, 4, UNREADABLE), (0x40212C, 4, "90909090"),
]  # fmt: skip
# Where the byte 4 of the thread-local storage is. The block has 20 bytes and ends at the pointer, which is 0x600000 and
# the thread's number. On x86-64 it begins 8 bytes after an address with its alignment of 16, and so has padding at its
# end. On i386 the segment that gs selects may be missing.
LOCALS = {101: "at 600051", 102: "at 600052", 103: "at 600053", 201: "at 6000b9", 202: UNKNOWN, 203: UNKNOWN}


def says(core, first, count):
    """What is known of the first threads, and of all."""
    core.says(first, f"threads {first} is {count}", f"9c on 0 is at {STACK + 8 + core.address_size:x}",
              "rule 3 in 0 is the register has the caller's value")
    for address, size, said in MEMORY:
        core.says(first, f"memory {address:x} {size} in 0 is {said}")
    for thread in (it for it in REGISTERS if it // 100 == first // 100):
        core.says(thread, "frames 10 is 1, all")
        for number, said in REGISTERS[thread].items():
            core.says(thread, f"register {number} in 0 is {said}")
        if thread in LOCALS:
            core.says(thread, f"08049b on 0 is {LOCALS[thread]}", f"08149b on 0 is {UNKNOWN}")


def aarch64():
    """A thread in a function that keeps its caller's registers 64, 72 and 95: v0, v8 and v31. No rule is about v9."""
    core = Core(8, "le", AARCH64)
    core.functions = [(FIRST, len(CODE), b"\x9e\1" b"\5\x48\2" b"\5\x40\3" b"\5\x5f\4", 30, b"\x0c\x1f\x20"),
                      (MORE + 0x20, 0x20)]  # fmt: skip
    core.status(501, TOPS)
    core.tops += core.address(0x95A1A2A3A4A5A6A7, 0x64B1B2B3B4B5B6B7, 0x72C1C2C3C4C5C6C7, MORE + 0x25)
    core.says(501, "frames 10 is 2, all", "address in 1 is 402024, a call", "register 95 in 1 is a7a6a5a4a3a2a195",
              "register 64 in 1 is b7b6b5b4b3b2b164", "register 72 in 1 is c7c6c5c4c3c2c172",
              f"register 73 in 1 is {UNREADABLE}", f"register 64 in 0 is {UNREADABLE}",
              "register 19 in 1 is 13f5010000000000")
    return core


def files():
    wide, narrow, big = Core(8), Core(4), Core(8, "be")
    wide.note("OTHER", STATUS, bytes(336))
    wide.note("CORE", STATUS, bytes(8))
    for thread, (mask, state, cut) in enumerate([(7, 7, 0), (7, 3, 0), (3, 3, 0), (7, 7, 200), (7, 7, 800)], 101):
        wide.status(thread, STACK + 8, 0x600000 + thread)
        wide.note("CORE", FLOATS, floats(thread - 100))
        wide.note("LINUX", XSAVE, xsave(thread - 100, mask, state)[: 832 - cut])
        wide.note("LINUX", 0x777, b"12345678")
    # a thread without XSAVE, and one whose registers of floating point are cut off
    for thread, size in [(106, 512), (107, 200)]:
        wide.status(thread, STACK + 8, 0x600000 + thread)
        wide.note("CORE", FLOATS, floats(thread - 100)[:size])
    stacks(wide, 111)
    says(wide, 101, 21)
    # notes of another name, and one without registers
    for name, kind, size in [("LINUX", STATUS, 336), ("CORE", XSAVE, 336), ("LINUX", FLOATS, 336),
                             ("LINUX", AUXILIARY, 336), ("LOAD", AUXILIARY, 336), ("CORE", STATUS, 112)]:
        wide.note(name, kind, bytes(size))
    for thread, count in [(201, 2), (202, 1), (203, 0)]:
        narrow.status(thread, STACK + 8, 0x63)
        narrow.note("LINUX", FXSAVE, floats(thread - 200))
        segments = [(5, 0x700000, 0, 0), (0x63 >> 3, 0x600000 + thread, 0, 0)][:count]
        if count:
            narrow.note("LINUX", SEGMENTS, b"".join(narrow.pack("IIII", *it) for it in segments) + b"123")
    stacks(narrow, 211)
    says(narrow, 201, 17)
    # libdwfl can't unwind on the machine in big endian
    big.status(301, STACK + 8)
    big.says(301, f"frames 10 is 1, {CUT_OFF}", f"08049b on 0 is {UNKNOWN}", f"08149b on 0 is {UNKNOWN}")
    for name, core in [("x86_64", wide), ("i386", narrow), ("big", big), ("aarch64", aarch64()), ("empty", Core(8))]:
        core.ends()
        yield f"{name}.program", core.program()
        yield f"{name}.core", core.core()
    for glibc in (Glibc(8), Glibc(8, has_linker=False), Glibc(4)):
        yield from glibc.files()
