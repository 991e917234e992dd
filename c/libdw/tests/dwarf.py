"""Debug information from trees of entries, in each encoding of a unit, and the ELF files that hold it."""

import pathlib
import re
import struct
import subprocess

# The numbers of tags and attributes, as libdw's header has them.
HEADER = ["cc", "-E", "-include", "dwarf.h", "-x", "c", "/dev/null"]
NAMED = re.findall(r"DW_((?:TAG|AT)_\w+) = (\w+)", subprocess.check_output(HEADER, text=True))
NUMBERS = {name: int(number, 0) for name, number in NAMED}
# The opcodes and the operands of operations. Of these, `a` is an address, `r` an offset in .debug_info, bBhHiIqQ are as
# in struct, `u` and `s` LEB128, `k` a block's length as LEB128, and `c` one in a byte.
FORMS = {it: it for it in "aBbHhIiQqusrk"} | {"-": "", "R": "u", "O": "us", "V": "uu", "P": "u", "K": "uu", "D": "B"}
FORMS |= {"E": "Bu", "T": "u", "L": "uc", "w": "H", "x": "I", "p": "rs"}
OPCODES = pathlib.Path(__file__).parents[2] / "include" / "dwexpr_opcodes.h"
ROWS = re.findall(r"row\((\w+), \"DW_OP_(\w+)\", '(.)'\)", OPCODES.read_text(encoding="utf-8"))
OPERATIONS = {name: (int(opcode, 0), FORMS[form]) for opcode, name, form in ROWS if form in FORMS}
ADDRESS, STRING, BLOCK1, DATA1, FLAG, SDATA, UDATA, REF4 = 0x01, 0x08, 0x0A, 0x0B, 0x0C, 0x0D, 0x0F, 0x13
OFFSET, EXPRESSION, CONSTANT, INDEX = 0x17, 0x18, 0x21, 0x22
X86_64, I386, AARCH64 = 62, 3, 183
# The machine of a unit, if it doesn't say another one, and which registers are a machine's stack pointer and its return
# address.
MACHINES = {(8, "le"): X86_64, (4, "le"): I386, (8, "be"): 21, (4, "be"): 20}
POINTERS = {X86_64: (7, 16), I386: (4, 8), AARCH64: (31, 30)}


def unsigned_leb(number, length=1):
    """An unsigned LEB128 number of at least this many bytes."""
    count = max(length, -(-number.bit_length() // 7))
    return bytes(number >> 7 * at & 0x7F | 0x80 * (at + 1 < count) for at in range(count))


def signed_leb(number, length=1):
    """A signed LEB128 number."""
    count = max(length, max(number, ~number).bit_length() // 7 + 1)
    return unsigned_leb(number % (1 << 7 * count), count)


class Entry:
    """An entry of a tree: its tag, its children, and its attributes by their names in DWARF. Of these a number is data
    or, if it is negative, sdata; text is an expression, or a name; bytes are a string, True is a flag, an entry a
    reference, and a pair a form and its bytes."""

    entries = []

    def __init__(self, tag, *children, **attributes):
        self.tag, self.children, self.attributes = NUMBERS[f"TAG_{tag}"], list(children), attributes
        self.place, self.number = 0, len(self.entries)
        self.entries.append(self)

    def __str__(self):
        """Its place, in the text of an expression."""
        return f"@{self.number}"

    def add(self, tag, *children, **attributes):
        self.children.append(Entry(tag, *children, **attributes))
        return self.children[-1]


class Unit:
    """A unit, whose entries are those of `root`."""

    def __init__(self, address_size, offset_size, version, order, **attributes):
        self.address_size, self.offset_size, self.version = address_size, offset_size, version
        self.order = "<" if order == "le" else ">"
        self.machine = MACHINES[address_size, order]
        self.name = f"{address_size}-{offset_size}-{version}-{order}"
        self.root = Entry("compile_unit", **attributes)
        self.abbreviations = {}

    def pack(self, form, *numbers):
        return struct.pack(self.order + form, *numbers)

    def word(self, size, *numbers):
        return self.pack(("Q" if size == 8 else "I") * len(numbers), *numbers)

    def address(self, *numbers):
        return self.word(self.address_size, *numbers)

    def offset(self, number):
        return self.word(self.offset_size, number)

    def counted(self, content):
        """What a section or a unit has after its length."""
        return b"\xff" * (self.offset_size - 4) + self.offset(len(content)) + content

    def placed(self, begin, size):
        """The attributes of an entry with code there."""
        return {"low_pc": (ADDRESS, self.address(begin)), "high_pc": (ADDRESS, self.address(begin + size))}

    def base_type(self, size, encoding):
        return self.root.add("base_type", byte_size=size, encoding=encoding)

    def operand(self, form, word):
        number = self.root.entries[int(word[1:])].place if word[0] == "@" else int(word, 0)
        if form in "uk":
            return unsigned_leb(number, 2 if word[0] == "@" else 1)
        if form == "s":
            return signed_leb(number)
        if form in "ar":
            return self.word(self.address_size if form == "a" else self.offset_size, number)
        return self.pack("B" if form == "c" else form, number)

    def expression(self, text):
        """The bytes of operations by their names, each before its operands; other words are bytes. @N is the place of
        an entry."""
        words, made = iter(text.split()), b""
        for word in words:
            opcode, forms = OPERATIONS.get(word, (None, ""))
            made += bytes.fromhex(word) if opcode is None else bytes([opcode])
            for form in forms:
                made += self.operand(form, next(words))
        return made

    def content(self, name, value):
        """The form of an attribute's value, and its bytes."""
        if value is True:
            return FLAG, b"\1"
        if isinstance(value, Entry):
            return REF4, self.pack("I", value.place)
        if isinstance(value, bytes) or name.endswith("name"):
            return STRING, (value if isinstance(value, bytes) else value.encode()) + b"\0"
        if isinstance(value, str):
            made = self.expression(value)
            return (EXPRESSION if self.version >= 4 else BLOCK1), unsigned_leb(len(made)) + made
        if isinstance(value, int):
            return (SDATA, signed_leb(value)) if value < 0 else (UDATA, unsigned_leb(value))
        return value

    def written(self, entry, begin):
        """The bytes of an entry and its children. The first time the places of later entries aren't known."""
        entry.place = begin
        contents = [(NUMBERS[f"AT_{name}"], *self.content(name, value)) for name, value in entry.attributes.items()]
        shape = unsigned_leb(entry.tag) + bytes([bool(entry.children)])
        for name, form, content in contents:
            shape += unsigned_leb(name) + unsigned_leb(form) + (content if form == CONSTANT else b"")
        made = bytearray(unsigned_leb(self.abbreviations.setdefault(shape + b"\0\0", len(self.abbreviations) + 1)))
        made += b"".join(content for _, form, content in contents if form != CONSTANT)
        for child in entry.children:
            made += self.written(child, begin + len(made))
        return made + b"\0" * bool(entry.children)

    def tree(self):
        """The sections of the debug information, by name."""
        header = self.pack("HBB", 5, 1, self.address_size) + self.offset(0)
        if self.version < 5:
            header = self.pack("H", self.version) + self.offset(0) + bytes([self.address_size])
        for _ in range(2):
            made = self.written(self.root, len(self.counted(header)))
        shapes = b"".join(unsigned_leb(code) + shape for shape, code in self.abbreviations.items())
        return {".debug_abbrev": shapes + b"\0", ".debug_info": self.counted(header + made)}

    def located(self, begin, end, expression):
        """An entry of a location list, for the addresses from one to before another."""
        size = unsigned_leb(len(expression)) if self.version >= 5 else self.pack("H", len(expression))
        return b"\7" * (self.version >= 5) + self.address(begin, end) + size + expression

    def list_of(self, *entries):
        return b"".join(entries) + (b"\0" if self.version >= 5 else self.address(0, 0))

    def lists(self, content):
        """The section of location lists with this content, by its name, and where the content begins in it. In version
        5 that has index 0 too."""
        if self.version < 5:
            return {".debug_loc": content}, 0
        front = self.pack("HBBI", 5, self.address_size, 0, 1) + self.offset(self.offset_size)
        section = self.counted(front + content)
        return {".debug_loclists": section}, len(section) - len(content)

    def addresses(self, *numbers):
        """The section of the addresses that operations name by their index."""
        self.root.attributes["addr_base"] = (OFFSET, self.offset(2 * self.offset_size))
        return {".debug_addr": self.counted(self.pack("HBB", 5, self.address_size, 0) + self.address(*numbers))}

    def rules(self, *functions, section=".debug_frame"):
        """Call frame information of functions, each by its begin and size. Others say its instructions, the number of
        the return address's register, the instructions before all, and the augmentation. If they don't, the CFA is a
        word above the stack's pointer, and there is no caller."""
        word, for_exceptions = self.address_size, section == ".eh_frame"
        pointer, returns = POINTERS.get(self.machine, (7, 16) if word == 8 else (4, 8))
        usual = [bytes([0x07, returns]), returns, bytes([0x0C, pointer, word]), b""]
        made = b""

        def add(part):
            part += bytes(-(len(part) + 4) % 8)
            return self.pack("I", len(part)) + part

        for begin, size, *others in functions:
            own, register, first, augmentation = others + usual[len(others):]
            common, place = self.pack("IB", 0xFFFFFFFF, 4) + augmentation + bytes([0, word, 0, 1]), len(made)
            if for_exceptions:
                common = self.pack("IB", 0, 1) + augmentation + b"\0\1"
            made += add(common + signed_leb(-word) + unsigned_leb(register) + first)
            common = len(made) + 4 - place if for_exceptions else place
            made += add(self.pack("I", common) + self.address(begin, size) + own)
        return {section: made + bytes(4) * for_exceptions}

    def table(self, name, symbols, relocations):
        """The sections of symbols and of relocations that name them. A symbol is a name, which is None if it has none
        in the file, an address, which is None if another file has it, what it is and, if not everyone sees it, its
        visibility. A relocation is a place, a type, a symbol's name, and what is added."""
        wide = self.address_size == 8
        strings, rows, places = b"\0", bytes(24 if wide else 16), {}
        for number, (symbol, address, what, *seen) in enumerate(symbols, 1):
            at = 0xFFFF if symbol is None else len(strings)
            fields = (what, *(seen or [0]), address is not None)
            rows += self.pack(*(("IBBHQQ", at, *fields, address or 0, 8) if wide else
                                ("IIIBBH", at, address or 0, 8, *fields)))
            strings += (symbol or "").encode() + b"\0"
            places.setdefault(symbol, number)
        made = {name: rows, ".strtab": strings}
        if relocations:
            made[".rela.dyn" if wide else ".rel.dyn"] = b"".join(
                self.pack("QQq", place, places[symbol] << 32 | kind, added) if wide
                else self.pack("II", place, places[symbol] << 8 | kind) for place, kind, symbol, added in relocations)
        return made

    def elf(self, sections, segments=(), kind=1, symbols=(), table=".symtab", relocations=()):
        """The bytes of an object file with these sections, by name; or of a program or a core dump, with segments.

        A segment is its type, its address, its bytes, how many it has in memory, and its alignment if that isn't 1.
        In place of bytes there may be the distance to the file's end, and how many there are said to be."""
        wide = self.address_size == 8
        front, step, header = (64, 56, 64) if wide else (52, 32, 40)
        words = "IIQQQQQQ" if wide else "IIIIIIII"
        if symbols:
            sections = sections | self.table(table, symbols, relocations)
        names = "\0".join(["", *sections, ".shstrtab", ""])
        sections = sections | {".shstrtab": names.encode()}
        contents = [content for _, _, content, *_ in segments if isinstance(content, bytes)] + [*sections.values()]
        body = b"".join(contents)
        body += bytes(-(front + step * len(segments) + len(body)) % 8)
        place = front + step * len(segments)
        end = place + len(body) + header * (len(sections) + 1)
        made = b""
        for segment, address, content, size, *align in segments:
            at, length = (place, len(content)) if isinstance(content, bytes) else (end + content[0], content[1])
            fields = [at, address, address, length, size]
            fields = [segment, 7, *fields] if wide else [segment, *fields, 7]
            made += self.pack(words, *fields, *(align or [1]))
            place += length if isinstance(content, bytes) else 0
        headers = bytes(header)
        kinds = {".shstrtab": 3, ".strtab": 3, ".symtab": 2, ".dynsym": 11, ".rela.dyn": 4, ".rel.dyn": 9}
        sizes = {table: 24 if wide else 16, ".rela.dyn": 24, ".rel.dyn": 8}
        for index, (name, content) in enumerate(sections.items()):
            # symbols link to the strings after them, and relocations to the symbols before those
            links = [index + 2 if name == table else index - 1, 1, 8, sizes[name]] if name in sizes else [0, 0, 1, 0]
            fields = names.index(f"\0{name}\0") + 1, kinds.get(name, 1), 0, 0, place, len(content), *links
            headers += self.pack("IIQQQQIIQQ" if wide else "IIIIIIIIII", *fields)
            place += len(content)
        first = self.pack(f"HHI{3 * words[2]}I6H", kind, self.machine, 1, 0, front * bool(segments),
                          end - len(headers), 0, front, step, len(segments), header, len(sections) + 1, len(sections))
        ident = b"\x7fELF" + bytes([1 + wide, 1 + (self.order == ">"), 1]) + bytes(9)
        return ident + first + made + body + headers
