"""A program and libraries that export variables of the same names. What the dynamic linker wrote into the process is in
the segments of their files. The names of variables of the program's unit are claims, as claims.h has them.

Each module has a function at its begin. In its frame each of the variables stands: with an address, where it has the
module's digit, or only declared.
"""

from dwarf import Unit

LOAD, DYNAMIC = 1, 2
OBJECT, FUNCTION = 0x11, 0x12
PROTECTED = 3
SYMBOLIC, FLAGS = 16, 30
AMBIGUOUS, UNDEFINED = "there are several definitions", "it is only declared"
# The types of relocations: a copy, an address of data and of a function, an address and a number, and one that isn't
# known.
KINDS = {8: {"copy": 5, "data": 6, "function": 7, "sum": 1, "other": 10},
         4: {"copy": 5, "data": 6, "function": 7, "other": 1}}  # fmt: skip
VARIABLES = ("bound", "summed", "copied", "nothing", "lost", "single", "other", "hidden", "unlike", "alias", "symbolic",
             "flagged", "stub", "loose")  # fmt: skip


class Module(Unit):
    """A module: its begin is that of its code, and its data is after it. `symbols` are what it exports and imports."""

    def __init__(self, size, number):
        super().__init__(size, 4, 4, "le", name=f"module {number}")
        self.number, self.begin = number, 0x800000 + 0x10000 * number
        self.function = self.root.add("subprogram", name="f", **self.placed(self.begin, 0x100))
        self.int = self.base_type(4, 5)
        self.data, self.slots = self.begin + 0x1000, self.begin + 0x1200
        self.memory = bytearray(0x400)
        self.symbols, self.relocations, self.entries = [], [], []

    def at(self, name):
        """Where the module has a variable, if it does."""
        return self.data + 16 * VARIABLES.index(name)

    def holds(self, name):
        """What a variable has: the module's digit, and the variable's number."""
        return f"{0x10 * (self.number + 1) + VARIABLES.index(name):02x}000000"

    def define(self, name, *seen, what=OBJECT, linked=None):
        """Exports a variable that stands in the frame with its address."""
        self.symbols.append((linked or name, self.at(name), what, *seen))
        place = self.at(name) - self.data
        self.memory[place : place + 4] = bytes.fromhex(self.holds(name))
        self.function.add("variable", name=name, type=self.int, external=True,
                          location=f"addr {self.at(name)}")

    def declare(self, name):
        self.function.add("variable", name=name, type=self.int, external=True, declaration=True)

    def relocate(self, kind, name, address, added=0, place=None):
        """A slot in which the dynamic linker wrote an address for a name."""
        if name not in [known for known, *_ in self.symbols]:
            self.symbols.append((name, None, OBJECT))
        slot = self.slots + 8 * len(self.relocations) if place is None else place
        self.relocations.append((slot, KINDS[self.address_size][kind], name, added))
        if kind != "copy" and slot >= self.data:
            self.memory[slot - self.data : slot - self.data + self.address_size] = self.address(address + added)

    def file(self, dynamic):
        """The module's file, with its entries of the dynamic section."""
        code, entries = b"\x90" * 0x100, self.address(*(it for pair in dynamic for it in pair), 0, 0)
        segments = [(LOAD, self.begin, code, len(code)), (LOAD, self.data, bytes(self.memory), len(self.memory))]
        segments += [(DYNAMIC, self.begin + 0x2000, entries, len(entries))] * bool(dynamic)
        return self.elf(self.tree() | {".text": code}, segments, 2, self.symbols, ".dynsym", self.relocations)


class Links:
    """The modules, and what each variable is in the frame of each."""

    def __init__(self, size):
        self.size = size
        self.modules = self.program, self.library, self.second, self.third = [Module(size, at) for at in range(4)]

    def is_in(self, module, name, said):
        """What a variable is in a module: that of another one, or text."""
        said = said.holds(name) if isinstance(said, Module) else said
        self.program.root.add("variable", name=f"{module.begin + 8:x}: {name} in 0 is {said}")

    def variables(self):
        program, library, second, third = self.modules
        # a slot with an address, and without one
        for module in (library, second):
            for name in ("bound", "lost", "other", "loose"):
                module.define(name)
        library.relocate("data", "bound", second.at("bound"))
        for name in ("bound", "nothing", "lost", "single", "other", "stub", "loose"):
            program.declare(name)
        program.relocate("data", "bound", library.at("bound"))
        for module, said in [(program, library), (library, second), (second, second)]:
            self.is_in(module, "bound", said)
        # it was bound to nothing, though another library has one
        second.define("nothing")
        program.relocate("data", "nothing", 0)
        self.is_in(program, "nothing", UNDEFINED)
        # the slot can't be read, or isn't one that is known; the slot of a function leads to its own module
        second.define("single")
        library.define("stub")
        for kind, name, place, said in [("data", "lost", 0x10, AMBIGUOUS), ("data", "single", 0x10, second),
                                        ("other", "other", None, AMBIGUOUS), ("function", "stub", None, library)]:
            program.relocate(kind, name, program.begin, 0, place)
            self.is_in(program, name, said)
        self.is_in(program, "loose", AMBIGUOUS)
        library.relocate("data", "lost", second.at("lost"), 0, 0x10)
        self.is_in(library, "lost", AMBIGUOUS)
        if self.size == 8:
            library.define("summed")
            second.define("summed")
            program.declare("summed")
            program.relocate("sum", "summed", second.at("summed"), 16)
            self.is_in(program, "summed", second)
        # the program has a copy; but what a library binds to itself is its own
        for name in ("copied", "hidden", "unlike", "symbolic", "flagged"):
            program.define(name)
            program.relocate("copy", name, 0, 0, program.at(name))
        library.define("copied")
        second.declare("copied")
        library.define("hidden", PROTECTED)
        library.define("unlike", linked="unlike_too")
        library.symbols.append(("unlike", library.at("unlike") + 4, OBJECT))
        second.define("symbolic")
        third.define("flagged")
        for module, name, said in [(program, "copied", program), (library, "copied", program),
                                   (second, "copied", program), (library, "hidden", library),
                                   (library, "unlike", library), (second, "symbolic", second),
                                   (third, "flagged", third)]:
            self.is_in(module, name, said)
        # the relocation names it differently; others name a function at its address, or have no name
        library.define("alias")
        second.define("alias")
        library.symbols += [("called", library.at("alias"), FUNCTION), ("same", library.at("alias"), OBJECT)]
        library.symbols.append((None, library.at("alias") + 4, OBJECT))
        library.relocate("data", "called", program.begin)
        library.relocate("data", None, program.begin)
        library.relocate("data", "same", second.at("alias"))
        self.is_in(library, "alias", second)

    def definitions(self):
        """Types that the program declares: one that a library defines, also for a frame there and for one in no unit;
        and one that two define in different ways."""
        unlike = {self.library: 24, self.third: 8}
        for name, sizes, said in [("far", {self.second: 24}, 24), ("unlike", unlike, "none")]:
            kind = self.program.root.add("structure_type", name=name, declaration=True)
            for place in (self.program.begin + 8, self.second.begin + 8, 0x10):
                self.program.root.add("variable", name=f"{place:x}: size {said}", type=kind)
            for module, size in sizes.items():
                module.root.add("structure_type", name=name, byte_size=size)

    def files(self):
        self.variables()
        self.definitions()
        # one has no dynamic section
        dynamic = [(FLAGS, 8)], [(FLAGS, 8)], [(SYMBOLIC, 0)], [(FLAGS, 2)] * (self.size == 8)
        for module, entries in zip(self.modules, dynamic):
            yield f"{self.size}.linked{'.' * bool(module.number)}{module.number or ''}", module.file(entries)


def files():
    for size in (8, 4):
        yield from Links(size).files()
