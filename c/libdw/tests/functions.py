"""Programs whose debug information has functions, blocks and call sites that compilers seldom write.

Each function has 256 bytes of code, from 0x401000 on. The names of variables of the unit are claims, as claims.h has
them.
"""

from dwarf import ADDRESS, OFFSET, Unit

FIRST, SIZE = 0x401000, 0x100
CODE = b"\x90" * 0x18000
OUTSIDE = 0x41FF00
ENTRY_0 = "entry_value 1 reg0 stack_value"
UNKNOWN = "an entry value"
DECLARED = {"external": True, "declaration": True}


class Functions(Unit):
    def __init__(self, version):
        super().__init__(8, 4, version, "le", language=0x0C)
        if version >= 5:
            self.root.attributes |= self.placed(FIRST, len(CODE))
        self.int = self.base_type(4, 5)
        self.count, self.symbols, self.sections = 0, [], {}

    def function(self, parent=None, **attributes):
        """A function with code of its own; its `begin` is where that begins."""
        begin = FIRST + SIZE * self.count
        self.count += 1
        if "ranges" not in attributes:
            attributes |= self.placed(begin, SIZE)
        made = (parent or self.root).add("subprogram", **{"name": f"f{self.count}"} | attributes)
        made.begin = begin
        return made

    def inside(self, parent, tag, begin, size, **attributes):
        return parent.add(tag, **self.placed(begin, size), **attributes)

    def variable(self, parent, name, expression=None, tag="variable", **attributes):
        placed = {} if expression is None else {"location": expression}
        return parent.add(tag, **{"name": name} if name else {}, type=self.int, **placed, **attributes)

    def parameter(self, function, name="given", expression=ENTRY_0):
        self.variable(function, name, expression, "formal_parameter")

    def row(self, frames, *said):
        """Frames, by where each stands, and what is said of their variables."""
        places = " ".join(at if isinstance(at, str) else f"{at:x}" for at in frames)
        self.root.add("variable", name=places + ": " + "; ".join(said))

    def bases(self):
        address = self.base_type(4, 7)
        for base, said in [
            # a number of a base type
            (f"const4u 0x1010 convert {address}", "x in 0 is 10111213"),
            # it asks for itself, or for a value on entry
            ("fbreg 0", "x in 0 is the frame base"), (ENTRY_0, "x in 0 is the frame base"),
            # a number is the address, and so is the content of a register; one has 16 bytes
            ("breg0 0", "y in 0 is 88776655"), ("reg1", "y in 0 is 00ffeedd"), ("reg17", "y in 0 is 00010203"),
            ("reg1", "x in 0 is memory or a register can't be read"), ("const4u 0x1010", "x in 0 is 10111213"),
            ("call_frame_cfa", "y in 0 is 18000000"),
            *((it, "x in 0 is the frame base") for it in (5, "piece 4", "reg0 piece 4 reg1 piece 4",
                                                          "implicit_value 1 00", None)),
        ]:  # fmt: skip
            function = self.function(**({} if base is None else {"frame_base": base}))
            self.variable(function, "x", "fbreg 0")
            self.variable(function, "y", "fbreg 0 stack_value")
            self.row([function.begin], said)

    def blocks(self):
        function = self.function()
        begin = function.begin
        hidden = function.add("lexical_block")  # no addresses, but others within
        self.variable(hidden, "not_there", "lit0 stack_value")
        self.variable(self.inside(hidden, "lexical_block", begin + 0x10, 0x10), "inner", "lit1 stack_value")
        for at, tag in [(0x20, "try_block"), (0x30, "catch_block"), (0x40, "with_stmt")]:
            self.variable(self.inside(function, tag, begin + at, 0x10), tag, "lit2 stack_value")
            self.row([begin + at + 2], f"{tag} in 0 is 02000000", "inner in 0 is missing")
        common = function.add("common_block")
        self.variable(common, "shared", "const4u 0x1010")
        self.variable(common.add("common_block"), "too_deep", "lit1 stack_value")
        function.add("constant", name="number", type=self.int, const_value=-3)
        self.variable(function, "cut_off", "03")
        self.variable(function, "no_place", 5)
        self.variable(function, "odd", f"lit1 convert {self.base_type(4, 0x105)} stack_value")
        # a character has no sign: -2 is divided as a large number
        letter = self.base_type(4, 0x10)
        self.variable(function, "letter", f"consts -2 convert {letter} lit2 convert {letter} div stack_value")
        self.row([begin + 0x12], "inner in 0 is 01000000", "not_there in 0 is 00000000", "shared in 0 is 10111213",
                 "number in 0 is fdffffff", "too_deep in 0 is missing", "try_block in 0 is missing",
                 "odd in 0 is a base type", "letter in 0 is ffffff7f", "cut_off in 0 is an operation is cut off",
                 "no_place in 0 is libdw refuses the debug information")

    def siblings(self):
        """Entries whose next sibling stands before them, or is the entry itself: it is as if there were none."""
        for at in range(3):
            function, caller = self.function(), self.function()
            children = [self.variable(function, f"v{it}", f"lit{it} stack_value") for it in range(3)]
            sites = [self.site(caller, caller.begin + 4 * it, call_origin=function) for it in (1, 2, 3)]
            self.row([function.begin, caller.begin + 12], "v0 in 0 is 00000000", "v1 in 0 is 01000000",
                     "v2 in 0 is missing", "count in 0 is 3", f"a301509f on 0 is {UNKNOWN}")
            for entries in ([function, *children], [caller, *sites]):
                entries[2].attributes["sibling"] = entries[at]
            # those of the functions themselves are right
            function.attributes["sibling"], caller.attributes["sibling"] = caller, self.root.children[-1]

    def instances(self):
        """What only the abstract entry has."""
        abstract = self.root.add("subprogram", name="inlined")
        first = self.variable(abstract, "first")
        self.variable(abstract, "alone", const_value=7)
        self.variable(abstract, "lost")
        self.variable(abstract, "static", "const4u 0x1014")
        function = self.function()
        inlined = self.inside(function, "inlined_subroutine", function.begin + 0x10, 0x10, abstract_origin=abstract)
        inlined.add("variable", abstract_origin=first, location="lit5 stack_value")
        self.parameter(inlined, "registers", "reg0")
        self.row([function.begin + 0x11], "first in 0 is 05000000", "alone in 0 is 07000000",
                 "static in 0 is 14151617", "lost in 0 is optimized away", "registers in 0 is 88776655",
                 "count in 0 is 7")

    def nested(self):
        """Functions within functions: their links are the numbers of frame bases."""
        base = {at: f"const4u 0x1{at}00" for at in range(1, 5)}
        kept, lost = "kept in 0 is 04050607", "kept in 0 is a variable of another function"
        outer, other = self.function(frame_base=base[1], linkage_name="outer"), self.function(frame_base=base[4])
        self.variable(outer, "kept", "fbreg 4")
        # the link is that of a frame; or it isn't, can't be evaluated, or there is none
        linked, *others = (
            self.function(outer, frame_base=base[2], **link)
            for link in ({"static_link": base[1], "linkage_name": "linked"}, {"static_link": base[3]},
                         {"static_link": "plus"}, {})
        )
        for inner in (linked, *others):
            self.variable(inner, "own", "fbreg 0")
        place, outside = outer.begin + 9, other.begin + 9
        self.row([linked.begin, outside, place, place], kept, "own in 0 is 00010203")
        # then there has to be one frame of the function, and not two
        for inner in others:
            self.row([inner.begin, outside, place], kept)
            self.row([inner.begin, place, place], lost)
        self.row([linked.begin], lost)
        # a caller whose base isn't known
        baseless = self.function()
        self.variable(baseless, "kept", "lit0 stack_value")
        self.row([self.function(baseless, static_link=base[1]).begin, baseless.begin + 9], "kept in 0 is 00000000")
        # through the function between them, which has to be there too
        between = others[-1]
        deep = self.function(self.inside(between, "lexical_block", between.begin, 0x80))
        self.row([deep.begin, between.begin + 1, place], "own in 0 is 00010203", kept)
        self.row([deep.begin, outside, place], lost)
        # a variable of a function that stands within the frame's, or elsewhere
        self.row([place], "own of linked is a variable of another function")
        for at in (outside, OUTSIDE):
            self.row([at], "kept of outer is a variable of another function")

    def stopped(self):
        """A caller that a signal stopped stands at its next instruction, and another one in its call before that."""
        before, function = self.function(), self.function()
        for number, it in enumerate((before, function)):
            self.variable(it, "here", f"lit{number} stack_value")
        self.row([before.begin, f"{function.begin:x}!"], "here in 1 is 01000000")
        self.row([before.begin, function.begin], "here in 1 is 00000000")

    def site(self, caller, at, value="lit10", place="reg0", **attributes):
        """A call that returns to an address in its caller, and passes a value in register 0."""
        site = caller.add("call_site", **({"call_return_pc": (ADDRESS, self.address(at))} if at else {}), **attributes)
        site.add("call_site_parameter", location=place, **({} if value is None else {"call_value": value}))
        return site

    def call(self, said, called, caller=None, at=None, **attributes):
        """A call site at the next place of the caller, and what a value on entry is there."""
        self.place += 4
        self.site(caller or self.caller, self.place, **attributes)
        self.row([called.begin + 3, at or self.place], f"given in 0 is {said}")

    def calls(self):
        called, self.caller, other = self.function(), self.function(), self.function()
        self.place = self.caller.begin + 0x10
        named = {"call_origin": called}
        instance_of = self.root.add("subprogram", name="abstract")
        instance = self.function(abstract_origin=instance_of, external=True)
        declaration = self.root.add("subprogram", name="declared", declaration=True)
        completed = self.function(specification=declaration)
        seen = self.function(name="seen", external=True)
        for function in (called, other, instance, completed, seen):
            self.parameter(function)
        for said, site in [
            ("0a000000", named), (UNKNOWN, {"call_origin": other}), (UNKNOWN, {}),
            # an address that it computes: of the function, of another one, of none; and one that isn't known
            ("0a000000", {"call_target": f"const4u {called.begin}"}),
            (UNKNOWN, {"call_target": f"const4u {other.begin}"}), (UNKNOWN, {"call_target": "const4u 16"}),
            (UNKNOWN, {"call_target": "plus"}),
            # the place isn't a register alone; the value isn't there, has a fault, isn't whole, or asks in turn
            *((UNKNOWN, named | {"place": it}) for it in ("reg1", "reg0 nop", "bregx 0 0", "01", "breg0 0")),
            *((UNKNOWN, named | {"value": it}) for it in (None, "plus", "", "piece 4", ENTRY_0)),
            ("00ffeedd", named | {"value": "reg1"}), (UNKNOWN, named | {"at": self.caller.begin + 0xF0}),
        ]:  # fmt: skip
            self.call(said, called, **site)
            if "place" in site:
                self.row([called.begin + 3, self.place], f"entry of typed is {UNKNOWN}")
        for frames in ([called.begin + 3], [called.begin + 3, OUTSIDE]):
            self.row(frames, f"given in 0 is {UNKNOWN}")
        # the site stands in blocks of each kind, and not in a class
        for tag in ("lexical_block", "inlined_subroutine", "try_block", "catch_block", "structure_type"):
            self.call(UNKNOWN if tag == "structure_type" else "0a000000", called, self.caller.add(tag), **named)
        # an instance, a definition, a name that other units see, and that of a symbol at the same address
        self.call("0a000000", instance, call_origin=instance_of)
        self.call("0a000000", completed, call_origin=declaration)
        self.symbols += [("alias", other.begin, 0x12), ("other_alias", other.begin, 0x12), (None, other.begin, 0x12)]
        circle = self.root.add("subprogram", external=True)
        circle.attributes["abstract_origin"] = circle
        self.call(UNKNOWN, called, call_origin=circle)
        self.call(UNKNOWN, other, call_origin=self.root.add("subprogram", name="f"))
        for function, said, attributes in [
            (seen, "0a000000", {"name": "seen"}), (seen, UNKNOWN, {"name": "unseen"}),
            (other, "0a000000", {"name": "alias"}), (other, UNKNOWN, {"name": "no_alias"}), (other, UNKNOWN, {}),
            (other, "0a000000", {"name": "x", "linkage_name": "alias"}),
            (other, "0a000000", {"name": "x", "MIPS_linkage_name": "alias"}),
        ]:  # fmt: skip
            self.call(said, function, call_origin=self.root.add("subprogram", **DECLARED, **attributes))
        # places of 29 bytes at most
        for length, said in ((17, "0a000000"), (29, "0a000000"), (30, "an operation can't be encoded")):
            place = "reg0" + (length - 1) * " nop"
            self.parameter(called, f"of_{length}", place)
            self.call(UNKNOWN, called, place=place, **named)
            self.row([called.begin + 3, self.place], f"entry of of_{length} is {said}")
        parameters = [
            ("held", "reg0", "0a000000"), ("long", "reg0" + 40 * " nop", "an operation can't be encoded"),
            ("without", None, "optimized away"), ("typed", f"regval_type 0 {self.int}", "0a000000"),
            ("empty", "", "optimized away"), ("unreadable", "01", UNKNOWN), ("untyped", "breg0 0", UNKNOWN),
            ("framed", "fbreg 0", UNKNOWN), ("two", "reg0 reg0", UNKNOWN),
        ]  # fmt: skip
        for name, expression, _ in parameters:
            self.parameter(called, name, expression)
        first = [called.begin + 3, self.caller.begin + 0x14]
        self.row(first, *(f"entry of {name} is {said}" for name, _, said in parameters))

    def chain(self, length, last_calls=None):
        """Functions that leave for the next one by a tail call."""
        functions = [self.function() for _ in range(length)]
        for here, next_one in zip(functions, functions[1:]):
            self.site(here, None, "lit11", call_origin=next_one, call_tail_call=True)
        if last_calls is not None:
            self.site(functions[-1], None, call_origin=functions[last_calls], call_tail_call=True)
        return functions

    def tail(self, said, called, **site):
        """A call by another function, from which tail calls may have led to this one."""
        caller = self.function()
        self.site(caller, caller.begin + 0x10, **site)
        self.parameter(called)
        self.row([called.begin + 3, caller.begin + 0x10], f"given in 0 is {said}")

    def tail_calls(self):
        left = {"call_tail_call": True}
        # through functions, and not through too many; one of two tail calls; a site that isn't one
        two, three, several = self.chain(2), self.chain(3), self.chain(2)
        most, more, parted = self.chain(33), self.chain(34), (self.chain(2), self.chain(2))
        plain = self.function(), self.function()
        self.site(several[0], None, call_origin=several[1], **left)
        self.site(plain[0], plain[0].begin + 8, call_origin=plain[1])
        for said, first, last in [("0b000000", two[0], two[1]), ("0b000000", three[0], three[2]),
                                  ("0b000000", most[0], most[-1]), (UNKNOWN, more[0], more[-1]),
                                  (UNKNOWN, parted[0][0], parted[1][1]),
                                  (UNKNOWN, several[0], several[1]), (UNKNOWN, plain[0], plain[1])]:
            self.tail(said, last, call_origin=first)
        # by an address that the caller computes, and one at which no function begins
        for address, said in [(two[0].begin, "0b000000"), (two[0].begin + 1, UNKNOWN), (0, UNKNOWN),
                              (FIRST + len(CODE) - 0x10, UNKNOWN)]:
            self.tail(said, two[1], call_target=f"const4u {address}")
        # of one that passes it in another register
        passing = self.function(), self.function()
        self.site(passing[0], None, place="reg1", call_origin=passing[1], **left)
        self.tail(UNKNOWN, passing[1], call_origin=passing[0])
        # by a name that only a symbol has, that of a function which isn't exported
        self.symbols.append(("by_symbol", two[0].begin, 0x02))
        self.tail("0b000000", two[1], call_origin=self.root.add("subprogram", name="by_symbol", **DECLARED))
        # it may have called itself: by a circle, by an address, or by more functions than are looked at
        computed, nothing = self.chain(2), self.function()
        self.site(computed[1], None, call_target="lit0", **left)
        # tail calls of what isn't there
        for name in ({"name": "elsewhere"}, {}):
            self.site(nothing, None, call_origin=self.root.add("subprogram", **name), **left)
        for said, function in [
            (UNKNOWN, self.chain(3, 0)[0]), ("0a000000", self.chain(3, 1)[0]), (UNKNOWN, computed[0]),
            ("0a000000", self.chain(32)[0]), (UNKNOWN, self.chain(33)[0]), (UNKNOWN, self.chain(40)[0]),
            ("0a000000", nothing),
        ]:  # fmt: skip
            self.tail(said, function, call_origin=function)

    def parts(self):
        """A function of two ranges, whose entry is in the first one."""
        function = self.function(ranges=(OFFSET, self.offset(0)))
        begin, end = function.begin, function.begin + SIZE
        self.sections[".debug_ranges"] = self.address(begin, begin + 0x40, end - 8, end, 0, 0)
        self.parameter(function)
        caller = self.function()
        self.site(caller, caller.begin + 0x10, call_target=f"const4u {begin}")
        self.row([end - 4, caller.begin + 0x10], "given in 0 is 0a000000")
        self.row([begin + 0x50, caller.begin + 0x10], "given in 0 is missing")

    def listed(self):
        """A location list, which has addresses in the module."""
        function = self.function(linkage_name="listing")
        places = [self.expression("lit0 stack_value"), self.expression("lit1 stack_value"), b""]
        begins = [function.begin + 8 * at for at in range(3)]
        content = self.list_of(*(self.located(at, at + 8, place) for at, place in zip(begins, places)))
        second = len(content)
        content += self.list_of(self.located(function.begin, function.begin + 8, self.expression("const4u 0x1010")))
        # what a parameter has before the first instruction
        called, caller = self.function(), self.function()
        self.site(caller, caller.begin + 0x10, call_origin=called)
        lists = {}
        for first, then, said in [("reg0", "reg1", "0a000000"), ("", "reg0", "optimized away")]:
            lists[len(content)] = said
            content += self.list_of(self.located(called.begin, called.begin, self.expression(first)),
                                    self.located(called.begin, called.begin + 8, self.expression(then)))
        sections, offset = self.lists(content)
        for place, said in lists.items():
            self.parameter(called, f"viewed{place}", (OFFSET, self.offset(offset + place)))
            self.row([called.begin + 3, caller.begin + 0x10], f"entry of viewed{place} is {said}")
        self.sections |= sections
        for parent, name in [(function, "listed"), (self.root, "listed_global")]:
            self.variable(parent, name, (OFFSET, self.offset(offset)))
        for at, said in [(0, "00000000"), (9, "01000000"), (0x11, "optimized away"), (0x20, "optimized away")]:
            self.row([function.begin + at], f"listed in 0 is {said}")
        # the memory of an expression isn't lost if it may not be evaluated any more
        function.attributes["frame_base"] = (OFFSET, self.offset(offset + second))
        self.variable(function, "based", "fbreg 0")
        self.row([function.begin], "based in 0 is 10111213")
        self.row([function.begin], "limit 0", "based in 0 is the answers take too many expressions")

    def declared(self):
        """Variables that are only declared: each is at a symbol, unless that is in thread-local storage or isn't there.
        """
        function = self.function(linkage_name="declaring")
        for name in ("in_memory", "local", "nowhere", "hidden", None):
            self.variable(function, name, **DECLARED)
        for name, expression in [("defined", "addr 0x1018"), ("indirect", "addr 0x1018 plus_uconst 4"),
                                 ("in_local", "const8u 4 GNU_push_tls_address"), ("indexed", "addrx 0")]:
            self.variable(function, name, expression, external=True)
        # another unit has a variable of the same name to itself
        self.symbols += [("in_memory", 0x1008, 0x11), ("local", 4, 0x16), ("defined", 0x1000, 0x11),
                         ("in_memory", None, 0x11), ("in_memory", 0x1004, 0x01), ("nowhere", 0x1004, 0x01),
                         ("hidden", 0x1004, 0x01)]
        # one that isn't exported is found by its entry, and not that of a unit's own
        self.variable(self.root, "hidden", "addr 0x1004")
        self.variable(self.root, "hidden", external=True)
        self.variable(self.root, "hidden", "addr 0x1020", external=True)
        # a module that exports none has each variable where its entry says
        self.row([function.begin], "in_memory in 0 is 08090a0b", "local in 0 is thread-local storage",
                 "nowhere in 0 is it is only declared", "hidden in 0 is 20212223", "defined in 0 is 18191a1b",
                 "indirect in 0 is 1c1d1e1f", "in_local in 0 is thread-local storage",
                 "nameless in 0 is it is only declared")
        nameless = self.function()
        self.variable(nameless, None, "addr 0x101c", external=True)
        self.row([nameless.begin], "nameless in 0 is 1c1d1e1f")

    def nowhere(self):
        """A place in no function, whose caller is in one; and a place in no unit."""
        self.row([OUTSIDE, OUTSIDE, FIRST], *(f"a301509f on {frame} is {UNKNOWN}" for frame in range(2)))
        # a file that isn't in the frame's modules: an address or a location list in it has no known place
        for frames in ([FIRST], []):
            self.row(frames, "listed from listing is a variable of another function",
                     "listed_global from unit is a relocated address", "defined from declaring is a relocated address",
                     "in_local from declaring is thread-local storage",
                     "indexed from declaring is an entry of .debug_addr",
                     "in_memory from declaring is it is only declared")
        nothing = "no debug information for the address"
        self.row([0x10], "9100 on 0 is the frame base", "9c on 0 is the canonical frame address",
                 "a100 on 0 is an entry of .debug_addr", f"entry of global is {nothing}", f"function in 0 is {nothing}",
                 f"count in 0 is {nothing}")
        # a unit without a frame in it
        self.row([], "entry of lost is optimized away")

    def globals(self):
        """By their names: in the source, and for the linker; in a namespace and a module; constants."""
        self.variable(self.root, "global", "lit0", linkage_name="linked")
        self.variable(self.root, "same", "lit0", linkage_name="same")
        self.variable(self.root, None, "lit0", linkage_name="plain")
        self.variable(self.root.add("namespace", name="space"), "in_namespace", "lit0")
        self.variable(self.root.add("module", name="module"), "in_module", "lit0")
        self.variable(self.root, None, "lit0")
        self.root.add("constant", name="fixed", type=self.int, const_value=1)
        self.variable(self.root, "twice")
        self.variable(self.root, "twice", "lit5 stack_value")
        self.variable(self.root, "twice", "lit6 stack_value")
        self.variable(self.root, "lost")
        names = "global", "linked", "same", "plain", "in_namespace", "in_module", "fixed", "lost"
        self.row([OUTSIDE], *(f"all of {name} is 1" for name in names), "all of no_such is 0", "first of fixed is 1",
                 "first of twice is 5", "first of lost is optimized away", "first of no_such is it is only declared")

    def program(self):
        for write in (self.instances, self.globals, self.bases, self.blocks, self.siblings, self.nested, self.stopped,
                      self.calls, self.tail_calls, self.listed, self.declared, self.nowhere):
            write()
        if self.version >= 5:
            self.sections |= self.addresses(0x1010)
        else:
            self.parts()
        sections = self.tree() | self.sections | {".text": CODE} | self.rules((FIRST, len(CODE)))
        return self.elf(sections, [(1, FIRST, CODE, len(CODE))], 2, self.symbols)


    def misled(self):
        """A program whose .debug_aranges names another unit for all code: one that has the last of it."""
        function = self.function()
        self.variable(function, "here", "lit7 stack_value")
        self.row([function.begin + 3], "here in 0 is 07000000", "first of both is 1")
        # a frame's unit is searched first
        self.variable(self.root, "both", "lit1 stack_value")
        self.row([FIRST + len(CODE) - 1], "first of both is 2", "all of both is 2")
        sections = self.tree()
        other = Unit(8, 4, self.version, "le", **self.placed(FIRST + len(CODE) - SIZE, SIZE))
        other.root.add("variable", name="both", type=other.base_type(4, 5), location="lit2 stack_value")
        other.abbreviations = self.abbreviations
        second = len(sections[".debug_info"])
        both = other.tree()
        sections[".debug_abbrev"] = both[".debug_abbrev"]
        sections[".debug_info"] += both[".debug_info"]
        sections[".debug_aranges"] = self.counted(self.pack("H", 2) + self.offset(second) + bytes([8, 0]) + bytes(4) +
                                                  self.address(FIRST, len(CODE), 0, 0))  # fmt: skip
        sections |= {".text": CODE}
        return self.elf(sections, [(1, FIRST, CODE, len(CODE))], 2)

    def unwound(self):
        """A program with rules: the expressions that they have, and their values. Register 7 has 0x10, so that the CFA
        is the word at 0x18, if an expression gives it."""
        call = bytes([0x0C, 7, 8, 0x90, 1])  # the CFA is rsp + 8, and the return address below it
        refused = "libdw refuses the debug information"
        rules, claims = b"", []
        for instruction, number, rule, value in [
            ("0f 04 77 8800 06", -1, "77880006", "at 5000"),
            ("10 03 04 23 9000 96", 3, "23900096, on the CFA", "at 5010"),
            ("16 0c 06 12 22 11 7f 22 96", 12, "1222117f2296, on the CFA, a value", "at 9fff"),
            ("86 02", 6, "23f0ffffffffffffffff01, on the CFA", "at 4ff0"),
            ("14 0e 01", 14, "23f8ffffffffffffffff01, on the CFA, a value", "at 4ff8"),
            ("09 0d 0f", 13, "900f", "in register 15"), ("10 01 04 93 04 93 04", None, None, None),
            # no place, and an operation that isn't in its shortest form
            ("16 08 02 35 9f", 8, "359f, on the CFA, a value", "0500000000000000"),
            ("16 09 04 92 8700 00", 9, "on the CFA, a value, an operation can't be encoded", None),
            ("8a 00", 10, "2300, on the CFA", "at 5000"), ("07 02", 2, "optimized away", None),
            ("08 05", 5, "the register has the caller's value", None), ("", -2, refused, None),
        ]:  # fmt: skip
            rules += bytes.fromhex(instruction)
            claims += [f"rule {number} in 0 is {rule}"] if rule else []
            claims += [f"by rule {number} in 0 is {value}"] if value else []
        # on a CFA that is given, and the frame's own
        claims += ["by rule 6 with 100 in 0 is at f0", "9c on 0 is at 5000"]
        all_rules, without, bad, plain = (self.function().begin for _ in range(4))
        for at in range(0, len(claims), 4):
            self.row([all_rules], *claims[at : at + 4])
        self.row([without], f"rule -1 in 0 is {refused}")
        self.row([bad], f"rule -1 in 0 is {refused}")
        # what the ABI says of registers that no rule names: a call keeps rbx, and may change rax
        self.row([plain], "rule 3 in 0 is the register has the caller's value", "rule 0 in 0 is optimized away")
        frames = self.rules((all_rules, SIZE, rules, 16, call), (without, SIZE, b"", 16, b""),
                            (bad, SIZE, b"\x0f\1\0", 16, call), (plain, SIZE, b"", 16, call), section=".eh_frame")
        segments = [(1, 0x18, self.address(0x5000), 8), (1, FIRST, CODE, len(CODE))]
        return self.elf(self.tree() | frames | {".text": CODE}, segments, 2)


def files():
    for version in (4, 5):
        yield f"{version}.functions", Functions(version).program()
        yield f"{version}.misled.functions", Functions(version).misled()
    yield "rules.functions", Functions(5).unwound()
