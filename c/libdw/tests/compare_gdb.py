"""Runs in gdb. Compares what bytes.c prints of a program that stops, and of its core dump, with what gdb says of the
dump.

    gdb -nx -batch -ex "python words = 'BYTES|ON_STOPPED|PLACES|PROGRAM|WORD..'.split('|')" -x compare_gdb.py

The program gets one more word: the number of the place where it stops. Variables of each thread are compared, up to
`main`, bit for bit but for padding. Each one that differs is a line. The last line is `N passed, M failed`.
"""

import collections
import itertools
import pathlib
import re
import subprocess
import tempfile

import gdb

NUMBERS = {
    gdb.TYPE_CODE_INT, gdb.TYPE_CODE_CHAR, gdb.TYPE_CODE_BOOL, gdb.TYPE_CODE_ENUM, gdb.TYPE_CODE_FLT, gdb.TYPE_CODE_PTR
}  # fmt: skip
REFERENCES = {gdb.TYPE_CODE_REF, gdb.TYPE_CODE_RVALUE_REF}
# bytes.c prints no more
MOST_BYTES = 4096
# In libc it has a system call's answer. The signals that stop and dump a process change it in a thread that waits in
# the call.
ANSWER = "sc_ret"

# ---- what gdb says


def parts(value, place, size):
    """The parts of a value that isn't in memory: where each begins in bits, its size, and its bits or None."""
    kind = value.type.strip_typedefs()
    if kind.code == gdb.TYPE_CODE_ARRAY:
        for index in range(kind.range()[1] + 1):
            yield from parts(value[index], place + 8 * index * kind.target().sizeof, 0)
    elif kind.code == gdb.TYPE_CODE_STRUCT:
        for field in kind.fields():
            if hasattr(field, "bitpos"):
                yield from parts(value[field], place + field.bitpos, field.bitsize)
    elif kind.code in NUMBERS | REFERENCES:
        # not if it is optimized out, or a synthetic pointer
        number = re.match("@?(0x[0-9a-f]+)", value.format_string(format="x", raw=True))
        is_long = kind.code == gdb.TYPE_CODE_FLT and kind.sizeof > 8
        yield place, size or (80 if is_long else 8 * kind.sizeof), number and int(number[1], 16)
    elif not value.is_optimized_out:
        raise gdb.error("no bytes")


def content(value):
    """A value's bits, which of them are known, and which are optimized out."""
    bits = known = lost = 0
    size = value.type.sizeof
    is_reference = value.type.strip_typedefs().code in REFERENCES
    if not is_reference and not value.is_optimized_out and value.address is not None:
        memory = bytes(gdb.selected_inferior().read_memory(int(value.address), size))
        return int.from_bytes(memory, "little"), (1 << 8 * size) - 1, 0
    for place, size, number in parts(value, 0, 0):
        mask = ((1 << size) - 1) << place
        if number is None:
            lost |= mask
        else:
            known |= mask
            bits |= number << place & mask
    return bits, known, lost


def variables(frame, number):
    """Those of a function, and of the functions around it, whose numbers are -1 and below."""
    frame.select()  # lengths are read of the one that is selected
    block = frame.block()
    while block is not None and not block.is_global and not block.is_static:
        for symbol in block:
            is_number = symbol.is_constant and symbol.type.code != gdb.TYPE_CODE_ENUM
            if symbol.name != ANSWER and (symbol.is_variable or symbol.is_argument or is_number):
                size = symbol.type.strip_typedefs().sizeof
                try:
                    # by its name in its block, gdb goes to the frame of that function
                    value = frame.read_var(symbol.name, block) if number < 0 else symbol.value(frame)
                    size = value.type.sizeof
                    if size > MOST_BYTES:
                        continue
                    found = content(value)
                except gdb.error as error:
                    found = str(error)
                yield number, frame.name(), symbol.name, size, found
        if block.function:
            if number > 0:
                break
            number = min(number, 0) - 1
        block = block.superblock


def of_thread():
    level, inlined = 0, []
    frame = gdb.newest_frame()
    while frame is not None:
        kind = frame.type()
        if kind not in (gdb.SIGTRAMP_FRAME, gdb.TAILCALL_FRAME):
            if frame.find_sal().symtab is None:
                break
            inlined.append(frame)
        if kind not in (gdb.INLINE_FRAME, gdb.TAILCALL_FRAME):
            # gdb hides a function if it stops where it is inlined: so they are counted from the outermost one
            for number, each in enumerate(reversed(inlined)):
                for variable in variables(each, number):
                    yield level, *variable
            level, inlined = level + 1, []
        if (frame.name() or "").split("::")[-1] == "main":
            break
        frame = frame.older()


# ---- what bytes.c says


def of_bytes(text):
    """What is printed of each variable by its thread, level, function and name, in order."""
    found = collections.defaultdict(list)
    for part in re.split("^thread ", text, flags=re.M)[1:]:
        thread, *frames = re.split("^#", part, flags=re.M)
        for level, frame in enumerate(frames):
            _, *functions = re.split("^(in|within) (?!= ).*\n", frame, flags=re.M)
            inlined = functions[::2].count("in")
            for number, lines in enumerate(functions[1::2], 1):
                for name, said in re.findall("^(.*?) = (.*)", lines, flags=re.M):
                    found[int(thread), level, inlined - number, name].append(said)
    return found


def bits_of(text, size):
    """The bits that are printed, as a number, and which of them are unknown."""
    everything = (1 << 8 * size) - 1
    if not re.fullmatch(r"((\?\?|[0-9a-f]{2}(\?[0-9a-f]{2})?) )+", text):
        return 0, everything
    bytes_of = ["00?ff" if part == "??" else part if "?" in part else f"{part}?00" for part in text.split()]
    known, unknown = (bytes.fromhex("".join(part.split("?")[i] for part in bytes_of)) for i in (0, 1))
    return int.from_bytes(known, "little"), int.from_bytes(unknown, "little")


# gdb stops after 256 expressions. The variables of stopped/deep.c are known by the level.
OF_LEVEL = {("deep", "n"): lambda level: level, ("deep", "step"): lambda level: 302 - level}


def kind_of(level, function, name, size, theirs, text):
    """What the two say of a variable, in words, or None if they differ. gdb also names those of an inlined function
    that have no value."""
    everything = (1 << 8 * size) - 1
    ours, unknown = bits_of(text, size)
    bits, known, lost = (0, 0, everything) if isinstance(theirs, str) else theirs
    if not size:
        return "known here alone, as gdb gives it no size"
    if re.fullmatch("([0-9a-f]{2} )+", text) and len(text.split()) != size:
        return None
    if theirs == "no bytes":
        return "known here alone, as gdb's Python has no bytes of it"
    if not known and unknown == everything:
        return "known to neither"
    if not known and (function, name) in OF_LEVEL and ours == OF_LEVEL[function, name](level):
        return "known here alone, as the source says, after more expressions than gdb evaluates"
    if level > 0 and text in ("memory or a register can't be read", "unknown: a register"):
        # the compiler isn't GCC, which would say that the call keeps it
        return "in a register that a call may change, which gdb takes as unchanged"
    if text == "unknown: thread-local storage" and "split" in PROGRAM:
        return "in thread-local storage at an address, which GCC 12 writes for an offset in split debug information"
    if text == "unknown: an entry value" and function == "even":
        return "on entry of a function that calls itself by tail calls, where gdb takes what the first one was given"
    if text == "unknown: an entry value" and function == "library_last":
        return "on entry by a tail call of a function that two modules export, refused here alone"
    if (bits ^ ours) & known or lost & ~unknown or unknown & known:
        return None
    return "equal, in part optimized out" if lost else "equal"


def run(*words):
    done = subprocess.run(words, cwd=folder, timeout=300, stdout=subprocess.PIPE, text=True, errors="replace")
    return of_bytes(done.stdout)


BYTES, ON_STOPPED, PLACES, PROGRAM, *WORDS = words
gdb.execute(f"file {PROGRAM}")
gdb.execute("set backtrace past-main on")
gdb.execute("set language c")  # other languages have other hexadecimal numbers
kinds = collections.Counter()
with tempfile.TemporaryDirectory() as folder:
    for place in map(str, range(1, int(PLACES) + 1)):
        core = pathlib.Path(folder, place)
        process = run(ON_STOPPED, "--core", core, BYTES, "PID", "--", PROGRAM, *WORDS, place)
        if not core.exists():
            print(f"there is no core dump at place {place}")
            kinds[None] += 1
            continue
        dump = run(BYTES, core)
        gdb.execute(f"core-file {core}", to_string=True)
        for thread in gdb.selected_inferior().threads():
            thread.switch()
            printed = [("process", process), ("core dump", dump)]
            for (level, number, *known), (what, ours) in itertools.product(of_thread(), printed):
                said = ours[thread.ptid[1], level, number, known[1]]
                said = said.pop(0) if said else "nothing"
                kind = kind_of(level, *known, said)
                kinds[kind] += 1
                if kind is None:
                    print(f"{what} at place {place}, level {level}: {known}, here {said}")
# What is wrong on purpose has to differ.
kinds[None] += kind_of(0, "main", "argc", 4, (1, 0xFFFFFFFF, 0), "2") is not None
different = kinds.pop(None, 0)
print("".join(f"{number} {kind}\n" for kind, number in kinds.most_common()), end="")
print(f"{kinds.total()} passed, {different} failed")
