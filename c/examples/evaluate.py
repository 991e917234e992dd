#!/usr/bin/env python3
"""Evaluates DW_OP_fbreg -16 in a frame whose base is 0x3000, by the shared library named by the word."""

import ctypes
import sys
from ctypes import POINTER, byref, c_char_p, c_int64, c_size_t, c_uint8, c_uint16, c_uint32, c_uint64, c_void_p

OK, COMPLETE, WANTS_FRAME_BASE, ANSWER_FRAME_BASE, AT_ADDRESS = 0, 1, 4, 5, 3


def struct(**fields):
    """A struct of dwexpr.h, in the order of its fields; those with two names have the same type."""
    listed = [(name, kind) for names, kind in fields.items() for name in names.split("__")]
    return type("Struct", (ctypes.Structure,), {"_fields_": listed})


Encoding = struct(address_size__offset_size__big_endian__version=c_uint8)
Text = struct(bytes=c_char_p, length=c_size_t)
Settings = struct(
    max_iterations=c_uint32, has_object_address__has_initial_value=c_uint16, object_address__initial_value=c_uint64,
)  # fmt: skip
Answer = struct(kind__value_type=c_uint32, number=c_uint64, text=c_size_t)
Evaluation = struct(memory=c_void_p)
Outcome = struct(
    code__request=c_uint32, detail__number__base_type__space=c_uint64,
    register_number__size__flag__value_type=c_uint32, value=c_uint64,
    block_text__block_offset__block_length__pieces=c_size_t,
)  # fmt: skip
Piece = struct(
    kind__has_size=c_uint32, size_in_bits__bit_offset=c_uint64, has_bit_offset__value_type=c_uint32,
    number=c_uint64, byte_offset=c_int64, block_text__block_offset__block_length=c_size_t,
)  # fmt: skip


def main():
    library = ctypes.CDLL(sys.argv[1])
    library.dwexpr_evaluation_size.restype = c_size_t
    written = [POINTER(Outcome), c_void_p, c_size_t]
    call = [POINTER(Evaluation), c_void_p, c_size_t]
    library.dwexpr_evaluation_evaluate.argtypes = [*call, Encoding, POINTER(Settings), *written]
    library.dwexpr_evaluation_resume.argtypes = [*call, Answer, *written]
    expression, outcome, pieces = bytes([0x91, 0x70]), Outcome(), (Piece * 1)()
    texts = (Text * 1)(Text(expression, len(expression)))
    memory = (c_uint64 * (library.dwexpr_evaluation_size() // 8 + 1))()
    evaluation, settings = Evaluation(ctypes.addressof(memory)), Settings(max_iterations=100)
    library.dwexpr_evaluation_begin(byref(evaluation))
    given, written = (byref(evaluation), texts, 1), (byref(outcome), pieces, 1)
    code = library.dwexpr_evaluation_evaluate(*given, Encoding(8, 4, 0, 5), byref(settings), *written)
    while code == OK and outcome.request == WANTS_FRAME_BASE:
        code = library.dwexpr_evaluation_resume(*given, Answer(ANSWER_FRAME_BASE, 0, 0x3000, 0), *written)
    if outcome.request != COMPLETE:
        return f"code {code}, request {outcome.request}"
    print(f"at {pieces[0].number:#x}" if pieces[0].kind == AT_ADDRESS else "not in memory")
    return 0


if __name__ == "__main__":
    sys.exit(main())
