/* Readable names of requests, of kinds of pieces, and of operations with their operands; and the forms of operands.
 * This is plain C over dwexpr.h, and isn't proved. dwexpr.h itself has dwexpr_code_name and dwexpr_opcode_name. */
#ifndef DWEXPR_NAMES_H
#define DWEXPR_NAMES_H

#include <inttypes.h>
#include <stdarg.h>
#include <stdio.h>

#include "dwexpr.h"

#ifdef __cplusplus
extern "C" {
#endif

/* What a request asks for, as "memory"; NULL if there is no such request. */
static inline const char *dwexpr_request_name(uint32_t request)
{
    switch (request) {
    case DWEXPR_NOTHING: return "nothing";
    case DWEXPR_COMPLETE: return "complete";
    case DWEXPR_WANTS_MEMORY: return "memory";
    case DWEXPR_WANTS_REGISTER: return "a register";
    case DWEXPR_WANTS_FRAME_BASE: return "the frame base";
    case DWEXPR_WANTS_TLS: return "thread-local storage";
    case DWEXPR_WANTS_CFA: return "the canonical frame address";
    case DWEXPR_WANTS_LOCATION: return "an entry's location";
    case DWEXPR_WANTS_ENTRY_VALUE: return "an entry value";
    case DWEXPR_WANTS_PARAMETER: return "a parameter";
    case DWEXPR_WANTS_RELOCATED: return "a relocated address";
    case DWEXPR_WANTS_INDEXED: return "an entry of .debug_addr";
    case DWEXPR_WANTS_BASE_TYPE: return "a base type";
    case DWEXPR_WANTS_WASM_LOCAL: return "a WebAssembly local";
    case DWEXPR_WANTS_WASM_GLOBAL: return "a WebAssembly global";
    case DWEXPR_WANTS_WASM_STACK: return "a WebAssembly stack value";
    default: return NULL;
    }
}

/* The name of a kind of piece, as "in memory"; NULL if there is no such kind. */
static inline const char *dwexpr_piece_name(uint32_t kind)
{
    switch (kind) {
    case DWEXPR_EMPTY: return "optimized away";
    case DWEXPR_IN_REGISTER: return "in a register";
    case DWEXPR_AT_ADDRESS: return "in memory";
    case DWEXPR_HOLDS_VALUE: return "a value";
    case DWEXPR_HOLDS_BYTES: return "literal bytes";
    case DWEXPR_POINTS_INTO: return "an implicit pointer";
    default: return NULL;
    }
}

/* Appends to a line of `length` characters. Returns the new length, which may exceed `room`. */
#ifdef __GNUC__
__attribute__((format(printf, 4, 5)))
#endif
static inline size_t dwexpr_add_to_line(char *line, size_t room, size_t length, const char *format, ...)
{
    va_list operands;
    int more;
    va_start(operands, format);
    more = length < room ? vsnprintf(line + length, room - length, format, operands)
                         : vsnprintf(NULL, 0, format, operands);
    va_end(operands);
#ifdef __cplusplus /* where a client's compiler may warn of casts as in C */
    return length + (more > 0 ? static_cast<size_t>(more) : 0);
#else
    return length + (more > 0 ? (size_t)more : 0);
#endif
}

/* Appends the length and the bytes of a block, and returns the new length. */
static inline size_t dwexpr_add_block(char *line, size_t room, size_t length, dwexpr_text block)
{
    size_t i;
    length = dwexpr_add_to_line(line, room, length, " %zu byte block:", block.length);
    for (i = 0; i < block.length; i++)
        length = dwexpr_add_to_line(line, room, length, " %02x", block.bytes[i]);
    return length;
}

/* The form of the operands of the operations of this opcode, as dwexpr_opcodes.h lists them; '.' if there is no such
 * operation. */
static inline char dwexpr_operand_form(uint32_t opcode)
{
#define DWEXPR_FORM(number, name, form) case number: return form;
    switch (opcode) {
    DWEXPR_OPCODES(DWEXPR_FORM)
    default: return '.';
    }
#undef DWEXPR_FORM
}

/* Writes an operation with its operands as a line, much as readelf and libdw do: "DW_OP_fbreg -20". An offset of an
 * entry is "<0x2f>". `bytes` are those that were decoded.
 *
 * Returns the length of the whole line, as snprintf does. The line is cut off if `room` isn't greater than that. An
 * operation with a fault is written without operands, and one without an opcode as "fault". */
static inline size_t dwexpr_operation_line(char *line, size_t room, const uint8_t *bytes,
                                           const dwexpr_operation *operation)
{
    const dwexpr_operation *op = operation;
    const char *space = op->kind == DWEXPR_OP_WASM_LOCAL    ? "local"
                        : op->kind == DWEXPR_OP_WASM_GLOBAL ? "global"
                                                            : "stack";
    const char *name = dwexpr_opcode_name(op->opcode);
    const dwexpr_text block = dwexpr_operation_block(op, bytes);
    size_t at = dwexpr_add_to_line(line, room, 0, "%s", name ? name : "fault");
    switch (op->kind == DWEXPR_OP_NONE ? '.' : dwexpr_operand_form(op->opcode)) {
    case 'B': case 'H': case 'I': case 'Q': case 'u':
        return dwexpr_add_to_line(line, room, at, " %" PRIu64, op->number);
    case 'b': case 'h': case 'i': case 'q': case 's':
        return dwexpr_add_to_line(line, room, at, " %" PRId64, op->signed_number);
    case 'a': return dwexpr_add_to_line(line, room, at, " 0x%" PRIx64, op->number);
    case 'R': return dwexpr_add_to_line(line, room, at, " %" PRIu32, op->register_number);
    case 'O':
        return dwexpr_add_to_line(line, room, at, " %" PRIu32 ", %" PRId64, op->register_number, op->signed_number);
    case 'V':
        return dwexpr_add_to_line(line, room, at, " %" PRIu32 ", <0x%" PRIx64 ">", op->register_number, op->base_type);
    case 'P': return dwexpr_add_to_line(line, room, at, " %" PRIu64, op->number / 8);
    case 'K': return dwexpr_add_to_line(line, room, at, " %" PRIu64 ", %" PRIu64, op->number, op->detail);
    case 'D': return dwexpr_add_to_line(line, room, at, " %" PRIu32, op->deref_size);
    case 'E':
        return dwexpr_add_to_line(line, room, at, " %" PRIu32 ", <0x%" PRIx64 ">", op->deref_size, op->base_type);
    case 'T': return dwexpr_add_to_line(line, room, at, " <0x%" PRIx64 ">", op->base_type);
    case 'w': case 'x': case 'r': return dwexpr_add_to_line(line, room, at, " <0x%" PRIx64 ">", op->number);
    case 'p':
        return dwexpr_add_to_line(line, room, at, " <0x%" PRIx64 ">, %" PRId64, op->number, op->signed_number);
    case 'L':
        at = dwexpr_add_to_line(line, room, at, " <0x%" PRIx64 ">,", op->base_type);
        return dwexpr_add_block(line, room, at, block);
    case 'k': return dwexpr_add_block(line, room, at, block);
    case 'W':
        return dwexpr_add_to_line(line, room, at, " %s, %" PRIu64, space, op->number);
    default: return at;
    }
}

#ifdef __cplusplus
}
#endif

#endif
