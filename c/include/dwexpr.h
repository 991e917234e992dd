/* DWARF expressions, decoded and evaluated. Link with libdwexpr.a.
 *
 * A DWARF expression is a small program in debug information. It says where a variable is, what a frame's base is, or
 * which value a register had in the caller (DWARF 5, sections 2.5 and 2.6). The calls are
 *
 *   dwexpr_decode        decodes the operation at an offset of an expression
 *   dwexpr_evaluation_*  evaluates an expression, one answer after another, in memory of the caller's
 *   dwexpr_value_*       does an operation on values; dwexpr_type_* is about their types
 *
 * Each result of these is proved. dwexpr_run.h has plain C over them: one call, with callbacks that answer.
 *
 * No call allocates, waits, or touches errno, a global or a thread-local variable. Only dwexpr_evaluation_* keep a
 * pointer. So each call may be made from any thread and from a signal handler; 16 KiB of stack suffice.
 *
 * No call can check these, so the caller has to ensure them:
 *   - a pointer with a count points to that many aligned items, which nothing else writes during the call; if the count
 *     is 0, it may be NULL;
 *   - any other pointer points to one item, and isn't NULL;
 *   - a call's results overlap nothing else that it is given.
 * Everything else is checked, and a code tells what is bad: any struct may have any bits.
 */
#ifndef DWEXPR_H
#define DWEXPR_H

#include <stddef.h>
#include <stdint.h>

#include "dwexpr_opcodes.h"

#define DWEXPR_VERSION "0.1.0"
#define DWEXPR_VERSION_NUMBER 100 /* 10,000 times the first number, 100 times the second, and the third */

#ifdef __cplusplus
extern "C" {
#endif

/* ---------------------------------------------------------------- codes */

/* Each call returns one of these. Those from 1 to 63 are faults of the expression; 64 and above are faults of the
 * arguments. Some faults carry a number, in the field `detail` of the struct that the call wrote. */
enum dwexpr_code {
    DWEXPR_OK = 0,
    DWEXPR_UNEXPECTED_EOF = 1,                  /* an operation is cut off */
    DWEXPR_BAD_UNSIGNED_LEB128 = 2,
    DWEXPR_BAD_SIGNED_LEB128 = 3,
    DWEXPR_UNSUPPORTED_ADDRESS_SIZE = 4,        /* carries the size, which isn't 1, 2, 4 or 8 */
    DWEXPR_UNSUPPORTED_OFFSET = 5,              /* an offset doesn't fit into size_t; never answered with 64 bits */
    DWEXPR_UNSUPPORTED_REGISTER = 6,            /* carries the register, above 65535 */
    DWEXPR_INVALID_EXPRESSION = 7,              /* carries the unknown opcode */
    DWEXPR_INVALID_PIECE_SIZE = 8,              /* carries the size in bytes */
    DWEXPR_UNSUPPORTED_TYPE_OPERATION = 9,
    DWEXPR_TYPE_MISMATCH = 10,
    DWEXPR_DIVISION_BY_ZERO = 11,
    DWEXPR_INVALID_SHIFT_EXPRESSION = 12,
    DWEXPR_NOT_ENOUGH_STACK_ITEMS = 13,
    DWEXPR_INVALID_DEREF_SIZE = 14,             /* carries the size, above that of an address */
    DWEXPR_INVALID_PUSH_OBJECT_ADDRESS = 15,    /* no object's address was set */
    DWEXPR_UNSUPPORTED_EVALUATION = 16,
    DWEXPR_BAD_BRANCH_TARGET = 17,              /* carries the target, modulo 2 to the 64 */
    DWEXPR_TOO_MANY_ITERATIONS = 18,
    DWEXPR_INVALID_PIECE = 19,
    DWEXPR_INVALID_EXPRESSION_TERMINATOR = 20,  /* carries the place */
    DWEXPR_STACK_FULL = 21,                     /* DWEXPR_MAX_* values, callers or pieces are there */
    DWEXPR_BAD_ENCODING = 64,                   /* a number of the encoding isn't allowed */
    DWEXPR_BAD_OFFSET = 65,                     /* decode: there is no byte at the offset */
    DWEXPR_BAD_TEXT = 66,                       /* evaluate: no texts; resume: the answer's text isn't there */
    DWEXPR_BAD_ANSWER = 67,                     /* resume: unknown kind of answer or type of value */
    DWEXPR_MISPLACED = 68,                      /* resume: no request of the answer's kind is open */
    DWEXPR_LOST_TEXT = 69,                      /* resume: the texts lack bytes of an earlier one */
    DWEXPR_TOO_MANY_TEXTS = 70,                 /* run: more texts are called than there is room for */
    DWEXPR_BAD_VALUE = 71,                      /* value: no such operation, type, byte order or mask */
    DWEXPR_REFUSED = 72,                        /* run: a callback refused */
};

/* How to read an expression, from the header of its unit. */
typedef struct dwexpr_encoding {
    uint8_t address_size; /* bytes of an address: 1 to 8 */
    uint8_t offset_size;  /* bytes of an offset: 4 in the 32-bit format of DWARF, 8 in the 64-bit one */
    uint8_t big_endian;   /* 1 if the most significant byte of a number comes first, else 0 */
    uint8_t version;      /* of DWARF: 2 to 5 */
} dwexpr_encoding;

/* ---------------------------------------------------------------- decoding */

/* Kinds of operations. Opcodes that do the same are one kind: DW_OP_lit3 and DW_OP_const1u 3 are both constants. */
enum dwexpr_operation_kind {
    DWEXPR_OP_NONE = 0,
    DWEXPR_OP_DEREF = 1,               /* deref_size, base_type; flag: an address space is popped too */
    DWEXPR_OP_DROP = 2,
    DWEXPR_OP_PICK = 3,                /* number: how far below the top */
    DWEXPR_OP_SWAP = 4,
    DWEXPR_OP_ROT = 5,
    DWEXPR_OP_ABS = 6,
    DWEXPR_OP_AND = 7,
    DWEXPR_OP_DIV = 8,
    DWEXPR_OP_MINUS = 9,
    DWEXPR_OP_MOD = 10,
    DWEXPR_OP_MUL = 11,
    DWEXPR_OP_NEG = 12,
    DWEXPR_OP_NOT = 13,
    DWEXPR_OP_OR = 14,
    DWEXPR_OP_PLUS = 15,
    DWEXPR_OP_PLUS_CONSTANT = 16,      /* number */
    DWEXPR_OP_SHL = 17,
    DWEXPR_OP_SHR = 18,
    DWEXPR_OP_SHRA = 19,
    DWEXPR_OP_XOR = 20,
    DWEXPR_OP_BRA = 21,                /* signed_number: bytes from the operation's end */
    DWEXPR_OP_EQ = 22,
    DWEXPR_OP_GE = 23,
    DWEXPR_OP_GT = 24,
    DWEXPR_OP_LE = 25,
    DWEXPR_OP_LT = 26,
    DWEXPR_OP_NE = 27,
    DWEXPR_OP_SKIP = 28,               /* signed_number: bytes from the operation's end */
    DWEXPR_OP_UNSIGNED_CONSTANT = 29,  /* number */
    DWEXPR_OP_SIGNED_CONSTANT = 30,    /* signed_number */
    DWEXPR_OP_REGISTER = 31,           /* register_number */
    DWEXPR_OP_REGISTER_OFFSET = 32,    /* register_number, signed_number: bytes, base_type */
    DWEXPR_OP_FRAME_OFFSET = 33,       /* signed_number: bytes */
    DWEXPR_OP_NOP = 34,
    DWEXPR_OP_PUSH_OBJECT_ADDRESS = 35,
    DWEXPR_OP_CALL = 36,               /* number: offset of an entry in the unit; flag: in .debug_info */
    DWEXPR_OP_TLS = 37,
    DWEXPR_OP_CALL_FRAME_CFA = 38,
    DWEXPR_OP_PIECE = 39,              /* number: bits; flag: it begins at bit `detail` */
    DWEXPR_OP_IMPLICIT_VALUE = 40,     /* block */
    DWEXPR_OP_STACK_VALUE = 41,
    DWEXPR_OP_IMPLICIT_POINTER = 42,   /* number: offset of an entry in .debug_info; signed_number: bytes into it */
    DWEXPR_OP_ENTRY_VALUE = 43,        /* block: an expression */
    DWEXPR_OP_PARAMETER_REF = 44,      /* number: offset of an entry in the unit */
    DWEXPR_OP_ADDRESS = 45,            /* number */
    DWEXPR_OP_ADDRESS_INDEX = 46,      /* number: index in .debug_addr */
    DWEXPR_OP_CONSTANT_INDEX = 47,     /* number: index in .debug_addr */
    DWEXPR_OP_TYPED_LITERAL = 48,      /* base_type, block: a value of that type */
    DWEXPR_OP_CONVERT = 49,            /* base_type */
    DWEXPR_OP_REINTERPRET = 50,        /* base_type */
    DWEXPR_OP_UNINITIALIZED = 51,
    DWEXPR_OP_WASM_LOCAL = 52,         /* number: index */
    DWEXPR_OP_WASM_GLOBAL = 53,        /* number: index */
    DWEXPR_OP_WASM_STACK = 54,         /* number: index */
    DWEXPR_OP_VARIABLE_VALUE = 55,     /* number: offset of an entry in .debug_info */
};

/* An operation. Fields that its kind doesn't name are 0. */
typedef struct dwexpr_operation {
    size_t offset;            /* where it begins: the offset that was given */
    size_t size;              /* its bytes: the next one begins at offset + size; 0 if the code isn't 0 */
    uint32_t opcode;          /* its first byte, DW_OP_*; 0 if none was read */
    uint32_t kind;            /* DWEXPR_OP_*; 0 if the code isn't 0 */
    uint64_t number;
    int64_t signed_number;
    uint64_t base_type;       /* offset of the type's entry in the unit, 0 for the generic type */
    uint32_t register_number;
    uint32_t deref_size;      /* bytes */
    uint32_t flag;            /* 0 or 1 */
    uint32_t fault;           /* the code that the call returned */
    size_t block_offset;      /* where its block begins, from the start of the bytes */
    size_t block_length;
    uint64_t detail;          /* the bit offset of a piece; if the code isn't 0, the number that it carries */
} dwexpr_operation;

/* Decodes the operation that begins at `offset` of `length` bytes. This decodes all operations of an expression:
 *
 *     for (size_t at = 0; at < length; at += operation.size)
 *         if (dwexpr_decode(bytes, length, encoding, at, &operation) != DWEXPR_OK)
 *             break;
 *
 * Returns 0; a fault of the bytes; DWEXPR_BAD_ENCODING; or DWEXPR_BAD_OFFSET if offset >= length. `operation` is
 * always written. */
uint32_t dwexpr_decode(const uint8_t *bytes, size_t length, dwexpr_encoding encoding, size_t offset,
                       dwexpr_operation *operation);

/* ---------------------------------------------------------------- evaluation */

/* An evaluation asks its caller for a register, memory, or the frame's base. Each request is answered by a call, until
 * the evaluation is complete. It lies in memory of the caller's, and can be used again for the next expression:
 *
 *     dwexpr_evaluation evaluation = {malloc(dwexpr_evaluation_size())};
 *     dwexpr_evaluation_begin(&evaluation);
 *     code = dwexpr_evaluation_evaluate(&evaluation, texts, 1, encoding, &settings, &outcome, pieces, 32);
 *     while (code == DWEXPR_OK && outcome.request != DWEXPR_COMPLETE)
 *         code = dwexpr_evaluation_resume(&evaluation, texts, 1, answer_to(&outcome), &outcome, pieces, 32);
 *
 * The caller ensures these too:
 *   - the memory has dwexpr_evaluation_size() bytes, is aligned to 8, and is not moved;
 *   - dwexpr_evaluation_begin is called once on it, before all other calls, and nothing else writes there;
 *   - one call at a time;
 *   - the texts of dwexpr_evaluation_evaluate, and those that answers name, stay as they are until its next call;
 *   - each call gets the same table of texts; texts may be added to it.
 *
 * An empty expression means that the variable was optimized away: don't evaluate it, which would be
 * DWEXPR_NOT_ENOUGH_STACK_ITEMS. An empty text is a valid answer to a call. */

/* The most values, waiting callers and pieces that an evaluation holds. One more is DWEXPR_STACK_FULL. */
#define DWEXPR_MAX_VALUES 64
#define DWEXPR_MAX_CALLERS 16
#define DWEXPR_MAX_PIECES 32

/* Types of values. A generic value has the size of an address, and no sign. */
enum dwexpr_type {
    DWEXPR_NO_TYPE = 0,
    DWEXPR_GENERIC = 1,
    DWEXPR_I8 = 2,
    DWEXPR_U8 = 3,
    DWEXPR_I16 = 4,
    DWEXPR_U16 = 5,
    DWEXPR_I32 = 6,
    DWEXPR_U32 = 7,
    DWEXPR_I64 = 8,
    DWEXPR_U64 = 9,
};

/* The bytes of an expression. */
typedef struct dwexpr_text {
    const uint8_t *bytes; /* NULL only if the length is 0 */
    size_t length;
} dwexpr_text;

/* What an evaluation starts with. */
typedef struct dwexpr_settings {
    uint32_t max_iterations;     /* the maximum number of operations; 0 allows none */
    uint16_t has_object_address; /* 0: no object's address is known */
    uint16_t has_initial_value;  /* 0: the stack is empty at the start */
    uint64_t object_address;     /* for DW_OP_push_object_address */
    uint64_t initial_value;      /* on the stack at the start */
} dwexpr_settings;

enum dwexpr_request {
    DWEXPR_NOTHING = 0,             /* the code isn't 0 */
    DWEXPR_COMPLETE = 1,            /* value_type, value, pieces */
    DWEXPR_WANTS_MEMORY = 2,        /* number: address; size; base_type; flag: in the address space `space` */
    DWEXPR_WANTS_REGISTER = 3,      /* register_number; base_type */
    DWEXPR_WANTS_FRAME_BASE = 4,
    DWEXPR_WANTS_TLS = 5,           /* number: offset in thread-local storage */
    DWEXPR_WANTS_CFA = 6,           /* the canonical frame address */
    DWEXPR_WANTS_LOCATION = 7,      /* number: offset of an entry in the unit, or, with flag, in .debug_info */
    DWEXPR_WANTS_ENTRY_VALUE = 8,   /* block: an expression; its value on entry to the function is wanted */
    DWEXPR_WANTS_PARAMETER = 9,     /* number: offset of an entry in the unit */
    DWEXPR_WANTS_RELOCATED = 10,    /* number: address */
    DWEXPR_WANTS_INDEXED = 11,      /* number: index in .debug_addr; flag: it is an address, to be relocated */
    DWEXPR_WANTS_BASE_TYPE = 12,    /* base_type */
    DWEXPR_WANTS_WASM_LOCAL = 13,   /* number: index */
    DWEXPR_WANTS_WASM_GLOBAL = 14,  /* number: index */
    DWEXPR_WANTS_WASM_STACK = 15,   /* number: index */
};

enum dwexpr_answer_kind {
    DWEXPR_ANSWER_MEMORY = 1,       /* value_type, number: what memory holds */
    DWEXPR_ANSWER_REGISTER = 2,     /* value_type, number */
    DWEXPR_ANSWER_WASM = 3,         /* value_type, number: for each of the three WebAssembly requests */
    DWEXPR_ANSWER_ENTRY_VALUE = 4,  /* value_type, number */
    DWEXPR_ANSWER_FRAME_BASE = 5,   /* number: an address */
    DWEXPR_ANSWER_TLS = 6,          /* number: an address */
    DWEXPR_ANSWER_CFA = 7,          /* number: an address */
    DWEXPR_ANSWER_PARAMETER = 8,    /* number: the parameter's value */
    DWEXPR_ANSWER_RELOCATED = 9,    /* number: an address */
    DWEXPR_ANSWER_INDEXED = 10,     /* number: an address or a constant */
    DWEXPR_ANSWER_LOCATION = 11,    /* text: index of the text that is called; length 0 if there is none */
    DWEXPR_ANSWER_BASE_TYPE = 12,   /* value_type: the type */
};

/* The answer to a request. */
typedef struct dwexpr_answer {
    uint32_t kind;       /* DWEXPR_ANSWER_* */
    uint32_t value_type; /* DWEXPR_GENERIC to DWEXPR_U64, if the kind names it */
    uint64_t number;     /* for a value, its lowest bits, as many as its type has */
    size_t text;
} dwexpr_answer;

/* What a call led to. Fields that the request doesn't name are 0. */
typedef struct dwexpr_outcome {
    uint32_t code;            /* the code that the call returned */
    uint32_t request;         /* DWEXPR_NOTHING, DWEXPR_COMPLETE or DWEXPR_WANTS_* */
    uint64_t detail;          /* the number that a fault carries */
    uint64_t number;
    uint64_t base_type;       /* the type that the answer should have: offset of its entry in the unit, 0 for generic */
    uint64_t space;
    uint32_t register_number;
    uint32_t size;            /* bytes */
    uint32_t flag;            /* 0 or 1 */
    uint32_t value_type;      /* of the value of a complete evaluation, DWEXPR_NO_TYPE if it has none */
    uint64_t value;           /* sign-extended if it is signed; a generic one may have bits above the address size */
    size_t block_text;        /* the index of the text in which the block is */
    size_t block_offset;
    size_t block_length;
    size_t pieces;            /* how many pieces a complete evaluation has; no more are written than fit */
} dwexpr_outcome;

enum dwexpr_piece_kind {
    DWEXPR_EMPTY = 1,               /* it was optimized away */
    DWEXPR_IN_REGISTER = 2,         /* number: the register */
    DWEXPR_AT_ADDRESS = 3,          /* number: the address */
    DWEXPR_HOLDS_VALUE = 4,         /* value_type, number: it isn't in memory, and has this value */
    DWEXPR_HOLDS_BYTES = 5,         /* block: it isn't in memory, and has these bytes */
    DWEXPR_POINTS_INTO = 6,         /* number: offset of an object's entry in .debug_info; byte_offset into it */
};

/* A part of a variable, or all of it. Fields that its kind doesn't name are 0. */
typedef struct dwexpr_piece {
    uint32_t kind;
    uint32_t has_size;        /* 0: it is the whole variable */
    uint64_t size_in_bits;
    uint64_t bit_offset;      /* of its first bit in its location */
    uint32_t has_bit_offset;  /* 0: no bit offset is given */
    uint32_t value_type;
    uint64_t number;
    int64_t byte_offset;
    size_t block_text;        /* the index of the text in which its bytes are */
    size_t block_offset;
    size_t block_length;
} dwexpr_piece;

/* An evaluation in memory of the caller's. */
typedef struct dwexpr_evaluation {
    void *memory;
} dwexpr_evaluation;

/* How many bytes of memory an evaluation takes: at most DWEXPR_EVALUATION_SIZE. */
size_t dwexpr_evaluation_size(void);

#define DWEXPR_EVALUATION_SIZE 4864

/* Makes an evaluation in the memory. */
void dwexpr_evaluation_begin(dwexpr_evaluation *evaluation);

/* Evaluates texts[0] with the settings to the first request or to the end. It forgets the previous expression.
 *
 * Returns 0; a fault; DWEXPR_BAD_ENCODING; or DWEXPR_BAD_TEXT if there are no texts. The last two leave the evaluation
 * as it was. `outcome` is always written. If the evaluation is complete, as many of its pieces are written as `pieces`
 * has room for. */
uint32_t dwexpr_evaluation_evaluate(dwexpr_evaluation *evaluation, const dwexpr_text *texts, size_t texts_length,
                                    dwexpr_encoding encoding, const dwexpr_settings *settings,
                                    dwexpr_outcome *outcome, dwexpr_piece *pieces, size_t pieces_length);

/* Goes on with the answer to the open request, to the next request or to the end.
 *
 * Returns 0; a fault, which every later answer gets too; DWEXPR_BAD_TEXT to DWEXPR_MISPLACED, which change nothing; or
 * DWEXPR_LOST_TEXT; then some of the pieces may be written. `outcome` and `pieces` are written as above. */
uint32_t dwexpr_evaluation_resume(dwexpr_evaluation *evaluation, const dwexpr_text *texts, size_t texts_length,
                                  dwexpr_answer answer, dwexpr_outcome *outcome, dwexpr_piece *pieces,
                                  size_t pieces_length);

/* ---------------------------------------------------------------- values */

/* The operations on values, as calls: to convert or compare values that an evaluation gave. An evaluation itself needs
 * none of these calls. */
typedef struct dwexpr_value {
    uint32_t value_type; /* DWEXPR_GENERIC to DWEXPR_U64; DWEXPR_NO_TYPE if a call gives no value */
    uint64_t content;    /* in an argument only the lowest bits count, as many as its type has; a signed result is
                            sign-extended */
} dwexpr_value;

/* An operation, by its kind. On one value: DWEXPR_OP_ABS, _NEG or _NOT. On two values, where `right` stands for the
 * top of the stack: DWEXPR_OP_AND to _MUL, _OR, _PLUS, _SHL to _XOR or _EQ to _NE. To another type:
 * DWEXPR_OP_CONVERT by the number, or _REINTERPRET by the bits. `addr_mask` has a one for each bit of an address:
 * 0xffffffff for an address of 4 bytes.
 *
 * Returns 0, a fault, or DWEXPR_BAD_VALUE if a number isn't allowed. `result` is always written; if the call doesn't
 * return 0, it has the type DWEXPR_NO_TYPE and the content 0. */
uint32_t dwexpr_value_unary(uint32_t operation, dwexpr_value value, uint64_t addr_mask, dwexpr_value *result);

uint32_t dwexpr_value_binary(uint32_t operation, dwexpr_value left, dwexpr_value right, uint64_t addr_mask,
                             dwexpr_value *result);

uint32_t dwexpr_value_convert(uint32_t operation, dwexpr_value value, uint32_t value_type, uint64_t addr_mask,
                              dwexpr_value *result);

/* Reads a value of a type from the first of `length` bytes. `big_endian` is the byte order, as in dwexpr_encoding. The
 * generic type is refused with DWEXPR_UNSUPPORTED_TYPE_OPERATION. Returns the same codes as the calls above. */
uint32_t dwexpr_value_parse(uint32_t value_type, const uint8_t *bytes, size_t length, uint8_t big_endian,
                            dwexpr_value *result);

/* The size of a type's values in bits; 0 if there is no such type or mask. */
uint32_t dwexpr_type_bit_size(uint32_t value_type, uint64_t addr_mask);

/* The type of integers whose base type has this DW_AT_encoding, 5 for signed and 7 for unsigned ones, and this size in
 * bytes. DWEXPR_NO_TYPE if there is no such type. */
uint32_t dwexpr_type_from_encoding(uint8_t encoding, uint64_t byte_size);

/* ---------------------------------------------------------------- blocks and names */

/* The bytes of an operation's block; `bytes` are those that dwexpr_decode was given. */
static inline dwexpr_text dwexpr_operation_block(const dwexpr_operation *operation, const uint8_t *bytes)
{
    dwexpr_text block = {operation->block_length ? bytes + operation->block_offset : NULL, operation->block_length};
    return block;
}

/* The bytes of a block of a text, or no bytes if the table has no such text or the text no such block. */
static inline dwexpr_text dwexpr_block_of(const dwexpr_text *texts, size_t texts_length, size_t text, size_t offset,
                                          size_t length)
{
    dwexpr_text block = {NULL, 0};
    if (length && text < texts_length && offset <= texts[text].length && length <= texts[text].length - offset) {
        block.bytes = texts[text].bytes + offset;
        block.length = length;
    }
    return block;
}

/* The bytes of the block that an outcome asks about; `texts` are those that the call was given. */
static inline dwexpr_text dwexpr_outcome_block(const dwexpr_outcome *outcome, const dwexpr_text *texts,
                                               size_t texts_length)
{
    return dwexpr_block_of(texts, texts_length, outcome->block_text, outcome->block_offset, outcome->block_length);
}

/* The bytes that a piece holds; `texts` are those that the call was given. */
static inline dwexpr_text dwexpr_piece_block(const dwexpr_piece *piece, const dwexpr_text *texts, size_t texts_length)
{
    return dwexpr_block_of(texts, texts_length, piece->block_text, piece->block_offset, piece->block_length);
}

/* A short message for a code; NULL if there is no such code. */
static inline const char *dwexpr_code_name(uint32_t code)
{
    switch (code) {
    case DWEXPR_OK: return "no fault";
    case DWEXPR_UNEXPECTED_EOF: return "an operation is cut off";
    case DWEXPR_BAD_UNSIGNED_LEB128: return "an unsigned LEB128 number is too large";
    case DWEXPR_BAD_SIGNED_LEB128: return "a signed LEB128 number is too large";
    case DWEXPR_UNSUPPORTED_ADDRESS_SIZE: return "no address has this size";
    case DWEXPR_UNSUPPORTED_OFFSET: return "an offset is too large";
    case DWEXPR_UNSUPPORTED_REGISTER: return "no register has this number";
    case DWEXPR_INVALID_EXPRESSION: return "no operation has this opcode";
    case DWEXPR_INVALID_PIECE_SIZE: return "a piece is too large";
    case DWEXPR_UNSUPPORTED_TYPE_OPERATION: return "the operation has no meaning for values of this type";
    case DWEXPR_TYPE_MISMATCH: return "two values have different types";
    case DWEXPR_DIVISION_BY_ZERO: return "a division by zero";
    case DWEXPR_INVALID_SHIFT_EXPRESSION: return "a shift by a negative number";
    case DWEXPR_NOT_ENOUGH_STACK_ITEMS: return "a value is missing on the stack";
    case DWEXPR_INVALID_DEREF_SIZE: return "more bytes are read than an address has";
    case DWEXPR_INVALID_PUSH_OBJECT_ADDRESS: return "no object's address was set";
    case DWEXPR_UNSUPPORTED_EVALUATION: return "the operation can't be evaluated";
    case DWEXPR_BAD_BRANCH_TARGET: return "a branch leaves the expression";
    case DWEXPR_TOO_MANY_ITERATIONS: return "too many operations";
    case DWEXPR_INVALID_PIECE: return "the last piece is missing";
    case DWEXPR_INVALID_EXPRESSION_TERMINATOR: return "a location is followed by another operation than a piece";
    case DWEXPR_STACK_FULL: return "a list is full";
    case DWEXPR_BAD_ENCODING: return "no such encoding";
    case DWEXPR_BAD_OFFSET: return "no byte is at this offset";
    case DWEXPR_BAD_TEXT: return "no such text";
    case DWEXPR_BAD_ANSWER: return "no such answer";
    case DWEXPR_MISPLACED: return "the answer isn't allowed here";
    case DWEXPR_LOST_TEXT: return "a text of before isn't there";
    case DWEXPR_TOO_MANY_TEXTS: return "too many texts are called";
    case DWEXPR_BAD_VALUE: return "no such operation, type or mask";
    case DWEXPR_REFUSED: return "a callback refused";
    default: return NULL;
    }
}

/* The name of an opcode, as "DW_OP_deref"; NULL if there is no such opcode. */
static inline const char *dwexpr_opcode_name(uint32_t opcode)
{
#define DWEXPR_NAME(number, name, form) case number: return name;
    switch (opcode) {
    DWEXPR_OPCODES(DWEXPR_NAME)
    default: return NULL;
    }
#undef DWEXPR_NAME
}

#ifdef __cplusplus
}
#endif

/* ---------------------------------------------------------------- layout */

/* The library was built for structs of exactly this layout: with 64-bit words; with 32-bit words and 64-bit numbers
 * at multiples of 8, as on ARM; or with 32-bit words and 64-bit numbers at multiples of 4, as on i386. */
#ifdef __cplusplus
#define DWEXPR_ASSERT(name, holds) static_assert(holds, #name)
#else
#define DWEXPR_ASSERT(name, holds) _Static_assert(holds, #name)
#endif
#define DWEXPR_IS(place, wide, narrow, packed)                                                                         \
    ((place) == (sizeof(void *) == 8 ? (wide) : offsetof(dwexpr_value, content) == 8 ? (narrow) : (packed)))
#define DWEXPR_SIZE(type, wide, narrow, packed) DWEXPR_ASSERT(type, DWEXPR_IS(sizeof(type), wide, narrow, packed))
#define DWEXPR_AT(type, field, wide, narrow, packed)                                                                   \
    DWEXPR_ASSERT(type##_##field, DWEXPR_IS(offsetof(type, field), wide, narrow, packed))

DWEXPR_ASSERT(words, sizeof(size_t) == sizeof(void *) && (sizeof(void *) == 8 || sizeof(void *) == 4));
DWEXPR_SIZE(dwexpr_evaluation, 8, 4, 4);
DWEXPR_AT(dwexpr_evaluation, memory, 0, 0, 0);
DWEXPR_SIZE(dwexpr_encoding, 4, 4, 4);
DWEXPR_AT(dwexpr_encoding, address_size, 0, 0, 0);
DWEXPR_AT(dwexpr_encoding, offset_size, 1, 1, 1);
DWEXPR_AT(dwexpr_encoding, big_endian, 2, 2, 2);
DWEXPR_AT(dwexpr_encoding, version, 3, 3, 3);
DWEXPR_SIZE(dwexpr_operation, 88, 72, 72);
DWEXPR_AT(dwexpr_operation, offset, 0, 0, 0);
DWEXPR_AT(dwexpr_operation, size, 8, 4, 4);
DWEXPR_AT(dwexpr_operation, opcode, 16, 8, 8);
DWEXPR_AT(dwexpr_operation, kind, 20, 12, 12);
DWEXPR_AT(dwexpr_operation, number, 24, 16, 16);
DWEXPR_AT(dwexpr_operation, signed_number, 32, 24, 24);
DWEXPR_AT(dwexpr_operation, base_type, 40, 32, 32);
DWEXPR_AT(dwexpr_operation, register_number, 48, 40, 40);
DWEXPR_AT(dwexpr_operation, deref_size, 52, 44, 44);
DWEXPR_AT(dwexpr_operation, flag, 56, 48, 48);
DWEXPR_AT(dwexpr_operation, fault, 60, 52, 52);
DWEXPR_AT(dwexpr_operation, block_offset, 64, 56, 56);
DWEXPR_AT(dwexpr_operation, block_length, 72, 60, 60);
DWEXPR_AT(dwexpr_operation, detail, 80, 64, 64);
DWEXPR_SIZE(dwexpr_text, 16, 8, 8);
DWEXPR_AT(dwexpr_text, bytes, 0, 0, 0);
DWEXPR_AT(dwexpr_text, length, 8, 4, 4);
DWEXPR_SIZE(dwexpr_answer, 24, 24, 20);
DWEXPR_AT(dwexpr_answer, kind, 0, 0, 0);
DWEXPR_AT(dwexpr_answer, value_type, 4, 4, 4);
DWEXPR_AT(dwexpr_answer, number, 8, 8, 8);
DWEXPR_AT(dwexpr_answer, text, 16, 16, 16);
DWEXPR_SIZE(dwexpr_settings, 24, 24, 24);
DWEXPR_AT(dwexpr_settings, max_iterations, 0, 0, 0);
DWEXPR_AT(dwexpr_settings, has_object_address, 4, 4, 4);
DWEXPR_AT(dwexpr_settings, has_initial_value, 6, 6, 6);
DWEXPR_AT(dwexpr_settings, object_address, 8, 8, 8);
DWEXPR_AT(dwexpr_settings, initial_value, 16, 16, 16);
DWEXPR_SIZE(dwexpr_value, 16, 16, 12);
DWEXPR_AT(dwexpr_value, value_type, 0, 0, 0);
DWEXPR_AT(dwexpr_value, content, 8, 8, 4);
DWEXPR_SIZE(dwexpr_outcome, 96, 80, 80);
DWEXPR_AT(dwexpr_outcome, code, 0, 0, 0);
DWEXPR_AT(dwexpr_outcome, request, 4, 4, 4);
DWEXPR_AT(dwexpr_outcome, detail, 8, 8, 8);
DWEXPR_AT(dwexpr_outcome, number, 16, 16, 16);
DWEXPR_AT(dwexpr_outcome, base_type, 24, 24, 24);
DWEXPR_AT(dwexpr_outcome, space, 32, 32, 32);
DWEXPR_AT(dwexpr_outcome, register_number, 40, 40, 40);
DWEXPR_AT(dwexpr_outcome, size, 44, 44, 44);
DWEXPR_AT(dwexpr_outcome, flag, 48, 48, 48);
DWEXPR_AT(dwexpr_outcome, value_type, 52, 52, 52);
DWEXPR_AT(dwexpr_outcome, value, 56, 56, 56);
DWEXPR_AT(dwexpr_outcome, block_text, 64, 64, 64);
DWEXPR_AT(dwexpr_outcome, block_offset, 72, 68, 68);
DWEXPR_AT(dwexpr_outcome, block_length, 80, 72, 72);
DWEXPR_AT(dwexpr_outcome, pieces, 88, 76, 76);
DWEXPR_SIZE(dwexpr_piece, 72, 64, 60);
DWEXPR_AT(dwexpr_piece, kind, 0, 0, 0);
DWEXPR_AT(dwexpr_piece, has_size, 4, 4, 4);
DWEXPR_AT(dwexpr_piece, size_in_bits, 8, 8, 8);
DWEXPR_AT(dwexpr_piece, bit_offset, 16, 16, 16);
DWEXPR_AT(dwexpr_piece, has_bit_offset, 24, 24, 24);
DWEXPR_AT(dwexpr_piece, value_type, 28, 28, 28);
DWEXPR_AT(dwexpr_piece, number, 32, 32, 32);
DWEXPR_AT(dwexpr_piece, byte_offset, 40, 40, 40);
DWEXPR_AT(dwexpr_piece, block_text, 48, 48, 48);
DWEXPR_AT(dwexpr_piece, block_offset, 56, 52, 52);
DWEXPR_AT(dwexpr_piece, block_length, 64, 56, 56);

#undef DWEXPR_AT
#undef DWEXPR_SIZE
#undef DWEXPR_IS
#undef DWEXPR_ASSERT

#endif
