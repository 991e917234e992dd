/* What the tests share: counts of checks, encodings, bytes from hexadecimal text, made-up numbers. */
#ifndef CHECK_H
#define CHECK_H

#include <ctype.h>
#include <stdio.h>
#include <stdlib.h>
#include <string.h>

#include "dwexpr.h"

#define COUNT(rows) (sizeof(rows) / sizeof *(rows))
#define LE8 encoding_of(8, 4, 5, 0)

static int passed, failed;

static inline void check(int holds, const char *name, const char *what)
{
    if (holds) {
        passed++;
    } else {
        failed++;
        printf("FAILED %s: %s\n", name, what);
    }
}

/* What is wrong on purpose has to have failed, once since so many had. It is counted as one that passed. */
static inline void expect_failure(int failed_before)
{
    const int has_failed = failed == failed_before + 1;
    failed = failed_before + !has_failed;
    passed += has_failed;
}

static inline int finish(void)
{
    const int failed_before = failed;
    check(0, "what is wrong on purpose", "so it has to");
    expect_failure(failed_before);
    printf("%d passed, %d failed\n", passed, failed);
    return failed || !passed;
}

static inline dwexpr_encoding encoding_of(int address_size, int offset_size, int version, int big_endian)
{
    const dwexpr_encoding encoding = {(uint8_t)address_size, (uint8_t)offset_size, (uint8_t)big_endian,
                                      (uint8_t)version};
    return encoding;
}

/* Writes the bytes that hexadecimal digits spell, and returns how many there are. Spaces between them don't count. */
static inline size_t bytes_of(const char *digits, uint8_t *bytes)
{
    size_t count = 0;
    for (; isxdigit((unsigned char)digits[0]) && isxdigit((unsigned char)digits[1]); digits += strspn(digits, " ")) {
        const char pair[] = {digits[0], digits[1], 0};
        bytes[count++] = (uint8_t)strtoul(pair, NULL, 16);
        digits += strlen(pair);
    }
    return count;
}

/* Whether a decoded operation contradicts the call's code or the length of its text. */
static inline int bad_operation(const dwexpr_operation *op, uint32_t code, size_t length)
{
    return code != op->fault || (code == 0) != (op->kind != DWEXPR_OP_NONE) || (code == 0) != (op->size != 0) ||
           op->offset > length || op->size > length - op->offset ||
           (op->block_length && op->block_offset + op->block_length != op->offset + op->size);
}

/* Whether two outcomes are the same. They have no padding, which pieces may have. */
static inline int same_outcome(const dwexpr_outcome *a, const dwexpr_outcome *b)
{
    return !memcmp(a, b, sizeof *a);
}

static inline int same_pieces(const dwexpr_piece *a, const dwexpr_piece *b, size_t count)
{
    for (; count; a++, b++, count--)
        if (a->kind != b->kind || a->has_size != b->has_size || a->size_in_bits != b->size_in_bits ||
            a->bit_offset != b->bit_offset || a->has_bit_offset != b->has_bit_offset ||
            a->value_type != b->value_type || a->number != b->number || a->byte_offset != b->byte_offset ||
            a->block_text != b->block_text || a->block_offset != b->block_offset ||
            a->block_length != b->block_length)
            return 0;
    return 1;
}

static uint64_t made_up_state = 88172645463325252u;

/* The next made-up number. The series is the same in each run unless the state is set. */
static inline uint64_t any(void)
{
    made_up_state ^= made_up_state << 13;
    made_up_state ^= made_up_state >> 7;
    made_up_state ^= made_up_state << 17;
    return made_up_state;
}

/* The kind of the answer to a request; 0 if there is none. */
static inline uint32_t answer_of(uint32_t request)
{
    static const uint32_t answers[] = {
        [DWEXPR_NOTHING] = 0,
        [DWEXPR_COMPLETE] = 0,
        [DWEXPR_WANTS_MEMORY] = DWEXPR_ANSWER_MEMORY,
        [DWEXPR_WANTS_REGISTER] = DWEXPR_ANSWER_REGISTER,
        [DWEXPR_WANTS_FRAME_BASE] = DWEXPR_ANSWER_FRAME_BASE,
        [DWEXPR_WANTS_TLS] = DWEXPR_ANSWER_TLS,
        [DWEXPR_WANTS_CFA] = DWEXPR_ANSWER_CFA,
        [DWEXPR_WANTS_LOCATION] = DWEXPR_ANSWER_LOCATION,
        [DWEXPR_WANTS_ENTRY_VALUE] = DWEXPR_ANSWER_ENTRY_VALUE,
        [DWEXPR_WANTS_PARAMETER] = DWEXPR_ANSWER_PARAMETER,
        [DWEXPR_WANTS_RELOCATED] = DWEXPR_ANSWER_RELOCATED,
        [DWEXPR_WANTS_INDEXED] = DWEXPR_ANSWER_INDEXED,
        [DWEXPR_WANTS_BASE_TYPE] = DWEXPR_ANSWER_BASE_TYPE,
        [DWEXPR_WANTS_WASM_LOCAL] = DWEXPR_ANSWER_WASM,
        [DWEXPR_WANTS_WASM_GLOBAL] = DWEXPR_ANSWER_WASM,
        [DWEXPR_WANTS_WASM_STACK] = DWEXPR_ANSWER_WASM,
    };
    return answers[request];
}

#endif
