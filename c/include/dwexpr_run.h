/* Evaluates DWARF expressions in one call, with callbacks that answer their requests. This is plain C over dwexpr.h,
 * and isn't proved. Link with libdwexpr_run.a and libdwexpr.a: `pkg-config --cflags --libs dwexpr`, or the CMake
 * target dwexpr::dwexpr. A call uses only what it is given, so any thread may make it. */
#ifndef DWEXPR_RUN_H
#define DWEXPR_RUN_H

#include "dwexpr.h"

#ifdef __cplusplus
extern "C" {
#endif

/* The version of the linked library. DWEXPR_VERSION is that of the header. */
const char *dwexpr_version(void);

/* The texts of a run: first the expression, then each text that it called. The caller provides the table. A text that
 * is called again is listed once, unless DWEXPR_RUN_RECENT others were added since and there is room. Pieces and
 * outcomes name a text by its index here:
 *
 *     dwexpr_text items[64];
 *     dwexpr_texts texts = {items, 64, 0};
 *     block = dwexpr_piece_block(&pieces[0], texts.items, texts.length);
 */
#define DWEXPR_RUN_RECENT 64

typedef struct dwexpr_texts {
    dwexpr_text *items;
    size_t room; /* at least 1 */
    size_t length;
} dwexpr_texts;

/* Callbacks that answer an expression's requests. Each writes its answer and returns 0. If it returns another
 * number, it refuses, and the evaluation ends. A callback that is NULL refuses with -1. If one returns 0 and writes
 * nothing, the answer is 0, a text of no bytes, or for `relocated` the address that it was given; `base_type` then
 * refuses with -1. */
typedef struct dwexpr_callbacks {
    /* `size` bytes at an address; `space` is NULL unless an address space is named */
    int (*memory)(void *context, uint64_t address, uint32_t size, const uint64_t *space, uint64_t *content);
    int (*register_content)(void *context, uint32_t register_number, uint64_t *content);
    int (*frame_base)(void *context, uint64_t *address);
    int (*cfa)(void *context, uint64_t *address);
    int (*tls)(void *context, uint64_t offset, uint64_t *address);
    /* the value that the expression had on entry of the function */
    int (*entry_value)(void *context, const uint8_t *bytes, size_t length, uint64_t *content);
    /* the expression of the entry at an offset in the unit, or in .debug_info. Its bytes have to stay until the run
     * has ended, and as long as its blocks are used */
    int (*location)(void *context, int in_debug_info, uint64_t offset, dwexpr_text *text);
    int (*parameter)(void *context, uint64_t offset, uint64_t *value);
    /* if it is NULL, the address stays as it is */
    int (*relocated)(void *context, uint64_t address, uint64_t *relocated);
    int (*indexed)(void *context, uint64_t index, int relocate, uint64_t *address);
    /* the type of the entry at an offset in the unit, DWEXPR_I8 to DWEXPR_U64; it isn't asked for offset 0 */
    int (*base_type)(void *context, uint64_t offset, uint32_t *value_type);
    /* the WebAssembly value at an index: `request` is DWEXPR_WANTS_WASM_LOCAL, _GLOBAL or _STACK. The type is
     * DWEXPR_GENERIC unless the callback writes another one */
    int (*wasm)(void *context, uint32_t request, uint64_t index, uint32_t *value_type, uint64_t *content);
} dwexpr_callbacks;

/* Evaluates an expression with the settings, in the caller's evaluation, on which dwexpr_evaluation_begin was
 * called.
 *
 * Returns 0 if the evaluation is complete; a code; DWEXPR_REFUSED if a callback refused, and then writes its number
 * to `refusal`, unless that is NULL; or DWEXPR_TOO_MANY_TEXTS if the table has no room for a called text. An
 * expression may make any number of requests. `texts->length` and `outcome` are always written.
 *
 * An expression may loop. With the largest maximum it ends after 4294967295 operations, which takes about half a
 * minute. */
uint32_t dwexpr_run_in(dwexpr_evaluation *evaluation, const dwexpr_settings *settings, dwexpr_text text,
                       dwexpr_encoding encoding, const dwexpr_callbacks *calls, void *context, int *refusal,
                       dwexpr_texts *texts, dwexpr_outcome *outcome, dwexpr_piece *pieces, size_t pieces_length);

/* The most operations that dwexpr_run allows. */
#define DWEXPR_RUN_OPERATIONS 100000

/* Like dwexpr_run_in, with a maximum of DWEXPR_RUN_OPERATIONS and no other setting. It begins a new evaluation on
 * the stack, which alone takes about as long as a short expression. For many expressions begin one evaluation, and
 * call dwexpr_run_in. */
uint32_t dwexpr_run(dwexpr_text text, dwexpr_encoding encoding, const dwexpr_callbacks *calls, void *context,
                    int *refusal, dwexpr_texts *texts, dwexpr_outcome *outcome, dwexpr_piece *pieces,
                    size_t pieces_length);

#ifdef __cplusplus
}
#endif

#endif
