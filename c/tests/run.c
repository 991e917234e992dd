/* What dwexpr_run and dwexpr_run_in do besides asking callbacks, which made_up.c tests: the table of texts that a run
 * fills, the most operations, and runs within runs. */
#include <time.h>

#include "check.h"
#include "dwexpr_run.h"

enum { MOST = 64000 };

static dwexpr_text items[MOST + 2];
static dwexpr_texts texts = {items, 1, 0};
static dwexpr_outcome outcome;
static dwexpr_piece piece;

static uint32_t run(const uint8_t *bytes, size_t length, dwexpr_encoding encoding, const dwexpr_callbacks *calls)
{
    return dwexpr_run((dwexpr_text){bytes, length}, encoding, calls, NULL, NULL, &texts, &outcome, &piece, 1);
}

/* As many operations as a run allows, where the last one gives the value, and one more. */
static void operations(void)
{
    static const dwexpr_callbacks none;
    static uint8_t nops[DWEXPR_RUN_OPERATIONS + 1];
    static const uint8_t address[] = {0x03, 5, 0, 0, 0, 0, 0, 0, 0}, cfa[] = {0x9c}, typed[] = {0xa5, 0, 42};
    int refusal = 0;
    memset(nops, 0x96, sizeof nops);
    nops[DWEXPR_RUN_OPERATIONS - 1] = 0x31;
    check(DWEXPR_RUN_OPERATIONS == 100000, "operations", "100,000 of them");
    check(run(nops, sizeof nops - 1, LE8, &none) == 0 && outcome.value == 1, "operations", "as many as are allowed");
    check(run(nops, sizeof nops, LE8, &none) == DWEXPR_TOO_MANY_ITERATIONS, "operations", "one more");
    check(run(address, sizeof address, LE8, &none) == 0 && outcome.value == 5, "no callback", "an address stays");
    check(run(cfa, sizeof cfa, LE8, &none) == DWEXPR_REFUSED, "no callback", "no place for the refusal");
    check(dwexpr_run((dwexpr_text){typed, sizeof typed}, LE8, &none, NULL, &refusal, &texts, &outcome, &piece, 1) ==
                  DWEXPR_REFUSED &&
              refusal == -1,
          "no callback", "no type of a register");
    check(run(cfa, sizeof cfa, encoding_of(9, 4, 5, 0), &none) == DWEXPR_BAD_ENCODING, "a bad encoding", "the code");
    check(texts.length == 1 && items[0].bytes == cfa && items[0].length == sizeof cfa, "a bad encoding", "the texts");
}

/* ---- the table of texts */

static uint8_t bytes[MOST];

/* The text at an offset: a literal, or a literal and DW_OP_not. The latter begins with the former. */
static int give_text(void *context, int in_debug_info, uint64_t offset, dwexpr_text *text)
{
    (void)context, (void)in_debug_info;
    text->bytes = bytes + offset / 2 * 2;
    text->length = 1 + offset % 2;
    return 0;
}

static uint64_t value_of(size_t offset)
{
    return offset % 2 ? ~(uint64_t)(offset / 2 % 32) : offset / 2 % 32;
}

/* Calls the texts from 0 to `count` one after another and then the last one, and drops what they push but for that. */
static uint32_t call_each(size_t count, size_t last, size_t room)
{
    static uint8_t calls[6 * (MOST + 1)];
    static uint64_t memory[DWEXPR_EVALUATION_SIZE / 8];
    const dwexpr_settings settings = {.max_iterations = UINT32_MAX};
    const dwexpr_callbacks callbacks = {.location = give_text};
    const dwexpr_text text = {calls, 6 * (count + 1)};
    dwexpr_evaluation evaluation = {memory};
    uint32_t code;
    for (size_t i = 0; i <= count; i++) {
        uint8_t *at = &calls[6 * i];
        *at++ = 0x99; /* DW_OP_call4 */
        for (unsigned byte = 0; byte < 32; byte += 8)
            *at++ = (uint8_t)((i < count ? i : last) >> byte);
        *at = i < count ? 0x13 : 0x96; /* DW_OP_drop */
    }
    texts.room = room;
    items[room].length = 77;
    dwexpr_evaluation_begin(&evaluation);
    code = dwexpr_run_in(&evaluation, &settings, text, LE8, &callbacks, NULL, NULL, &texts, &outcome, &piece, 1);
    check(items[room].length == 77, "a table", "nothing is written behind it");
    return code;
}

/* Each text of a table is found again, at least if it is one of the last or the table is full. */
static void tables(void)
{
    for (size_t i = 0; i < MOST; i++)
        bytes[i] = (uint8_t)(i % 2 ? 0x20 : 0x30 + i / 2 % 32);
    for (size_t count = 1; count <= 300; count += count < 70 ? 1 : 23)
        for (size_t i = 0; i < count; i++) {
            const size_t again = i + DWEXPR_RUN_RECENT < count;
            check(call_each(count, i, count + 1) == 0 && outcome.value == value_of(i) && texts.length == count + 1,
                  "a full table", "a text in it");
            check(call_each(count, i, MOST) == 0 && outcome.value == value_of(i) && texts.length == count + 1 + again,
                  "a table", "a text in it");
            check(call_each(count, count, count + 1) == DWEXPR_TOO_MANY_TEXTS && texts.length == count + 1,
                  "a full table", "another text");
        }
}

/* A call takes as long after many texts as after few. */
static void times(void)
{
    double least[2] = {1e9, 1e9};
    for (int round = 0; round < 6; round++) {
        const size_t count = round % 2 ? MOST - 1 : 999;
        const clock_t began = clock();
        for (size_t i = 0; i < MOST / (count + 1); i++)
            check(call_each(count, 0, MOST + 1) == 0, "many texts", "the result");
        const double took = (double)(clock() - began) / CLOCKS_PER_SEC;
        least[round % 2] = took < least[round % 2] ? took : least[round % 2];
    }
    check(least[1] < 8 * least[0] + 0.01, "many texts", "a call takes as long");
}

/* A block that isn't within its text has no bytes. */
static void bounds(void)
{
    const size_t numbers[] = {0, 1, 2, 3, 4, SIZE_MAX - 1, SIZE_MAX};
    /* on the heap, where a sanitizer sees a read past the table */
    dwexpr_text *table = malloc(2 * sizeof *table);
    table[0] = (dwexpr_text){bytes, 3}, table[1] = (dwexpr_text){NULL, 0};
    for (size_t i = 0; i < COUNT(numbers) * COUNT(numbers) * COUNT(numbers); i++) {
        const size_t text = numbers[i % 7], offset = numbers[i / 7 % 7], length = numbers[i / 49];
        const dwexpr_outcome of_outcome = {.block_text = text, .block_offset = offset, .block_length = length};
        const dwexpr_piece of_piece = {.block_text = text, .block_offset = offset, .block_length = length};
        const dwexpr_text got[] = {dwexpr_outcome_block(&of_outcome, table, 2),
                                   dwexpr_piece_block(&of_piece, table, 2)};
        const int is_there = text == 0 && length && offset <= 3 && length <= 3 - offset;
        for (size_t j = 0; j < COUNT(got); j++)
            check(got[j].bytes == (is_there ? bytes + offset : NULL) && got[j].length == (is_there ? length : 0),
                  "bounds", "a block");
    }
    free(table);
}

/* ---- a run within a callback of another one */

struct nested {
    int depth;
    uint64_t value;
};

static int run_nested(void *context, uint64_t *address)
{
    static const uint8_t on_cfa[] = {0x33, 0x9c, 0x22}; /* 3, DW_OP_call_frame_cfa, DW_OP_plus */
    static const dwexpr_callbacks calls = {.cfa = run_nested};
    const struct nested *outer = context;
    struct nested inner = {outer->depth - 1, outer->value + 1};
    dwexpr_text own[1];
    dwexpr_texts table = {own, 1, 0};
    dwexpr_outcome ended = {.value = outer->value};
    dwexpr_piece place;
    const uint32_t code = outer->depth ? dwexpr_run((dwexpr_text){on_cfa, sizeof on_cfa}, LE8, &calls, &inner, NULL,
                                                    &table, &ended, &place, 1)
                                       : DWEXPR_OK;
    *address = ended.value;
    return code != DWEXPR_OK;
}

int main(void)
{
    unsigned first = 0, second = 0, third = 0;
    operations();
    tables();
    times();
    bounds();
    for (int depth = 0; depth < 20; depth++) {
        struct nested outermost = {depth, 1000};
        uint64_t address = 0;
        check(run_nested(&outermost, &address) == 0 && address == 1000 + 4 * (uint64_t)depth, "runs within runs", "it");
    }
    check(sscanf(dwexpr_version(), "%u.%u.%u", &first, &second, &third) == 3 &&
              DWEXPR_VERSION_NUMBER == 10000 * first + 100 * second + third,
          "the version", "its number");
    return finish();
}
