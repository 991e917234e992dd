/* Decodes and evaluates made-up expressions, and each front of those in files of rows:
 *
 *     made_up COUNT SEED FILE..
 *
 * A seed other than 0 makes up other cases. Arguments and results lie right before memory that can't be touched. One
 * evaluation is used for all expressions, and goes on after each answer; it has to write what a new evaluation writes
 * after all answers so far, and what dwexpr_run_in does with callbacks that give them. Each operation is within its
 * text, each block is where it was read, and an evaluation asks no more often than it may count operations.
 *
 * With BESIDE, the new evaluation is one of another library: the proved archive, whose calls are named
 * `proved_dwexpr_*` then. Only here two libraries take texts that are lost, arguments that aren't allowed, and too
 * little room for pieces: the Rust crate, which program/tests/archive compares with the archive, has none of these. */
#define _DEFAULT_SOURCE
#include <sys/mman.h>

#include "dwexpr_run.h"
#include "rows.h"

#ifdef BESIDE
#define OTHER(call) proved_##call
#define DECLARE(call) extern __typeof__(call) proved_##call
DECLARE(dwexpr_decode);
DECLARE(dwexpr_evaluation_begin);
DECLARE(dwexpr_evaluation_evaluate);
DECLARE(dwexpr_evaluation_resume);
#else
#define OTHER(call) call
#endif

enum { TEXTS = 4, BYTES = 160, LONGEST = 40, ANSWERS = 8, PAGE = 4096 };

/* ---- what is made up */

static uint64_t below(uint64_t limit)
{
    return any() % limit;
}

/* A number of any width, perhaps below 0. */
static uint64_t any_number(void)
{
    const uint64_t number = below(8) ? any() >> below(64) : 0;
    return below(3) ? number : 0 - number;
}

/* Mostly a good encoding. */
static dwexpr_encoding any_encoding(void)
{
    dwexpr_encoding encoding = encoding_of(below(3) ? 8 : 1 + (int)below(8), below(2) ? 4 : 8, 2 + (int)below(4),
                                           (int)below(2));
    if (!below(50))
        *(below(2) ? &encoding.address_size : &encoding.version) = (uint8_t)below(12);
    return encoding;
}

/* Writes up to `count` operations, and returns how many bytes they have. */
static size_t put_operations(uint8_t *bytes, uint64_t count, dwexpr_encoding encoding)
{
    /* The first of some opcodes, and how many: all, literals, constants and operators, and those with operands. */
    static const uint8_t opcodes[][2] = {{0, 255}, {0x30, 32}, {0x08, 40}, {0x12, 29}, {0x90, 26}, {0x90, 26},
                                         {0x93, 13}, {0x9b, 15}, {0xed, 17}};
    const uint8_t *const mostly = opcodes[below(COUNT(opcodes))];
    size_t length = 0;
    for (; count && length + LONGEST < BYTES; count--) {
        const uint8_t *among = below(3) ? mostly : opcodes[below(COUNT(opcodes))];
        const size_t leb128 = below(8) ? 0 : (size_t)below(12);
        dwexpr_operation operation;
        bytes[length] = (uint8_t)(among[0] + below(among[1]));
        for (size_t i = 1; i < LONGEST; i++)
            bytes[length + i] = (uint8_t)(i < leb128 ? any() | 128 : below(2) ? below(9) : below(4) ? any() : 255);
        dwexpr_decode(bytes, length + LONGEST, encoding, length, &operation);
        length += operation.size ? operation.size : (size_t)below(12);
    }
    return length;
}

/* ---- what is tried */

/* Memory right before a page that can't be touched. */
static void *guarded(size_t size)
{
    uint8_t *pages = mmap(NULL, 3 * PAGE, PROT_READ | PROT_WRITE, MAP_PRIVATE | MAP_ANONYMOUS, -1, 0);
    if (pages == MAP_FAILED || mprotect(pages + 2 * PAGE, PAGE, PROT_NONE)) {
        perror("made_up");
        exit(2);
    }
    return pages + 2 * PAGE - size;
}

static dwexpr_encoding encoding;
static dwexpr_settings *settings;
static dwexpr_text *texts;
static dwexpr_evaluation held;
static dwexpr_operation *operation, other_operation;
static dwexpr_outcome *outcome, other;
static dwexpr_piece *pieces, *pieces_end, other_pieces[DWEXPR_MAX_PIECES];
static size_t room;
static uint8_t *ends_of_texts[TEXTS];

static struct step {
    dwexpr_answer answer;
    size_t texts;
} steps[ANSWERS];

/* How often each code, kind of operation, request and kind of piece came up. */
static unsigned long codes[80], kinds[64], requests[16], places[8];

/* Whether each operation is decoded alike, and within the text. */
static int decodes(void)
{
    const dwexpr_text text = texts[0];
    uint32_t code = DWEXPR_OK;
    for (size_t at = 0; code == DWEXPR_OK && at <= text.length; at += operation->size) {
        memset(operation, (int)any(), sizeof *operation);
        code = dwexpr_decode(text.bytes, text.length, encoding, at, operation);
        if (OTHER(dwexpr_decode)(text.bytes, text.length, encoding, at, &other_operation) != code ||
            memcmp(operation, &other_operation, sizeof other_operation) ||
            bad_operation(operation, code, text.length))
            return 0;
        codes[code % COUNT(codes)]++;
        kinds[operation->kind % COUNT(kinds)]++;
    }
    return 1;
}

/* Evaluates the expression anew, with some of the answers. */
static uint32_t evaluate_anew(size_t count)
{
    static uint64_t memory[DWEXPR_EVALUATION_SIZE / 8];
    dwexpr_evaluation evaluation = {memory};
    uint32_t code;
    OTHER(dwexpr_evaluation_begin)(&evaluation);
    code = OTHER(dwexpr_evaluation_evaluate)(&evaluation, texts, TEXTS, encoding, settings, &other, other_pieces, room);
    for (size_t i = 0; i < count; i++) {
        memset(other_pieces, 0xa5, sizeof other_pieces);
        code = OTHER(dwexpr_evaluation_resume)(&evaluation, texts, steps[i].texts, steps[i].answer, &other,
                                               other_pieces, room);
    }
    return code;
}

/* Whether a block ends an operation of this kind in its text. The same bytes may be elsewhere, too. */
static int is_block_of(uint32_t kind, size_t text, size_t offset, size_t length)
{
    dwexpr_operation at_end;
    for (size_t at = offset > 12 ? offset - 12 : 0; text < TEXTS && at < offset; at++)
        if (dwexpr_decode(texts[text].bytes, texts[text].length, encoding, at, &at_end) == DWEXPR_OK &&
            at_end.kind == kind && at_end.block_length == length && at + at_end.size == offset + length)
            return 1;
    return 0;
}

/* Whether these bytes are a block of an operation of this kind, in any text. */
static int is_block_anywhere(uint32_t kind, dwexpr_text block)
{
    dwexpr_operation found;
    for (size_t text = 0; text < TEXTS; text++)
        for (size_t at = 0; at < texts[text].length; at++)
            if (dwexpr_decode(texts[text].bytes, texts[text].length, encoding, at, &found) == DWEXPR_OK &&
                found.kind == kind && found.block_length == block.length &&
                (!block.length || !memcmp(texts[text].bytes + found.block_offset, block.bytes, block.length)))
                return 1;
    return 0;
}

/* Whether the last call led to what a new evaluation leads to, with blocks where they were read. If their text is lost,
 * the same bytes may be found elsewhere. */
static int is_as_anew(uint32_t code, size_t count)
{
    const int is_lost = count && steps[count - 1].texts < TEXTS;
    const int is_same = evaluate_anew(count) == code && code == outcome->code && same_outcome(outcome, &other) &&
                        same_pieces(pieces, other_pieces, room);
    int is_right = outcome->request != DWEXPR_WANTS_ENTRY_VALUE ||
                   is_block_of(DWEXPR_OP_ENTRY_VALUE, outcome->block_text, outcome->block_offset,
                               outcome->block_length) ||
                   (is_lost && is_block_anywhere(DWEXPR_OP_ENTRY_VALUE, dwexpr_outcome_block(outcome, texts, TEXTS)));
    codes[code % COUNT(codes)]++;
    requests[outcome->request % COUNT(requests)]++;
    for (size_t i = 0; i < outcome->pieces && i < room; i++) {
        places[pieces[i].kind % COUNT(places)]++;
        is_right &= pieces[i].kind != DWEXPR_HOLDS_BYTES ||
                    is_block_of(DWEXPR_OP_IMPLICIT_VALUE, pieces[i].block_text, pieces[i].block_offset,
                                pieces[i].block_length) ||
                    (is_lost &&
                     is_block_anywhere(DWEXPR_OP_IMPLICIT_VALUE, dwexpr_piece_block(&pieces[i], texts, TEXTS)));
    }
    return is_same && is_right;
}

/* An answer to the open request or to any other. */
static dwexpr_answer any_answer(void)
{
    return (dwexpr_answer){below(16) ? answer_of(outcome->request) : (uint32_t)below(14),
                           below(4) ? DWEXPR_GENERIC : (uint32_t)below(11), below(4) ? any_number() : outcome->number,
                           (size_t)below(TEXTS + 1)};
}

/* ---- by callbacks */

/* The answers that the held evaluation took, and the outcome of the call with callbacks. */
static dwexpr_answer taken[ANSWERS];
static size_t takes, given;
static dwexpr_outcome driven;
static dwexpr_text items[TEXTS + 1];
static int is_wrong, refusal_wanted;

/* How the callback for the request that is still open refuses, or, if it is that for a type, whether it refuses. */
static enum { REFUSES, WRITES_AND_REFUSES, WRITES_NOTHING, ANSWERS_TYPES } manner;

/* The largest numbers that callbacks were given: registers without a type and with one, spaces; and the least size. */
static uint32_t largest_register[2], least_size = 9;
static uint64_t largest_space;

static void note(void)
{
    uint32_t *largest = &largest_register[driven.base_type != 0];
    *largest = driven.register_number > *largest ? driven.register_number : *largest;
    largest_space = driven.space > largest_space ? driven.space : largest_space;
    least_size = driven.request == DWEXPR_WANTS_MEMORY && driven.size < least_size ? driven.size : least_size;
}

/* Answers as before, and refuses then. A callback may write nothing in place of 0, no bytes, the address that was
 * given, and the generic type. */
static int give(int is_right, uint64_t *number, uint32_t *value_type, dwexpr_text *text)
{
    const dwexpr_answer answer = given < takes ? taken[given] : (dwexpr_answer){0, DWEXPR_U8, 99, 0};
    is_wrong |= !is_right;
    note();
    if (given++ == takes && manner == REFUSES)
        return refusal_wanted;
    if (number && answer.number != (driven.request == DWEXPR_WANTS_RELOCATED ? driven.number : 0))
        *number = answer.number;
    if (value_type && (driven.base_type || answer.value_type != DWEXPR_GENERIC))
        *value_type = answer.value_type;
    if (text && texts[answer.text].length)
        *text = texts[answer.text];
    return given > takes ? refusal_wanted : 0;
}

/* A callback for a request, with what the outcome has to say about the callback's arguments. */
#define GIVE(name, wants, arguments, is_right, number, value_type, text)                                               \
    static int give_##name arguments                                                                                   \
    {                                                                                                                  \
        return give(context == items && driven.request == DWEXPR_WANTS_##wants && (is_right), number, value_type,      \
                    text);                                                                                             \
    }

GIVE(memory, MEMORY, (void *context, uint64_t at, uint32_t size, const uint64_t *space, uint64_t *content),
     at == driven.number && size == driven.size && (driven.flag ? space && *space == driven.space : !space), content,
     NULL, NULL)
GIVE(register, REGISTER, (void *context, uint32_t number, uint64_t *content), number == driven.register_number, content,
     NULL, NULL)
GIVE(frame_base, FRAME_BASE, (void *context, uint64_t *address), 1, address, NULL, NULL)
GIVE(cfa, CFA, (void *context, uint64_t *address), 1, address, NULL, NULL)
GIVE(tls, TLS, (void *context, uint64_t offset, uint64_t *address), offset == driven.number, address, NULL, NULL)
GIVE(entry_value, ENTRY_VALUE, (void *context, const uint8_t *bytes, size_t length, uint64_t *content),
     length == driven.block_length && (!length || bytes == items[driven.block_text].bytes + driven.block_offset),
     content, NULL, NULL)
GIVE(location, LOCATION, (void *context, int in_debug_info, uint64_t offset, dwexpr_text *text),
     offset == driven.number && !in_debug_info == !driven.flag, NULL, NULL, text)
GIVE(parameter, PARAMETER, (void *context, uint64_t offset, uint64_t *value), offset == driven.number, value, NULL,
     NULL)
GIVE(relocated, RELOCATED, (void *context, uint64_t address, uint64_t *relocated), address == driven.number, relocated,
     NULL, NULL)
GIVE(indexed, INDEXED, (void *context, uint64_t index, int relocate, uint64_t *address),
     index == driven.number && !relocate == !driven.flag, address, NULL, NULL)
GIVE(own_type, BASE_TYPE, (void *context, uint64_t offset, uint32_t *type), offset == driven.base_type, NULL, type,
     NULL)

static int give_wasm(void *context, uint32_t request, uint64_t index, uint32_t *value_type, uint64_t *content)
{
    return give(context == items && request == driven.request && request >= DWEXPR_WANTS_WASM_LOCAL &&
                    index == driven.number,
                content, value_type, NULL);
}

/* The type of a value that is asked for next, or a type that is asked for by itself. */
static int give_type(void *context, uint64_t offset, uint32_t *value_type)
{
    const int is_last = given == takes;
    is_wrong |= context != items || offset != driven.base_type || !offset;
    if (is_last && manner == WRITES_NOTHING) {
        refusal_wanted = -1;
        return 0;
    }
    if (driven.request == DWEXPR_WANTS_BASE_TYPE)
        return give_own_type(context, offset, value_type);
    if (!is_last || manner != REFUSES)
        *value_type = is_last ? DWEXPR_U8 : taken[given].value_type;
    return is_last && manner != ANSWERS_TYPES ? refusal_wanted : 0;
}

static const dwexpr_callbacks types = {.base_type = give_type}, all = {
    .memory = give_memory, .register_content = give_register, .frame_base = give_frame_base, .cfa = give_cfa,
    .tls = give_tls, .entry_value = give_entry_value, .location = give_location, .parameter = give_parameter,
    .relocated = give_relocated, .indexed = give_indexed, .base_type = give_type, .wasm = give_wasm,
};

/* Whether two blocks in different tables are the same bytes. */
static int is_same_block(dwexpr_text one, dwexpr_text two)
{
    return one.bytes == two.bytes && one.length == two.length;
}

/* Whether the call with callbacks leads to what the held evaluation led to. The callbacks give the answers that it
 * took, and refuse to answer a request that it has open. */
static int is_driven(void)
{
    static uint64_t memory[DWEXPR_EVALUATION_SIZE / 8];
    static dwexpr_evaluation evaluation;
    static dwexpr_piece got[DWEXPR_MAX_PIECES];
    dwexpr_texts table = {items, COUNT(items), 0};
    const int is_open = outcome->request > DWEXPR_COMPLETE;
    const int is_alone = !takes && is_open && outcome->request != DWEXPR_WANTS_RELOCATED && !below(8);
    int refusal = 0;
    uint32_t code;
    if (!evaluation.memory) {
        evaluation.memory = memory;
        dwexpr_evaluation_begin(&evaluation);
    }
    manner = (unsigned)below(4);
    given = 0, is_wrong = 0;
    refusal_wanted = is_alone ? -1 : (int)any() | 1;
    code = dwexpr_run_in(&evaluation, settings, texts[0], encoding, is_alone ? &types : &all, items, &refusal, &table,
                         &driven, got, room);
    if (is_wrong || (is_open ? code != DWEXPR_REFUSED || refusal != refusal_wanted : code != outcome->code) ||
        !is_same_block(dwexpr_outcome_block(outcome, texts, TEXTS), dwexpr_outcome_block(&driven, items, table.length)))
        return 0;
    driven.block_text = outcome->block_text;
    for (size_t i = 0; i < outcome->pieces && i < room; i++) {
        if (!is_same_block(dwexpr_piece_block(&pieces[i], texts, TEXTS),
                           dwexpr_piece_block(&got[i], items, table.length)))
            return 0;
        got[i].block_text = pieces[i].block_text;
        if (!same_pieces(&pieces[i], &got[i], 1))
            return 0;
    }
    return same_outcome(outcome, &driven);
}

/* ---- evaluations */

static int evaluates(void)
{
    uint32_t code;
    int is_fit;
    *settings = (dwexpr_settings){(uint32_t)below(below(2) ? 8 : 400), below(3) ? 0 : (uint16_t)any(),
                                  below(3) ? 0 : (uint16_t)any(), any_number(), any_number()};
    room = (size_t)below(below(2) ? 5 : DWEXPR_MAX_PIECES + 1);
    pieces = pieces_end - room;
    takes = 0;
    memset(pieces, 0xa5, room * sizeof *pieces);
    memset(other_pieces, 0xa5, sizeof other_pieces);
    code = dwexpr_evaluation_evaluate(&held, texts, TEXTS, encoding, settings, outcome, pieces, room);
    is_fit = code < DWEXPR_BAD_ENCODING;
    for (size_t count = 0; is_as_anew(code, count); count++) {
        const dwexpr_outcome asked = *outcome;
        const int is_open = asked.request > DWEXPR_COMPLETE;
        /* no callback is asked for the type 0, and none gives a value of a type that isn't asked for */
        const int is_answered = asked.request == DWEXPR_WANTS_BASE_TYPE && !asked.base_type;
        const int is_generic = !asked.base_type && asked.request < DWEXPR_WANTS_WASM_LOCAL;
        const struct step step = {any_answer(), below(24) ? TEXTS : (size_t)below(TEXTS)};
        if (takes > settings->max_iterations || (is_fit && !is_answered && !is_driven()))
            return 0;
        if (count == ANSWERS || code == DWEXPR_BAD_ENCODING || (!is_open && below(4)))
            return 1;
        steps[count] = step;
        memset(pieces, 0xa5, room * sizeof *pieces);
        code = dwexpr_evaluation_resume(&held, texts, step.texts, step.answer, outcome, pieces, room);
        if (is_open && !is_answered && code < DWEXPR_BAD_ENCODING)
            taken[takes++] = step.answer;
        is_fit &= step.texts == TEXTS && code < DWEXPR_BAD_ENCODING &&
                  (!is_generic || step.answer.value_type == DWEXPR_GENERIC);
    }
    return 0;
}

/* ---- what is tried */

static size_t tried;

static void put_text(size_t text, const uint8_t *bytes, size_t length)
{
    texts[text].bytes = length ? memcpy(ends_of_texts[text] - length, bytes, length) : NULL;
    texts[text].length = length;
}

static void try(void)
{
    if (!decodes() || !evaluates()) {
        printf("the case %zu, in %u %u %u %u: ", tried, encoding.address_size, encoding.offset_size, encoding.version,
               encoding.big_endian);
        for (size_t at = 0; at < texts->length; at++)
            printf("%02x", texts->bytes[at]);
        check(0, "", "it differs or is out of bounds");
    }
    tried++;
}

static void try_made_up(void)
{
    uint8_t bytes[BYTES];
    size_t length = 0;
    encoding = any_encoding();
    for (size_t i = 0; i < TEXTS; i++) {
        if (!i || below(3))
            length = put_operations(bytes, below(below(8) ? 9 : 90), encoding);
        put_text(i, bytes, length);
    }
    try();
}

/* Tries each front of the expressions of rows and vectors. */
static size_t try_fronts(FILE *file)
{
    static char row[1 << 13], digits[LONGEST_TEXT];
    static uint8_t bytes[LONGEST_TEXT / 2];
    size_t count = 0;
    while (fgets(row, sizeof row, file)) {
        if (!read_expression(row, &encoding, digits) || strlen(digits) > PAGE)
            continue;
        for (size_t length = bytes_of(digits, bytes) + 1; length--;) {
            put_text(0, bytes, length);
            try();
        }
        count++;
    }
    fclose(file);
    return count;
}

static void met(const char *name, const unsigned long *counts, uint32_t first, uint32_t last)
{
    for (uint32_t i = first; i <= last; i++) {
        char number[40];
        snprintf(number, sizeof number, "%u comes up", (unsigned)i);
        check(counts[i] || (counts == codes && !dwexpr_code_name(i)), name, number);
    }
}

int main(int argc, char **argv)
{
    const unsigned long count = argc > 1 ? strtoul(argv[1], NULL, 10) : 0;
    const uint64_t seed = argc > 2 ? strtoull(argv[2], NULL, 0) : 0;
    size_t expressions = 0;
    made_up_state = seed ? seed : made_up_state;
    settings = guarded(sizeof *settings);
    texts = guarded(TEXTS * sizeof *texts);
    operation = guarded(sizeof *operation);
    outcome = guarded(sizeof *outcome);
    pieces_end = guarded(0);
    for (size_t i = 0; i < TEXTS; i++)
        ends_of_texts[i] = guarded(0);
    check(dwexpr_evaluation_size() <= DWEXPR_EVALUATION_SIZE &&
              (sizeof(size_t) == 4 || dwexpr_evaluation_size() + 512 > DWEXPR_EVALUATION_SIZE),
          "the size of an evaluation", "as the header says");
    held.memory = guarded(dwexpr_evaluation_size());
    dwexpr_evaluation_begin(&held);
    for (unsigned long i = 0; i < count; i++)
        try_made_up();
    for (int i = 3; i < argc; i++)
        expressions += try_fronts(opened(argv[i]));
    check(argc < 4 || expressions > 3000, "the expressions of the rows", "there are many");
    codes[DWEXPR_UNSUPPORTED_OFFSET] = 1;
    met("a code", codes, DWEXPR_OK, DWEXPR_LOST_TEXT);
    met("a kind", kinds, DWEXPR_OP_NONE, DWEXPR_OP_VARIABLE_VALUE);
    met("a request", requests, DWEXPR_NOTHING, DWEXPR_WANTS_WASM_STACK);
    met("a piece", places, DWEXPR_EMPTY, DWEXPR_POINTS_INTO);
    check(largest_register[0] > 0x8000 && largest_register[1] > 0x8000 && largest_space >> 63 && !least_size,
          "numbers of requests", "they are small and large");
    printf("%zu cases\n", tried);
    return finish();
}
