/* The workloads of beside_gimli.rs in C: decoding, evaluating in one evaluation that is held for all expressions, and
 * dwexpr_run. Requests get the answers that rust/benches/beside_gimli.rs gives. */
#include "dwexpr_run.h"

enum { CONTENT = 0x1234, ADDRESS = 0x7000 };

/* The number of operations before the end or the first fault. */
uint64_t bench_decode(const uint8_t *bytes, size_t length, dwexpr_encoding encoding)
{
    dwexpr_operation operation;
    uint64_t count = 0;
    for (size_t at = 0; at < length; at += operation.size, count++)
        if (dwexpr_decode(bytes, length, encoding, at, &operation) != DWEXPR_OK)
            break;
    return count;
}

static dwexpr_answer answer_to(const dwexpr_outcome *asked)
{
    dwexpr_answer answer = {.value_type = DWEXPR_GENERIC, .number = ADDRESS, .text = 1};
    switch (asked->request) {
    case DWEXPR_WANTS_MEMORY: answer.kind = DWEXPR_ANSWER_MEMORY, answer.number = CONTENT; break;
    case DWEXPR_WANTS_REGISTER: answer.kind = DWEXPR_ANSWER_REGISTER, answer.number = CONTENT; break;
    case DWEXPR_WANTS_FRAME_BASE: answer.kind = DWEXPR_ANSWER_FRAME_BASE; break;
    case DWEXPR_WANTS_TLS: answer.kind = DWEXPR_ANSWER_TLS; break;
    case DWEXPR_WANTS_CFA: answer.kind = DWEXPR_ANSWER_CFA; break;
    case DWEXPR_WANTS_LOCATION: answer.kind = DWEXPR_ANSWER_LOCATION; break;
    case DWEXPR_WANTS_ENTRY_VALUE: answer.kind = DWEXPR_ANSWER_ENTRY_VALUE, answer.number = CONTENT; break;
    case DWEXPR_WANTS_PARAMETER: answer.kind = DWEXPR_ANSWER_PARAMETER; break;
    case DWEXPR_WANTS_RELOCATED: answer.kind = DWEXPR_ANSWER_RELOCATED, answer.number = asked->number; break;
    case DWEXPR_WANTS_INDEXED: answer.kind = DWEXPR_ANSWER_INDEXED; break;
    case DWEXPR_WANTS_BASE_TYPE: answer.kind = DWEXPR_ANSWER_BASE_TYPE; break;
    default: answer.kind = DWEXPR_ANSWER_WASM, answer.number = CONTENT;
    }
    return answer;
}

/* 1 plus the number of pieces, or 0 if the evaluation isn't complete. */
static uint64_t pieces_of(uint32_t code, const dwexpr_outcome *outcome)
{
    return code == DWEXPR_OK && outcome->request == DWEXPR_COMPLETE ? 1 + outcome->pieces : 0;
}

uint64_t bench_evaluate(const uint8_t *bytes, size_t length, dwexpr_encoding encoding)
{
    static uint64_t memory[DWEXPR_EVALUATION_SIZE / 8];
    static dwexpr_evaluation evaluation;
    /* the second one answers every call */
    const dwexpr_text texts[] = {{bytes, length}, {NULL, 0}};
    const dwexpr_settings settings = {.max_iterations = DWEXPR_RUN_OPERATIONS};
    dwexpr_outcome outcome;
    dwexpr_piece pieces[DWEXPR_MAX_PIECES];
    uint32_t code;
    if (!evaluation.memory) {
        evaluation.memory = memory;
        dwexpr_evaluation_begin(&evaluation);
    }
    code = dwexpr_evaluation_evaluate(&evaluation, texts, 2, encoding, &settings, &outcome, pieces, DWEXPR_MAX_PIECES);
    while (code == DWEXPR_OK && outcome.request != DWEXPR_COMPLETE)
        code = dwexpr_evaluation_resume(&evaluation, texts, 2, answer_to(&outcome), &outcome, pieces,
                                        DWEXPR_MAX_PIECES);
    return pieces_of(code, &outcome);
}

/* ---- callbacks */

static int memory_content(void *context, uint64_t address, uint32_t size, const uint64_t *space, uint64_t *content)
{
    (void)context, (void)address, (void)size, (void)space;
    *content = CONTENT;
    return 0;
}

static int register_content(void *context, uint32_t number, uint64_t *content)
{
    (void)context, (void)number;
    *content = CONTENT;
    return 0;
}

static int address(void *context, uint64_t *answer)
{
    (void)context;
    *answer = ADDRESS;
    return 0;
}

static int address_at(void *context, uint64_t offset, uint64_t *answer)
{
    (void)context, (void)offset;
    *answer = ADDRESS;
    return 0;
}

static int no_text(void *context, int in_debug_info, uint64_t offset, dwexpr_text *text)
{
    (void)context, (void)in_debug_info, (void)offset, (void)text;
    return 0;
}

static int entry_value(void *context, const uint8_t *bytes, size_t length, uint64_t *content)
{
    (void)context, (void)bytes, (void)length;
    *content = CONTENT;
    return 0;
}

static int indexed(void *context, uint64_t index, int relocate, uint64_t *answer)
{
    (void)context, (void)index, (void)relocate;
    *answer = ADDRESS;
    return 0;
}

static int base_type(void *context, uint64_t offset, uint32_t *value_type)
{
    (void)context, (void)offset;
    *value_type = DWEXPR_GENERIC;
    return 0;
}

static int wasm(void *context, uint32_t request, uint64_t index, uint32_t *value_type, uint64_t *content)
{
    (void)context, (void)request, (void)index, (void)value_type;
    *content = CONTENT;
    return 0;
}

uint64_t bench_run(const uint8_t *bytes, size_t length, dwexpr_encoding encoding)
{
    static const dwexpr_callbacks calls = {memory_content, register_content, address, address, address_at, entry_value,
                                           no_text, address_at, NULL, indexed, base_type, wasm};
    const dwexpr_text text = {bytes, length};
    dwexpr_text items[4];
    dwexpr_texts texts = {items, 4, 0};
    dwexpr_outcome outcome;
    dwexpr_piece pieces[DWEXPR_MAX_PIECES];
    return pieces_of(dwexpr_run(text, encoding, &calls, NULL, NULL, &texts, &outcome, pieces, DWEXPR_MAX_PIECES),
                     &outcome);
}
