/* The driver of dwexpr_run.h. */
#include "dwexpr_run.h"

const char *dwexpr_version(void)
{
    return DWEXPR_VERSION;
}

/* Writes the answer to the outcome's request. Returns 0, or the number with which a callback refused. */
static int answer_request(const dwexpr_outcome *asked, const dwexpr_texts *texts, const dwexpr_callbacks *calls,
                          void *context, dwexpr_answer *answer, dwexpr_text *called)
{
    uint64_t *number = &answer->number;
    dwexpr_text block;
    answer->value_type = asked->base_type ? DWEXPR_NO_TYPE : DWEXPR_GENERIC;
    if (asked->base_type) {
        int failed = calls->base_type ? calls->base_type(context, asked->base_type, &answer->value_type) : -1;
        if (failed || answer->value_type == DWEXPR_NO_TYPE)
            return failed ? failed : -1;
    }
    switch (asked->request) {
    case DWEXPR_WANTS_MEMORY:
        answer->kind = DWEXPR_ANSWER_MEMORY;
        return calls->memory ? calls->memory(context, asked->number, asked->size,
                                             asked->flag ? &asked->space : NULL, number)
                             : -1;
    case DWEXPR_WANTS_REGISTER:
        answer->kind = DWEXPR_ANSWER_REGISTER;
        return calls->register_content ? calls->register_content(context, asked->register_number, number) : -1;
    case DWEXPR_WANTS_FRAME_BASE:
        answer->kind = DWEXPR_ANSWER_FRAME_BASE;
        return calls->frame_base ? calls->frame_base(context, number) : -1;
    case DWEXPR_WANTS_TLS:
        answer->kind = DWEXPR_ANSWER_TLS;
        return calls->tls ? calls->tls(context, asked->number, number) : -1;
    case DWEXPR_WANTS_CFA:
        answer->kind = DWEXPR_ANSWER_CFA;
        return calls->cfa ? calls->cfa(context, number) : -1;
    case DWEXPR_WANTS_LOCATION:
        answer->kind = DWEXPR_ANSWER_LOCATION;
        called->bytes = NULL;
        called->length = 0;
        return calls->location ? calls->location(context, asked->flag != 0, asked->number, called) : -1;
    case DWEXPR_WANTS_ENTRY_VALUE:
        answer->kind = DWEXPR_ANSWER_ENTRY_VALUE;
        block = dwexpr_outcome_block(asked, texts->items, texts->length);
        return calls->entry_value ? calls->entry_value(context, block.bytes, block.length, number) : -1;
    case DWEXPR_WANTS_PARAMETER:
        answer->kind = DWEXPR_ANSWER_PARAMETER;
        return calls->parameter ? calls->parameter(context, asked->number, number) : -1;
    case DWEXPR_WANTS_RELOCATED:
        answer->kind = DWEXPR_ANSWER_RELOCATED;
        *number = asked->number;
        return calls->relocated ? calls->relocated(context, asked->number, number) : 0;
    case DWEXPR_WANTS_INDEXED:
        answer->kind = DWEXPR_ANSWER_INDEXED;
        return calls->indexed ? calls->indexed(context, asked->number, asked->flag != 0, number) : -1;
    case DWEXPR_WANTS_BASE_TYPE:
        answer->kind = DWEXPR_ANSWER_BASE_TYPE;
        return 0;
    case DWEXPR_WANTS_WASM_LOCAL: case DWEXPR_WANTS_WASM_GLOBAL: case DWEXPR_WANTS_WASM_STACK:
        answer->kind = DWEXPR_ANSWER_WASM;
        return calls->wasm ? calls->wasm(context, asked->request, asked->number, &answer->value_type, number) : -1;
    default: return -1; /* there is no such request */
    }
}

/* The index of a text in the table. A text that isn't there is added; if there is no room, this returns the table's
 * room. While there is room, only the last texts are compared, so that a call doesn't take longer the more texts
 * there are. */
static size_t index_of(dwexpr_texts *texts, dwexpr_text called)
{
    const int has_room = texts->length < texts->room;
    const size_t end = has_room && texts->length > DWEXPR_RUN_RECENT ? texts->length - DWEXPR_RUN_RECENT : 0;
    size_t i;
    for (i = texts->length; i > end; i--)
        if (texts->items[i - 1].bytes == called.bytes && texts->items[i - 1].length == called.length)
            return i - 1;
    if (!has_room)
        return texts->room;
    texts->items[texts->length] = called;
    return texts->length++;
}

uint32_t dwexpr_run_in(dwexpr_evaluation *evaluation, const dwexpr_settings *settings, dwexpr_text text,
                       dwexpr_encoding encoding, const dwexpr_callbacks *calls, void *context, int *refusal,
                       dwexpr_texts *texts, dwexpr_outcome *outcome, dwexpr_piece *pieces, size_t pieces_length)
{
    uint32_t code;
    texts->items[0] = text;
    texts->length = 1;
    code = dwexpr_evaluation_evaluate(evaluation, texts->items, 1, encoding, settings, outcome, pieces, pieces_length);
    while (code == DWEXPR_OK && outcome->request != DWEXPR_COMPLETE) {
        /* 0, and not the previous answer, if a callback writes none */
        dwexpr_answer answer = {0};
        dwexpr_text called;
        int refused = answer_request(outcome, texts, calls, context, &answer, &called);
        if (refused) {
            if (refusal)
                *refusal = refused;
            return DWEXPR_REFUSED;
        }
        if (answer.kind == DWEXPR_ANSWER_LOCATION) {
            answer.text = index_of(texts, called);
            if (answer.text == texts->room)
                return DWEXPR_TOO_MANY_TEXTS;
        }
        code = dwexpr_evaluation_resume(evaluation, texts->items, texts->length, answer, outcome, pieces,
                                        pieces_length);
    }
    return code;
}

uint32_t dwexpr_run(dwexpr_text text, dwexpr_encoding encoding, const dwexpr_callbacks *calls, void *context,
                    int *refusal, dwexpr_texts *texts, dwexpr_outcome *outcome, dwexpr_piece *pieces,
                    size_t pieces_length)
{
    const dwexpr_settings settings = {.max_iterations = DWEXPR_RUN_OPERATIONS};
    uint64_t memory[DWEXPR_EVALUATION_SIZE / 8];
    dwexpr_evaluation evaluation;
    evaluation.memory = memory;
    dwexpr_evaluation_begin(&evaluation);
    return dwexpr_run_in(&evaluation, &settings, text, encoding, calls, context, refusal, texts, outcome, pieces,
                         pieces_length);
}
