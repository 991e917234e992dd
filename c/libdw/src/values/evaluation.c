/* Expressions, evaluated in a frame. */
#include "values.h"

/* The most operations of an expression. */
#define OPERATIONS 100000

/* An evaluation. If it asks for a value on entry, it waits for an evaluation in the caller, which may wait in turn. So
 * values that go through many callers take no stack. */
struct job {
    struct job *waits; /* the one that waits for this one's number, or NULL */
    struct dwexpr_libdw_given given;
    dwexpr_libdw_value *value;
    dwexpr_answer answer;
    struct dwexpr_libdw_question question; /* in its frame */
    dwexpr_evaluation evaluation;
    uint64_t memory[DWEXPR_EVALUATION_SIZE / 8];
};

/* ---- jobs */

/* Begins an evaluation, for which the top job waits, as the top one. It keeps the expression's memory, or frees it if
 * the top job stays, as there can't be one more. */
static uint32_t begin(struct job **top, const struct dwexpr_libdw_given *given, dwexpr_libdw_text *expression)
{
    struct job *job = (struct job *)calloc(1, sizeof *job);
    dwexpr_libdw_value *value = (dwexpr_libdw_value *)calloc(1, sizeof *value);
    const dwexpr_settings settings = {.max_iterations = OPERATIONS,
                                      .has_object_address = given->object != NULL,
                                      .has_initial_value = given->initial != NULL,
                                      .object_address = given->object ? *given->object : 0,
                                      .initial_value = given->initial ? *given->initial : 0};
    if (!job || !value || !*given->left) {
        dwexpr_libdw_free_text(expression);
        free(job);
        free(value);
        return *given->left ? DWEXPR_LIBDW_NO_MEMORY : DWEXPR_LIBDW_TOO_MANY_EXPRESSIONS;
    }
    --*given->left;
    job->waits = *top;
    *top = job;
    job->given = *given;
    job->question.frame = given->frame;
    job->question.encoding = expression->encoding;
    job->value = value;
    value->unit = expression->unit;
    value->frame = given->frame;
    value->encoding = expression->encoding;
    value->texts[0] = expression->text;
    value->texts_length = 1;
    dwexpr_libdw_keep(expression, &value->memory);
    if (!value->texts[0].length)
        return DWEXPR_LIBDW_OPTIMIZED_AWAY;
    job->evaluation.memory = job->memory;
    dwexpr_evaluation_begin(&job->evaluation);
    return dwexpr_evaluation_evaluate(&job->evaluation, value->texts, 1, value->encoding, &settings, &value->outcome,
                                      value->pieces, DWEXPR_MAX_PIECES);
}

static uint32_t resume(struct job *job)
{
    dwexpr_libdw_value *value = job->value;
    return dwexpr_evaluation_resume(&job->evaluation, value->texts, value->texts_length, job->answer, &value->outcome,
                                    value->pieces, DWEXPR_MAX_PIECES);
}

/* The code of a job whose request can't be answered: `why` if a limit was reached, else the request. */
static uint32_t refused(const struct job *job, uint32_t why)
{
    const int is_limit = why == DWEXPR_LIBDW_NO_MEMORY || why == DWEXPR_LIBDW_TOO_MANY_EXPRESSIONS ||
                         why == DWEXPR_LIBDW_BAD_REGISTER || why == DWEXPR_TOO_MANY_TEXTS;
    return is_limit ? why : DWEXPR_LIBDW_WANTS + job->value->outcome.request;
}

/* ---- values on entry */

/* Begins the job that evaluates the attribute for a question of the top job, which a call with this code found. */
static uint32_t ask(struct job **top, uint32_t code, Dwarf_Attribute *attribute)
{
    const struct job *job = *top;
    const struct dwexpr_libdw_given given = {.frame = job->question.asked, .left = job->given.left};
    dwexpr_libdw_text expression;
    if (!code)
        code = dwexpr_libdw_expression_in(given.frame, attribute, &expression);
    if (!code)
        code = begin(top, &given, &expression);
    return *top == job ? refused(job, code) : code;
}

/* Ends the top job, and goes on with the one that has waited for its number. */
static uint32_t end(struct job **top, uint32_t code)
{
    struct job *ended = *top, *job = *top = ended->waits;
    Dwarf_Attribute attribute;
    uint64_t number;
    code = dwexpr_libdw_take_number(code, ended->value, &number);
    free(ended);
    if (code)
        return refused(job, code);
    if (job->question.waits_for_target)
        return ask(top, dwexpr_libdw_ask_target(&job->question, number, &attribute), &attribute);
    job->answer.number = number;
    return resume(job);
}

/* ---- requests */

/* What answers each request, and the last purpose for which it may be asked. WebAssembly isn't known here. */
static const struct {
    uint8_t answer, last_purpose;
} requests[] = {
    [DWEXPR_WANTS_MEMORY] = {DWEXPR_ANSWER_MEMORY, FOR_CFA},
    [DWEXPR_WANTS_REGISTER] = {DWEXPR_ANSWER_REGISTER, FOR_CFA},
    [DWEXPR_WANTS_FRAME_BASE] = {DWEXPR_ANSWER_FRAME_BASE, FOR_VALUE},
    [DWEXPR_WANTS_TLS] = {DWEXPR_ANSWER_TLS, FOR_VALUE},
    [DWEXPR_WANTS_CFA] = {DWEXPR_ANSWER_CFA, FOR_BASE},
    [DWEXPR_WANTS_LOCATION] = {DWEXPR_ANSWER_LOCATION, FOR_BASE},
    [DWEXPR_WANTS_ENTRY_VALUE] = {DWEXPR_ANSWER_ENTRY_VALUE, FOR_VALUE},
    [DWEXPR_WANTS_PARAMETER] = {DWEXPR_ANSWER_PARAMETER, FOR_VALUE},
    [DWEXPR_WANTS_RELOCATED] = {DWEXPR_ANSWER_RELOCATED, FOR_CFA},
    [DWEXPR_WANTS_INDEXED] = {DWEXPR_ANSWER_INDEXED, FOR_BASE},
    [DWEXPR_WANTS_BASE_TYPE] = {DWEXPR_ANSWER_BASE_TYPE, FOR_BASE},
};

/* Answers what the top job asks for and goes on with it, or begins the job for which it has to wait. */
static uint32_t answer(struct job **top)
{
    struct job *job = *top;
    const dwexpr_outcome *asked = &job->value->outcome;
    dwexpr_libdw_frame *frame = job->given.frame;
    Dwarf_CU *unit = job->value->unit;
    Dwarf_Attribute attribute;
    dwexpr_answer *answer = &job->answer;
    Dwfl_Module *module;
    Dwarf_Addr bias = 0;
    uint32_t why = 0;
    if (asked->request > DWEXPR_WANTS_BASE_TYPE || job->given.purpose > requests[asked->request].last_purpose)
        return refused(job, 0);
    memset(answer, 0, sizeof *answer);
    answer->kind = requests[asked->request].answer;
    answer->value_type = DWEXPR_GENERIC;
    if (asked->base_type)
        why = dwexpr_libdw_find_base_type(job->value, asked->base_type, &answer->value_type);
    if (why)
        return why;
    switch (asked->request) {
    case DWEXPR_WANTS_MEMORY: why = dwexpr_libdw_memory_number(job->value, &answer->number); break;
    case DWEXPR_WANTS_REGISTER:
        why = dwexpr_libdw_register_number(job->value, asked->register_number, &answer->number);
        break;
    case DWEXPR_WANTS_FRAME_BASE:
        why = dwexpr_libdw_find_base(frame, job->given.left);
        answer->number = frame->base;
        break;
    case DWEXPR_WANTS_CFA:
        why = dwexpr_libdw_find_cfa(frame, job->given.left);
        answer->number = frame->cfa;
        break;
    case DWEXPR_WANTS_TLS:
        why = dwexpr_libdw_find_module(frame, unit, &module, &bias);
        if (!why)
            why = dwexpr_libdw_find_tls(frame, module, asked->number, &answer->number);
        break;
    case DWEXPR_WANTS_LOCATION: why = dwexpr_libdw_find_location(frame, job->value, &answer->text); break;
    case DWEXPR_WANTS_RELOCATED:
        why = dwexpr_libdw_find_module(frame, unit, &module, &bias);
        answer->number = asked->number + bias;
        break;
    case DWEXPR_WANTS_INDEXED:
        why = dwexpr_libdw_find_indexed(job->value, &answer->number);
        if (!why && asked->flag)
            why = dwexpr_libdw_find_module(frame, unit, &module, &bias);
        answer->number += bias;
        break;
    case DWEXPR_WANTS_ENTRY_VALUE:
        job->question.place = dwexpr_outcome_block(asked, job->value->texts, job->value->texts_length);
        job->question.entry.addr = NULL;
        return ask(top, dwexpr_libdw_ask(&job->question, &attribute), &attribute);
    case DWEXPR_WANTS_PARAMETER:
        why = dwexpr_libdw_find_entry(unit, DW_OP_GNU_parameter_ref, asked->number, &job->question.entry)
                  ? dwexpr_libdw_ask(&job->question, &attribute)
                  : DWEXPR_LIBDW_FAILED;
        return ask(top, why, &attribute);
    default: break; /* a base type */
    }
    return why ? refused(job, why) : resume(job);
}

uint32_t dwexpr_libdw_evaluate_with(const struct dwexpr_libdw_given *given, dwexpr_libdw_text *expression,
                         dwexpr_libdw_value **value)
{
    struct dwexpr_libdw_given own = *given;
    uint32_t left = given->frame->limit, code;
    struct job *job = NULL;
    left += left < UINT32_MAX; /* this one isn't counted */
    own.left = given->left ? given->left : &left;
    code = begin(&job, &own, expression);
    while (job) {
        const int is_done = code || job->value->outcome.request == DWEXPR_COMPLETE;
        if (is_done && !job->waits)
            break;
        code = is_done ? end(&job, code) : answer(&job);
    }
    *value = job ? job->value : NULL;
    free(job);
    return code;
}

/* ---- calls */

void dwexpr_libdw_release(dwexpr_libdw_value *value)
{
    if (value)
        dwexpr_libdw_free_memory(value->memory);
    free(value);
}

uint32_t dwexpr_libdw_evaluate(dwexpr_libdw_frame *frame, const dwexpr_libdw_text *expression, const uint64_t *object,
                               const uint64_t *initial, dwexpr_libdw_value **value)
{
    const int takes_cfa = expression->on_cfa && !initial;
    const struct dwexpr_libdw_given given = {.frame = frame, .object = object,
                                             .initial = takes_cfa ? &frame->cfa : initial};
    dwexpr_libdw_text lent = *expression;
    lent.memory = NULL;
    *value = NULL;
    if (takes_cfa && dwexpr_libdw_find_cfa(frame, NULL))
        return DWEXPR_LIBDW_WANTS + DWEXPR_WANTS_CFA;
    return dwexpr_libdw_evaluate_with(&given, &lent, value);
}
