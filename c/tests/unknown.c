/* An unknown request is refused, and isn't taken for another one. The calls of dwexpr.h are stand-ins here, which make
 * requests of any number. */
#include "check.h"
#include "dwexpr_run.h"

#pragma GCC diagnostic ignored "-Wunused-parameter"

static uint32_t asked;
static int resumed, called;

void dwexpr_evaluation_begin(dwexpr_evaluation *evaluation)
{
}

uint32_t dwexpr_evaluation_evaluate(dwexpr_evaluation *evaluation, const dwexpr_text *texts, size_t texts_length,
                                    dwexpr_encoding encoding, const dwexpr_settings *settings, dwexpr_outcome *outcome,
                                    dwexpr_piece *pieces, size_t pieces_length)
{
    *outcome = (dwexpr_outcome){.request = asked};
    return DWEXPR_OK;
}

uint32_t dwexpr_evaluation_resume(dwexpr_evaluation *evaluation, const dwexpr_text *texts, size_t texts_length,
                                  dwexpr_answer answer, dwexpr_outcome *outcome, dwexpr_piece *pieces,
                                  size_t pieces_length)
{
    resumed++;
    outcome->request = DWEXPR_COMPLETE;
    return DWEXPR_OK;
}

static int give_wasm(void *context, uint32_t request, uint64_t index, uint32_t *value_type, uint64_t *content)
{
    called++;
    return 0;
}

int main(void)
{
    for (int i = 0; i < 1000 + 32; i++) {
        const dwexpr_callbacks calls = {.wasm = give_wasm};
        const dwexpr_text text = {NULL, 0};
        dwexpr_text items[2];
        dwexpr_texts texts = {items, 2, 0};
        dwexpr_outcome outcome;
        int refusal = 0;
        uint32_t code;
        char name[40];
        asked = i < 1000 ? (uint32_t)i : UINT32_MAX << (i - 1000);
        resumed = called = 0;
        snprintf(name, sizeof name, "request %u", (unsigned)asked);
        code = dwexpr_run(text, LE8, &calls, NULL, &refusal, &texts, &outcome, NULL, 0);
        if (asked >= DWEXPR_COMPLETE && asked <= DWEXPR_WANTS_WASM_STACK)
            check(called == (asked >= DWEXPR_WANTS_WASM_LOCAL), name, "who answers");
        else
            check(code == DWEXPR_REFUSED && refusal == -1 && !called && !resumed, name, "it is refused");
    }
    return finish();
}
