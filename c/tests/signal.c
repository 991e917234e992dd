/* An evaluation by callbacks in a signal handler, on a stack of 16 KiB. */
#define _DEFAULT_SOURCE
#include <signal.h>
#include <sys/mman.h>

#include "check.h"
#include "dwexpr_run.h"

enum { STACK = 16 * 1024, PAGE = 4096 };

static dwexpr_outcome outcome;
static dwexpr_text items[1];
static dwexpr_texts texts = {items, 1, 0};
static dwexpr_piece pieces[2];
static uint32_t result = 99;

static int give_register(void *context, uint32_t register_number, uint64_t *content)
{
    *content = *(uint64_t *)context + register_number;
    return 0;
}

static void on_signal(int number)
{
    static const uint8_t bytes[] = {0x77, 0x08, 0x93, 0x08, 0x51, 0x93, 0x08};
    static const dwexpr_callbacks calls = {.register_content = give_register};
    uint64_t context = 0x7000;
    (void)number;
    result = dwexpr_run((dwexpr_text){bytes, sizeof bytes}, LE8, &calls, &context, NULL, &texts, &outcome, pieces, 2);
}

int main(void)
{
    /* the page below the stack can't be touched */
    uint8_t *pages = mmap(NULL, STACK + PAGE, PROT_READ | PROT_WRITE, MAP_PRIVATE | MAP_ANONYMOUS, -1, 0);
    const stack_t stack = {.ss_sp = pages + PAGE, .ss_size = STACK};
    const struct sigaction action = {.sa_handler = on_signal, .sa_flags = SA_ONSTACK};
    if (pages == MAP_FAILED || mprotect(pages, PAGE, PROT_NONE))
        return 2;
    sigaltstack(&stack, NULL);
    sigaction(SIGUSR1, &action, NULL);
    raise(SIGUSR1);
    check(result == 0 && outcome.pieces == 2, "in a signal handler", "the result");
    check(pieces[0].kind == DWEXPR_AT_ADDRESS && pieces[0].number == 0x700f, "in a signal handler", "the first piece");
    check(pieces[1].kind == DWEXPR_IN_REGISTER && pieces[1].number == 1, "in a signal handler", "the second piece");
    return finish();
}
