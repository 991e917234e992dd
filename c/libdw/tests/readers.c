/* Two threads that read values of a stopped process at once: words of the stack.
 *
 *     readers PID */
#include <dwarf.h>
#include <pthread.h>

#include "check.h"
#include "dwexpr_libdw.h"

enum { RSP = 7 };

/* A variable that a thread reads again and again. */
struct reader {
    dwexpr_libdw_frame *frame;
    dwexpr_libdw_value *value;
    uint64_t wanted;
    unsigned wrong;
};

static void *read_often(void *given)
{
    struct reader *reader = (struct reader *)given;
    unsigned i;
    for (i = 0; i < 20000; i++) {
        uint64_t got = 0;
        reader->wrong += dwexpr_libdw_read(reader->frame, reader->value, 64, (uint8_t *)&got, NULL) ||
                         got != reader->wanted;
    }
    return NULL;
}

static void check_readers(dwexpr_libdw_frame *frame)
{
    struct reader readers[2];
    pthread_t threads[2];
    uint8_t i;
    for (i = 0; i < 2; i++) {
        const uint8_t bytes[] = {DW_OP_breg0 + RSP, (uint8_t)(8 * i + 8)};
        const dwexpr_libdw_text text = {.text = {bytes, sizeof bytes}, .encoding = LE8};
        readers[i].frame = frame;
        readers[i].wrong = 0;
        dwexpr_libdw_evaluate(frame, &text, NULL, NULL, &readers[i].value);
        dwexpr_libdw_read(frame, readers[i].value, 64, (uint8_t *)&readers[i].wanted, NULL);
    }
    check(readers[0].wanted != readers[1].wanted, "two words", "they differ");
    for (i = 0; i < 2; i++)
        pthread_create(&threads[i], NULL, read_often, &readers[i]);
    for (i = 0; i < 2; i++) {
        pthread_join(threads[i], NULL);
        check(!readers[i].wrong, "two threads that read", "no wrong word");
        dwexpr_libdw_release(readers[i].value);
    }
}

int main(int argc, char **argv)
{
    dwexpr_libdw_target *target;
    dwexpr_libdw_stack *stack;
    const pid_t *threads;
    if (argc != 2 || dwexpr_libdw_open_process((pid_t)atol(argv[1]), NULL, &target))
        return 2;
    dwexpr_libdw_threads(target, &threads);
    check(!dwexpr_libdw_unwind(target, threads[0], 1000, &stack), "a thread", "its frames");
    check_readers(dwexpr_libdw_frame_at(stack, 0));
    dwexpr_libdw_free_stack(stack);
    dwexpr_libdw_close(target);
    return finish();
}
