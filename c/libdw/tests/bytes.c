/* Prints the variables of each thread and frame of a stopped process or a core dump as examples/where.c does, but each
 * as its bytes: `??` for one that isn't known, and a second number of the bits that aren't if only some are.
 *
 *     bytes PID    or    bytes CORE */
#include <dwarf.h>
#include <inttypes.h>
#include <stdio.h>
#include <stdlib.h>

#include "dwexpr_libdw.h"

static void print_bytes(dwexpr_libdw_frame *frame, Dwarf_Die *variable)
{
    static uint8_t bytes[4096], unknown[4096];
    dwexpr_libdw_object *object;
    uint64_t bits = 0, i;
    int is_known = 0;
    uint32_t code = dwexpr_libdw_object_of_variable(frame, variable, &object);
    if (!code)
        code = dwexpr_libdw_object_size(object, &bits);
    if (bits > 8 * sizeof bytes)
        bits = 8 * sizeof bytes;
    if (!code)
        code = dwexpr_libdw_object_read(object, bits, bytes, unknown);
    dwexpr_libdw_object_free(object);
    for (i = 0; i < bits / 8; i++)
        is_known |= unknown[i] != 0xff;
    printf("%s = ", dwarf_diename(variable));
    if (code && !is_known)
        printf("%s%s", code > DWEXPR_LIBDW_WANTS ? "unknown: " : "", dwexpr_libdw_code_name(code));
    for (i = 0; (!code || is_known) && i < bits / 8; i++)
        printf(!unknown[i] ? "%02x " : unknown[i] == 0xff ? "?? " : "%02x?%02x ", bytes[i], unknown[i]);
    printf("\n");
}

static void print_frame(size_t number, dwexpr_libdw_frame *frame)
{
    dwexpr_libdw_entry *entries;
    size_t count, i;
    printf("#%zu\n", number);
    dwexpr_libdw_variables(frame, &entries, &count);
    for (i = 0; i < count; i++) {
        const int tag = dwarf_tag(&entries[i].entry);
        if (tag == DW_TAG_subprogram || tag == DW_TAG_inlined_subroutine)
            printf("%s ?\n", entries[i].is_enclosing ? "within" : "in");
        else if (dwarf_diename(&entries[i].entry))
            print_bytes(frame, &entries[i].entry);
    }
    free(entries);
}

int main(int argc, char **argv)
{
    dwexpr_libdw_target *target;
    dwexpr_libdw_frame *frame;
    const pid_t *threads;
    size_t i, j;
    if (argc != 2)
        return 2;
    if (atol(argv[1]))
        dwexpr_libdw_open_process((pid_t)atol(argv[1]), NULL, &target);
    else
        dwexpr_libdw_open_core(argv[1], NULL, NULL, &target);
    for (i = 0; target && i < dwexpr_libdw_threads(target, &threads); i++) {
        dwexpr_libdw_stack *stack;
        printf("thread %ld\n", (long)threads[i]);
        dwexpr_libdw_unwind(target, threads[i], 100000, &stack);
        for (j = 0; (frame = dwexpr_libdw_frame_at(stack, j)) != NULL; j++)
            print_frame(j, frame);
        dwexpr_libdw_free_stack(stack);
    }
    dwexpr_libdw_close(target);
    return 0;
}
