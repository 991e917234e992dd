/* The frames of a core dump. */
#ifndef WALK_H
#define WALK_H

#include <dwarf.h>

#include "check.h"
#include "dwexpr_libdw.h"

/* Reads up to `most` frames of each thread of a core dump. Returns how many calls had no memory. */
static inline size_t read_core(const char *path, size_t most, void (*read)(dwexpr_libdw_frame *frame, size_t index))
{
    dwexpr_libdw_target *target;
    const pid_t *threads;
    size_t without_memory = dwexpr_libdw_open_core(path, NULL, ":/usr/lib/debug", &target) == DWEXPR_LIBDW_NO_MEMORY;
    size_t i, j;
    for (i = 0; target && i < dwexpr_libdw_threads(target, &threads); i++) {
        dwexpr_libdw_stack *stack;
        dwexpr_libdw_frame *frame;
        without_memory += dwexpr_libdw_unwind(target, threads[i], 256, &stack) == DWEXPR_LIBDW_NO_MEMORY;
        if (stack)
            without_memory += dwexpr_libdw_add_tail_calls(stack) == DWEXPR_LIBDW_NO_MEMORY;
        for (j = 0; j < most && (frame = dwexpr_libdw_frame_at(stack, j)) != NULL; j++)
            read(frame, j);
        dwexpr_libdw_free_stack(stack);
    }
    dwexpr_libdw_close(target);
    return without_memory;
}

#endif
