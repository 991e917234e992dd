/* Prints an int of a stopped process, of the innermost frame with such a variable.
 *
 *     cc variable.c $(pkg-config --cflags --libs dwexpr-libdw) -o variable
 *     ./variable PID NAME [FOLDER]     FOLDER has debug information */
#include <dwarf.h>
#include <stdio.h>
#include <stdlib.h>
#include <string.h>

#include "dwexpr_libdw.h"

static void print_variable(dwexpr_libdw_frame *frame, Dwarf_Die *variable)
{
    dwexpr_libdw_value *value;
    int number;
    uint32_t code = dwexpr_libdw_variable(frame, variable, &value);
    if (!code)
        code = dwexpr_libdw_read(frame, value, 8 * sizeof number, (uint8_t *)&number, NULL);
    if (!code)
        printf("%s = %d\n", dwarf_diename(variable), number);
    else
        printf("%s: %s\n", dwarf_diename(variable), dwexpr_libdw_code_name(code));
    dwexpr_libdw_release(value);
}

/* Prints the variable of this name in a frame. Returns whether there is one. */
static int print_in(dwexpr_libdw_frame *frame, const char *wanted)
{
    dwexpr_libdw_entry *entries = NULL;
    size_t count = 0, i;
    int found = 0;
    dwexpr_libdw_variables(frame, &entries, &count);
    for (i = 0; i < count && !found; i++) {
        const int tag = dwarf_tag(&entries[i].entry);
        const char *name = dwarf_diename(&entries[i].entry);
        found = name && !strcmp(name, wanted) && (tag == DW_TAG_variable || tag == DW_TAG_formal_parameter);
        if (found)
            print_variable(frame, &entries[i].entry);
    }
    free(entries);
    return found;
}

int main(int argc, char **argv)
{
    dwexpr_libdw_target *target = NULL;
    dwexpr_libdw_stack *stack = NULL;
    dwexpr_libdw_frame *frame;
    const pid_t *threads;
    size_t i;
    int found = 0;
    uint32_t code;
    if (argc != 3 && argc != 4) {
        fprintf(stderr, "usage: %s PID NAME [FOLDER]\n", argv[0]);
        return 2;
    }
    code = dwexpr_libdw_open_process((pid_t)atol(argv[1]), argv[3], &target);
    if (!code) {
        dwexpr_libdw_threads(target, &threads);
        code = dwexpr_libdw_unwind(target, threads[0], 1000, &stack);
    }
    if (!stack) {
        fprintf(stderr, "%s: %s\n", dwexpr_libdw_code_name(code), dwexpr_libdw_target_error());
        dwexpr_libdw_close(target);
        return 2;
    }
    for (i = 0; !found && (frame = dwexpr_libdw_frame_at(stack, i)) != NULL; i++)
        found = print_in(frame, argv[2]);
    if (!found)
        fprintf(stderr, "no frame has a variable %s\n", argv[2]);
    dwexpr_libdw_free_stack(stack);
    dwexpr_libdw_close(target);
    return !found;
}
