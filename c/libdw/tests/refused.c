/* Reads the variables of a core dump again and again, and each time another call of malloc fails. Values that are known
 * then are those that are known if no call fails. The library is built with the calls of refusing.h.
 *
 *     refused CORE */
#include "refusing.h"
#include "walk.h"

/* What is known of a variable in a frame, if no call is refused. */
static struct known {
    size_t frame;
    Dwarf_Off entry;
    int on_entry;
    uint64_t number;
} known[4096];
static size_t known_length, wrong, without_memory;

static void keep(size_t frame, Dwarf_Die *variable, int on_entry, uint32_t code, uint64_t number)
{
    const Dwarf_Off entry = dwarf_dieoffset(variable);
    size_t i = 0;
    without_memory += code == DWEXPR_LIBDW_NO_MEMORY;
    if (code)
        return;
    while (i < known_length &&
           (known[i].frame != frame || known[i].entry != entry || known[i].on_entry != on_entry))
        i++;
    if (!refused_call && i == known_length && i < COUNT(known))
        known[known_length++] = (struct known){frame, entry, on_entry, number};
    wrong += i == known_length || known[i].number != number;
}

static void read_variable(dwexpr_libdw_frame *frame, size_t frame_index, Dwarf_Die *variable)
{
    dwexpr_libdw_value *value;
    dwexpr_libdw_object *object, *part = NULL;
    Dwarf_Die type, member;
    uint64_t number;
    /* for the second frame that would need the debug information of libc */
    int on_entry;
    for (on_entry = 0; on_entry < (frame_index ? 1 : 2); on_entry++) {
        uint32_t code = on_entry ? dwexpr_libdw_on_entry(frame, variable, &value)
                                 : dwexpr_libdw_variable(frame, variable, &value);
        number = 0;
        if (!code)
            code = dwexpr_libdw_read(frame, value, 32, (uint8_t *)&number, NULL);
        dwexpr_libdw_release(value);
        keep(frame_index, variable, on_entry, code, number);
    }
    without_memory += dwexpr_libdw_object_of_variable(frame, variable, &object) == DWEXPR_LIBDW_NO_MEMORY;
    if (object) {
        type = dwexpr_libdw_object_type(object);
        if (dwarf_child(&type, &member) == 0) {
            without_memory += dwexpr_libdw_object_member(object, &member, &part) == DWEXPR_LIBDW_NO_MEMORY;
            without_memory += dwexpr_libdw_definition(frame, &type, &type) == DWEXPR_LIBDW_NO_MEMORY;
        }
    }
    dwexpr_libdw_object_free(part);
    dwexpr_libdw_object_free(object);
}

static void read_frame(dwexpr_libdw_frame *frame, size_t index)
{
    static const uint8_t cfa[] = {DW_OP_call_frame_cfa};
    const dwexpr_libdw_text text = {.text = {cfa, sizeof cfa}, .encoding = LE8};
    dwexpr_libdw_value *value;
    dwexpr_libdw_entry *entries;
    Dwarf_Die *scopes, *globals;
    dwexpr_libdw_place place;
    size_t count, i;
    without_memory += dwexpr_libdw_variables(frame, &entries, &count) == DWEXPR_LIBDW_NO_MEMORY;
    for (i = 0; i < count; i++)
        read_variable(frame, index, &entries[i].entry);
    free(entries);
    dwexpr_libdw_scopes(frame, &scopes, &count);
    free(scopes);
    dwexpr_libdw_locate(frame, &place);
    if (place.module) {
        without_memory +=
            dwexpr_libdw_globals(frame, place.module, "counted", &globals, &count) == DWEXPR_LIBDW_NO_MEMORY;
        free(globals);
    }
    without_memory += dwexpr_libdw_evaluate(frame, &text, NULL, NULL, &value) == DWEXPR_LIBDW_NO_MEMORY;
    dwexpr_libdw_release(value);
}

int main(int argc, char **argv)
{
    unsigned long all;
    if (argc != 2)
        return 2;
    without_memory += read_core(argv[1], 2, read_frame);
    all = calls;
    check(known_length > 5 && !without_memory, argv[1], "variables are known");
    for (refused_call = 1; refused_call <= all; refused_call++) {
        calls = 0;
        without_memory += read_core(argv[1], 2, read_frame);
    }
    check(!wrong, argv[1], "what is known is the same");
    check(without_memory > 50, argv[1], "memory is refused");
    return finish();
}
