/* Prints the variables of each thread, frame and inlined function of a stopped process or a core dump, by their parts.
 *     cc where.c $(pkg-config --cflags --libs dwexpr-libdw) -o where; ./where --pid PID | --core FILE [PROGRAM] */
#include <dwarf.h>
#include <inttypes.h>
#include <stdio.h>
#include <stdlib.h>
#include <string.h>
#include "dwexpr_libdw.h"

static void print_object(dwexpr_libdw_object *object, const char *name, int level);

static void print_part(uint32_t code, dwexpr_libdw_object *part, const char *name, int level)
{
    if (code)
        printf("%s = %s%s\n", name, code > DWEXPR_LIBDW_WANTS ? "unknown: " : "", dwexpr_libdw_code_name(code));
    else if (level < 8)
        print_object(part, name, level);
    dwexpr_libdw_object_free(part);
}

/* Prints the members among the children of an entry, a structure or a variant of one. */
static void print_members(dwexpr_libdw_object *object, Dwarf_Die *parent, const char *name, int level)
{
    Dwarf_Die child, type, variant;
    int more;
    for (more = dwarf_child(parent, &child); more == 0; more = dwarf_siblingof(&child, &child)) {
        const int tag = dwarf_tag(&child), is_base = tag == DW_TAG_inheritance && !dwexpr_libdw_type(&child, &type);
        const char *own = dwarf_diename(is_base ? &type : &child);
        dwexpr_libdw_object *part;
        char path[512];
        uint32_t code;
        snprintf(path, sizeof path, own ? "%s.%s" : "%s", name, own);
        if (tag == DW_TAG_variant_part && !dwexpr_libdw_object_variant(object, &child, &variant)) {
            print_members(object, &variant, name, level);
        } else if (is_base || (tag == DW_TAG_member && !dwarf_hasattr(&child, DW_AT_declaration))) {
            code = dwexpr_libdw_object_member(object, &child, &part);
            print_part(code, part, path, level + 1);
        }
    }
}

static void print_elements(dwexpr_libdw_object *object, const char *name, int level)
{
    const dwexpr_libdw_dimension *dimensions;
    dwexpr_libdw_object *element;
    int64_t indexes[64];
    size_t rank, i, length;
    uint64_t total = 1, done, rest;
    uint32_t code = dwexpr_libdw_object_shape(object, &dimensions, &rank);
    if (code)
        print_part(code, NULL, name, level);
    for (i = 0; i < rank; i++)
        total *= dimensions[i].count;
    for (done = 0; rank && done < total && done < 100; done++) {
        char path[512];
        length = (size_t)snprintf(path, sizeof path, "%s[", name);
        for (i = rank, rest = done; i-- > 0; rest /= dimensions[i].count)
            indexes[i] = dwexpr_libdw_index(&dimensions[i], rest % dimensions[i].count);
        for (i = 0; i < rank && length < sizeof path; i++)
            length += (size_t)snprintf(path + length, sizeof path - length, "%" PRId64 "%s", indexes[i],
                                       i + 1 < rank ? "," : "]");
        code = dwexpr_libdw_object_element(object, indexes, rank, &element);
        print_part(code, element, path, level + 1);
    }
    if (rank && done < total)
        printf("%s has %" PRIu64 " more elements\n", name, total - done);
}

static void print_object(dwexpr_libdw_object *object, const char *name, int level)
{
    Dwarf_Die type = dwexpr_libdw_object_type(object);
    const int tag = dwarf_tag(&type);
    dwexpr_libdw_object *target;
    char text[512];
    uint64_t bits;
    uint32_t code;
    if (tag == DW_TAG_array_type) {
        print_elements(object, name, level);
    } else if (tag == DW_TAG_structure_type || tag == DW_TAG_class_type || tag == DW_TAG_union_type) {
        print_members(object, &type, name, level);
        if (!dwarf_haschildren(&type)) {
            code = dwexpr_libdw_object_size(object, &bits);
            printf("%s = %s\n", name, code ? dwexpr_libdw_code_name(code) : "{}");
        }
    } else {
        code = dwexpr_libdw_object_text(object, text, sizeof text);
        if (!code)
            printf("%s = %s\n", name, text);
        else if (code != DWEXPR_LIBDW_IMPLICIT_POINTER)
            print_part(code, NULL, name, level);
        if (code == DWEXPR_LIBDW_IMPLICIT_POINTER || tag == DW_TAG_reference_type) {
            snprintf(text, sizeof text, "*%s", name);
            code = dwexpr_libdw_object_follow(object, &target);
            print_part(code, target, text, level + 1);
        }
    }
}

/* Prints the variables of the functions at a frame's address: inlined functions first, then those around them. */
static void print_frame(size_t number, dwexpr_libdw_frame *frame)
{
    dwexpr_libdw_place place;
    dwexpr_libdw_entry *entries;
    dwexpr_libdw_object *object;
    size_t count, i;
    uint32_t code;
    dwexpr_libdw_locate(frame, &place);
    printf("#%zu 0x%" PRIx64 "\n", number, place.pc);
    dwexpr_libdw_variables(frame, &entries, &count);
    for (i = 0; i < count; i++) {
        const int tag = dwarf_tag(&entries[i].entry);
        const char *name = dwarf_diename(&entries[i].entry);
        if (tag == DW_TAG_subprogram || tag == DW_TAG_inlined_subroutine) {
            printf("%s %s\n", entries[i].is_enclosing ? "within" : "in", name ? name : "?");
        } else if (name) {
            code = dwexpr_libdw_object_of_variable(frame, &entries[i].entry, &object);
            print_part(code, object, name, 0);
        }
    }
    free(entries);
}

int main(int argc, char **argv)
{
    dwexpr_libdw_target *target = NULL;
    dwexpr_libdw_stack *stack;
    dwexpr_libdw_frame *frame;
    const pid_t *threads;
    size_t i, j;
    uint32_t code, found;
    const int is_process = argc == 3 && !strcmp(argv[1], "--pid");
    if (!is_process && (argc < 3 || argc > 4 || strcmp(argv[1], "--core"))) {
        fprintf(stderr, "usage: %s --pid PID | --core FILE [PROGRAM]\n", argv[0]);
        return 2;
    }
    code = is_process ? dwexpr_libdw_open_process((pid_t)atol(argv[2]), NULL, &target)
                      : dwexpr_libdw_open_core(argv[2], argv[3], NULL, &target);
    for (i = 0; target && i < dwexpr_libdw_threads(target, &threads); i++) {
        printf("thread %ld\n", (long)threads[i]);
        found = dwexpr_libdw_unwind(target, threads[i], 100000, &stack);
        for (j = 0; (frame = dwexpr_libdw_frame_at(stack, j)) != NULL; j++)
            print_frame(j, frame);
        dwexpr_libdw_free_stack(stack);
        code = found ? found : code;
    }
    if (code)
        fprintf(stderr, "%s: %s\n", dwexpr_libdw_code_name(code), dwexpr_libdw_target_error());
    dwexpr_libdw_close(target);
    return code ? 2 : 0;
}
