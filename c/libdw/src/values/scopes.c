/* The scopes at an address, and their variables. */
#include "values.h"

/* Whether entries of this tag have addresses. All others hold what their children hold. */
static int has_code(int tag)
{
    return tag == DW_TAG_subprogram || tag == DW_TAG_inlined_subroutine || tag == DW_TAG_lexical_block ||
           tag == DW_TAG_try_block || tag == DW_TAG_catch_block || tag == DW_TAG_with_stmt;
}

uint32_t dwexpr_libdw_find_scopes(Dwarf_Die *unit, Dwarf_Addr address, struct dwexpr_libdw_walk *walk)
{
    uint32_t code = dwexpr_libdw_begin_walk(walk, unit);
    int times;
    for (times = 0; times < 2 && walk->floor == 1 && code != DWEXPR_LIBDW_NO_MEMORY; times++) {
        int enters = 1;
        while (!(code = dwexpr_libdw_next_entry(walk, enters))) {
            Dwarf_Die *entry = dwexpr_libdw_here(walk);
            const int tag = dwarf_tag(entry), is_inside = walk->floor > 1;
            enters = (is_inside ? has_code(tag) : tag == DW_TAG_subprogram) && dwarf_haspc(entry, address) > 0;
            if (enters)
                walk->floor = walk->path.length;
            else if (is_inside) /* a block without addresses may hold others with some */
                enters = tag == DW_TAG_lexical_block && !dwarf_hasattr(entry, DW_AT_low_pc) &&
                         !dwarf_hasattr(entry, DW_AT_ranges);
            else
                enters = times > 0 || !has_code(tag);
        }
    }
    walk->path.length = walk->floor;
    return code == DWEXPR_LIBDW_NO_PART ? 0 : code;
}

uint32_t dwexpr_libdw_scopes(dwexpr_libdw_frame *frame, Dwarf_Die **scopes, size_t *count)
{
    struct dwexpr_libdw_walk walk;
    struct dwexpr_libdw_list found = {.length = 0};
    uint32_t code = dwexpr_libdw_find_place(frame);
    if (!code && !frame->place.unit.addr)
        code = DWEXPR_LIBDW_NO_UNIT;
    if (!code) {
        code = dwexpr_libdw_find_scopes(&frame->place.unit, frame->place.address, &walk);
        for (; !code && walk.path.length; walk.path.length--)
            code = dwexpr_libdw_add(&found, dwexpr_libdw_here(&walk), sizeof **scopes);
        free(walk.path.items);
    }
    *scopes = dwexpr_libdw_give(code, &found, count);
    return code;
}

/* ---- variables */

/* What is found at a level. */
struct found {
    struct dwexpr_libdw_list entries;
    unsigned level;
    int is_enclosing;
};

static uint32_t add_entry(struct found *found, const Dwarf_Die *entry)
{
    const dwexpr_libdw_entry added = {*entry, found->level, found->is_enclosing};
    return dwexpr_libdw_add(&found->entries, &added, sizeof added);
}

/* Whether a child of a scope is the instance of an entry. */
static int has_instance(Dwarf_Die *scope, const Dwarf_Die *entry)
{
    Dwarf_Die child;
    int more;
    for (more = dwarf_child(scope, &child); more == 0; more = dwarf_siblingof(&child, &child)) {
        Dwarf_Attribute attribute;
        Dwarf_Die origin;
        if (dwarf_formref_die(dwarf_attr(&child, DW_AT_abstract_origin, &attribute), &origin) &&
            origin.addr == entry->addr)
            return 1;
    }
    return 0;
}

/* Adds the variables that stand in an entry. If `scope` isn't NULL, those with an instance there are left out. */
static uint32_t add_variables(struct found *found, Dwarf_Die *parent, Dwarf_Die *scope)
{
    Dwarf_Die entry;
    uint32_t code = 0;
    int more;
    for (more = dwarf_child(parent, &entry); more == 0 && !code; more = dwarf_siblingof(&entry, &entry)) {
        const int tag = dwarf_tag(&entry);
        if (tag == DW_TAG_common_block && dwarf_tag(parent) != DW_TAG_common_block)
            code = add_variables(found, &entry, scope);
        else if ((tag == DW_TAG_variable || tag == DW_TAG_formal_parameter || tag == DW_TAG_constant) &&
                 !(scope && has_instance(scope, &entry)))
            code = add_entry(found, &entry);
    }
    return code;
}

/* Adds the variables of a scope, and what only the entry has of which it is an instance. */
static uint32_t add_scope(struct found *found, Dwarf_Die *scope)
{
    Dwarf_Attribute attribute;
    Dwarf_Die origin;
    const uint32_t code = add_variables(found, scope, NULL);
    return code || !dwarf_formref_die(dwarf_attr(scope, DW_AT_abstract_origin, &attribute), &origin)
               ? code
               : add_variables(found, &origin, scope);
}

uint32_t dwexpr_libdw_variables(dwexpr_libdw_frame *frame, dwexpr_libdw_entry **entries, size_t *count)
{
    struct found found = {.level = 0};
    Dwarf_Die *scopes;
    size_t length, function, scope = 0;
    uint32_t code = dwexpr_libdw_scopes(frame, &scopes, &length);
    for (function = 0; function < length && !code; function++) {
        const int tag = dwarf_tag(&scopes[function]);
        if (tag != DW_TAG_subprogram && tag != DW_TAG_inlined_subroutine)
            continue;
        code = add_entry(&found, &scopes[function]);
        for (; scope <= function && !code; scope++)
            code = add_scope(&found, &scopes[scope]);
        found.level++;
        found.is_enclosing |= tag == DW_TAG_subprogram;
    }
    free(scopes);
    *entries = dwexpr_libdw_give(code, &found.entries, count);
    return code;
}
