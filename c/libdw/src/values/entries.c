/* Ways through the entries of a unit, without recursion. */
#include "values.h"

uint32_t dwexpr_libdw_begin_walk(struct dwexpr_libdw_walk *walk, const Dwarf_Die *first)
{
    memset(walk, 0, sizeof *walk);
    walk->floor = 1;
    return dwexpr_libdw_add(&walk->path, first, sizeof *first);
}

Dwarf_Die *dwexpr_libdw_here(const struct dwexpr_libdw_walk *walk)
{
    return (Dwarf_Die *)walk->path.items + walk->path.length - 1;
}

uint32_t dwexpr_libdw_next_entry(struct dwexpr_libdw_walk *walk, int enters)
{
    Dwarf_Die child;
    if (enters && dwarf_child(dwexpr_libdw_here(walk), &child) == 0)
        return dwexpr_libdw_add(&walk->path, &child, sizeof child);
    for (; walk->path.length > walk->floor; walk->path.length--) {
        Dwarf_Die *entry = dwexpr_libdw_here(walk);
        if (dwarf_siblingof(entry, entry) == 0)
            return 0;
    }
    return DWEXPR_LIBDW_NO_PART;
}

uint32_t dwexpr_libdw_walk_to(struct dwexpr_libdw_walk *walk, const Dwarf_Die *first, const Dwarf_Die *entry)
{
    uint32_t code = dwexpr_libdw_begin_walk(walk, first);
    while (!code && dwexpr_libdw_here(walk)->addr != entry->addr)
        code = dwexpr_libdw_next_entry(walk, 1);
    return code;
}

Dwarf_Die dwexpr_libdw_function_around(const Dwarf_Die *first, const Dwarf_Die *entry)
{
    Dwarf_Die here = *first, next, function = {.addr = NULL}, none = function;
    while (here.addr && here.addr != entry->addr) {
        if (dwarf_tag(&here) == DW_TAG_subprogram)
            function = here;
        /* it stands below the last one that doesn't stand after it */
        if (dwarf_child(&here, &next) || (const char *)next.addr > (const char *)entry->addr)
            return none;
        do
            here = next;
        while (!dwarf_siblingof(&next, &next) && (const char *)next.addr <= (const char *)entry->addr);
    }
    return function;
}
