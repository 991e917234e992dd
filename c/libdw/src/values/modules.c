/* The modules of a Dwfl, and which one a unit belongs to. */
#include "values.h"

static int on_module(Dwfl_Module *module, void **data, const char *name, Dwarf_Addr start, void *found)
{
    (void)data, (void)name, (void)start;
    *(Dwfl_Module **)found = module;
    return DWARF_CB_ABORT;
}

ptrdiff_t dwexpr_libdw_next_module(Dwfl *dwfl, ptrdiff_t at, Dwfl_Module **module)
{
    *module = NULL;
    return dwfl_getmodules(dwfl, on_module, module, at);
}

uint32_t dwexpr_libdw_visit_modules(dwexpr_libdw_frame *frame,
                                    uint32_t (*visit)(void *context, Dwfl_Module *module), void *context)
{
    Dwfl_Module *module;
    ptrdiff_t at = 0;
    uint32_t code = 0;
    dwexpr_libdw_find_place(frame);
    if (frame->place.module)
        code = visit(context, frame->place.module);
    while (!code && (at = dwexpr_libdw_next_module(frame->source.dwfl, at, &module)) > 0)
        if (module != frame->place.module)
            code = visit(context, module);
    return code;
}

uint32_t dwexpr_libdw_visit_units(Dwfl_Module *module, uint32_t (*visit)(void *context, const Dwarf_Die *unit),
                                  void *context)
{
    Dwarf_Die *unit = NULL;
    Dwarf_Addr bias;
    uint32_t code = 0;
    while (!code && (unit = dwfl_module_nextcu(module, unit, &bias)) != NULL) {
        const Dwarf_Die entries = dwexpr_libdw_entries(unit);
        code = visit(context, &entries);
    }
    return code;
}

/* Whether debug information belongs to a module; if `is_split`, as a separate file that one of its units names. */
static int is_of(Dwfl_Module *module, const Dwarf *wanted, int is_split, Dwarf_Addr *bias)
{
    Dwarf *dwarf = dwfl_module_getdwarf(module, bias);
    Dwarf_CU *unit = NULL;
    Dwarf_Die part;
    int found = dwarf == wanted;
    while (!found && is_split && !dwarf_get_units(dwarf, unit, &unit, NULL, NULL, NULL, &part))
        found = part.addr && dwarf_cu_getdwarf(part.cu) == wanted;
    return found;
}

uint32_t dwexpr_libdw_find_module(dwexpr_libdw_frame *frame, Dwarf_CU *unit, Dwfl_Module **module, Dwarf_Addr *bias)
{
    const Dwarf *wanted = dwarf_cu_getdwarf(unit);
    uint8_t kind = DW_UT_compile;
    ptrdiff_t at = 0;
    dwexpr_libdw_find_place(frame);
    *module = frame->place.module;
    *bias = frame->place.bias;
    if (!unit || (!frame->source.dwfl && !frame->source.unit) ||
        (frame->place.unit.addr && dwarf_cu_getdwarf(frame->place.unit.cu) == wanted))
        return 0;
    dwarf_cu_info(unit, NULL, &kind, NULL, NULL, NULL, NULL, NULL);
    do
        at = dwexpr_libdw_next_module(frame->source.dwfl, at, module);
    while (at > 0 && !is_of(*module, wanted, kind >= DW_UT_split_compile, bias));
    return at > 0 ? 0 : DWEXPR_LIBDW_FAILED;
}

int dwexpr_libdw_find_segment(Dwfl_Module *module, unsigned type, GElf_Phdr *segment, Dwarf_Addr *bias)
{
    Elf *elf = dwfl_module_getelf(module, bias);
    size_t count = 0, i;
    elf_getphdrnum(elf, &count);
    segment->p_type = PT_NULL;
    for (i = 0; i < count && segment->p_type != type; i++)
        gelf_getphdr(elf, (int)i, segment);
    return segment->p_type == type;
}
