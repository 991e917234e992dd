/* The values of variables that are found by their names. */
#include "values.h"

const char *dwexpr_libdw_linkage_name(Dwarf_Die *entry)
{
    Dwarf_Attribute attribute;
    const char *name = dwarf_formstring(dwarf_attr_integrate(entry, DW_AT_linkage_name, &attribute));
    if (!name)
        name = dwarf_formstring(dwarf_attr_integrate(entry, DW_AT_MIPS_linkage_name, &attribute));
    return name ? name : dwarf_diename(entry);
}

/* The value of a variable that another unit of its module defines, and that has no symbol. */
static uint32_t hidden(dwexpr_libdw_frame *frame, Dwarf_Die *variable, Dwfl_Module *module, dwexpr_libdw_value **value)
{
    Dwarf_Die *globals;
    size_t count, i;
    uint32_t code = dwexpr_libdw_globals(frame, module, dwexpr_libdw_linkage_name(variable), &globals, &count);
    for (i = 0; i < count && !(dwarf_hasattr_integrate(&globals[i], DW_AT_external) &&
                               dwarf_hasattr_integrate(&globals[i], DW_AT_location)); i++)
        ;
    if (!code) /* GCOVR_EXCL_BR_LINE: no memory */
        code = i < count ? dwexpr_libdw_variable(frame, &globals[i], value) : DWEXPR_LIBDW_NOT_DEFINED;
    free(globals);
    return code;
}

/* The value at a symbol. */
static uint32_t at_symbol(const dwexpr_libdw_frame *frame, Dwarf_CU *unit, struct dwexpr_libdw_symbol *symbol,
                          dwexpr_libdw_value **value)
{
    const int is_local = GELF_ST_TYPE(symbol->symbol.st_info) == STT_TLS;
    const uint64_t offset = symbol->symbol.st_value;
    const uint32_t code = is_local ? dwexpr_libdw_find_tls(frame, symbol->module, offset, &symbol->address) : 0;
    return code ? code : dwexpr_libdw_make_value(frame, unit, symbol->address, value);
}

uint32_t dwexpr_libdw_named(dwexpr_libdw_frame *frame, Dwarf_Die *variable, dwexpr_libdw_value **value)
{
    const int is_declared = dwarf_hasattr(variable, DW_AT_declaration);
    const uint32_t unknown = is_declared ? DWEXPR_LIBDW_NOT_DEFINED : DWEXPR_LIBDW_OPTIMIZED_AWAY;
    struct dwexpr_libdw_symbol symbol = {.name = dwexpr_libdw_linkage_name(variable)};
    Dwfl_Module *module;
    Dwarf_Addr bias;
    uint32_t code;
    if ((!is_declared && !dwarf_hasattr_integrate(variable, DW_AT_external)) || !frame->source.dwfl || !symbol.name ||
        dwexpr_libdw_find_module(frame, variable->cu, &module, &bias) ||
        (!is_declared && !dwexpr_libdw_find_symbol(module, 0, &symbol)))
        return unknown;
    code = dwexpr_libdw_resolve(frame, module, NULL, &symbol);
    if (code == DWEXPR_LIBDW_FAILED) {
        code = hidden(frame, variable, module, value);
        if (code != DWEXPR_LIBDW_NOT_DEFINED)
            return code;
        code = dwexpr_libdw_look_up(frame, NULL, &symbol);
    }
    return code ? code : at_symbol(frame, variable->cu, &symbol, value);
}

uint32_t dwexpr_libdw_replaced(dwexpr_libdw_frame *frame, Dwarf_Die *variable, uint32_t code,
                               dwexpr_libdw_value **value)
{
    const uint64_t own = code ? 0 : (*value)->pieces[0].number;
    struct dwexpr_libdw_symbol symbol = {.name = dwexpr_libdw_linkage_name(variable)};
    Dwfl_Module *module;
    Dwarf_Addr bias;
    uint32_t failed;
    if (!frame->source.dwfl || !symbol.name || dwexpr_libdw_find_module(frame, variable->cu, &module, &bias))
        return code;
    failed = dwexpr_libdw_resolve(frame, module, &own, &symbol);
    if (!failed && (GELF_ST_TYPE(symbol.symbol.st_info) == STT_TLS ? symbol.module == module : symbol.address == own))
        return code;
    dwexpr_libdw_release(*value);
    *value = NULL;
    return failed ? failed : at_symbol(frame, variable->cu, &symbol, value);
}
