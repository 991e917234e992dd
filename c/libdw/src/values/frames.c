/* Frames: their registers and memory, and where they stand. */
#include "values.h"

#define FRAME_LIMIT 1000

void dwexpr_libdw_begin_frame(dwexpr_libdw_frame *frame, const dwexpr_libdw_source *source)
{
    memset(frame, 0, sizeof *frame);
    frame->source = *source;
    frame->limit = FRAME_LIMIT;
    frame->has_base = source->frame_base != NULL;
    frame->base = source->frame_base ? *source->frame_base : 0;
    frame->has_cfa = source->cfa != NULL;
    frame->cfa = source->cfa ? *source->cfa : 0;
}

uint32_t dwexpr_libdw_make_frame(const dwexpr_libdw_source *source, dwexpr_libdw_frame **frame)
{
    *frame = (dwexpr_libdw_frame *)malloc(sizeof **frame);
    if (!*frame)
        return DWEXPR_LIBDW_NO_MEMORY;
    dwexpr_libdw_begin_frame(*frame, source);
    return 0;
}

void dwexpr_libdw_free_frame(dwexpr_libdw_frame *frame)
{
    free(frame);
}

void dwexpr_libdw_set_limit(dwexpr_libdw_frame *frame, uint32_t expressions)
{
    frame->limit = expressions;
}

uint32_t dwexpr_libdw_memory(const dwexpr_libdw_frame *frame, uint64_t address, uint8_t *bytes, size_t size)
{
    const dwexpr_libdw_source *source = &frame->source;
    return !source->read_memory || source->read_memory(source->context, address, bytes, size)
               ? DWEXPR_LIBDW_NOT_READABLE
               : 0;
}

uint32_t dwexpr_libdw_register(const dwexpr_libdw_frame *frame, uint32_t number, uint8_t *bytes, size_t *size)
{
    memset(bytes, 0, DWEXPR_LIBDW_REGISTER_SIZE);
    *size = 0;
    if (!frame->source.read_register || frame->source.read_register(frame->source.context, number, bytes, size) ||
        !*size)
        return DWEXPR_LIBDW_NOT_READABLE;
    return *size <= DWEXPR_LIBDW_REGISTER_SIZE ? 0 : DWEXPR_LIBDW_BAD_REGISTER;
}

int dwexpr_libdw_has_entry(Dwarf_Die *function, Dwarf_Addr *address)
{
    Dwarf_Addr base, end;
    return !dwarf_entrypc(function, address) || dwarf_ranges(function, 0, &base, address, &end) > 0;
}

uint64_t dwexpr_libdw_entry_of(const dwexpr_libdw_frame *frame)
{
    Dwarf_Die function = frame->place.function;
    Dwarf_Addr entry;
    /* GCOVR_EXCL_BR_START: a function that has an address has an entry */
    return function.addr && dwexpr_libdw_has_entry(&function, &entry) ? entry + frame->place.bias : 0;
    /* GCOVR_EXCL_BR_STOP */
}

/* ---- the place of a frame */

Dwarf_Die dwexpr_libdw_entries(Dwarf_Die *unit)
{
    Dwarf_Die part = {.addr = NULL};
    dwarf_cu_info(unit->cu, NULL, NULL, NULL, &part, NULL, NULL, NULL);
    return part.addr ? part : *unit;
}

/* The address of the instruction where a frame stands, or of its call. */
static Dwarf_Addr address_of(const dwexpr_libdw_frame *frame)
{
    return frame->source.pc - (frame->source.is_activation ? 0 : 1);
}

static Dwfl_Module *module_of(const dwexpr_libdw_frame *frame)
{
    return frame->source.dwfl ? dwfl_addrmodule(frame->source.dwfl, address_of(frame)) : NULL;
}

/* Takes a unit as that of a frame, and gives back whether it has the address. If the unit has no addresses of its own,
 * or not all of them, as in version 2, those of its functions tell. */
static int is_unit_of(dwexpr_libdw_frame *frame, Dwarf_Die *unit)
{
    dwexpr_libdw_place *place = &frame->place;
    struct dwexpr_libdw_walk walk;
    const Dwarf_Addr address = address_of(frame) - place->bias;
    Dwarf_Half version = 0;
    place->unit = dwexpr_libdw_entries(unit);
    dwarf_cu_info(unit->cu, &version, NULL, NULL, NULL, NULL, NULL, NULL);
    if (version > 2 && (dwarf_hasattr(unit, DW_AT_low_pc) || dwarf_hasattr(unit, DW_AT_ranges)) &&
        dwarf_haspc(unit, address) <= 0)
        return 0;
    frame->code = dwexpr_libdw_find_scopes(&place->unit, address, &walk);
    while (!frame->code && walk.path.length > 1 && dwarf_tag(dwexpr_libdw_here(&walk)) != DW_TAG_subprogram)
        walk.path.length--;
    if (!frame->code && walk.path.length > 1)
        place->function = *dwexpr_libdw_here(&walk);
    free(walk.path.items);
    return frame->code || place->function.addr || dwarf_haspc(unit, address) > 0;
}

uint32_t dwexpr_libdw_find_place(dwexpr_libdw_frame *frame)
{
    dwexpr_libdw_place *place = &frame->place;
    Dwarf_Die *unit = frame->source.unit;
    if (frame->is_located)
        return frame->code;
    frame->is_located = 1;
    place->pc = frame->source.pc;
    place->is_activation = frame->source.is_activation;
    place->bias = frame->source.bias;
    place->module = module_of(frame);
    if (unit) {
        is_unit_of(frame, unit);
    } else if (frame->source.dwfl) {
        /* .debug_aranges may not tell, or tell another one */
        unit = dwfl_module_addrdie(place->module, address_of(frame), &place->bias);
        if (!unit || !is_unit_of(frame, unit))
            for (unit = NULL; (unit = dwfl_module_nextcu(place->module, unit, &place->bias)) != NULL;)
                if (is_unit_of(frame, unit))
                    break;
        if (!unit) {
            place->unit.addr = NULL;
            frame->code = DWEXPR_LIBDW_NO_UNIT;
        }
    }
    place->address = address_of(frame) - place->bias;
    return frame->code;
}

uint32_t dwexpr_libdw_locate(dwexpr_libdw_frame *frame, dwexpr_libdw_place *place)
{
    const uint32_t code = dwexpr_libdw_find_place(frame);
    *place = frame->place;
    return code;
}

uint32_t dwexpr_libdw_find_state(const dwexpr_libdw_frame *frame, Dwarf_Frame **state, Elf **elf)
{
    Dwfl_Module *module = module_of(frame);
    const Dwarf_Addr address = address_of(frame);
    Dwarf_Addr bias, bias_of_elf;
    Dwarf_CFI *table = dwfl_module_eh_cfi(module, &bias);
    int failed = !table || dwarf_cfi_addrframe(table, address - bias, state);
    if (failed) {
        table = dwfl_module_dwarf_cfi(module, &bias);
        failed = !table || dwarf_cfi_addrframe(table, address - bias, state);
    }
    *elf = dwfl_module_getelf(module, &bias_of_elf);
    return failed ? DWEXPR_LIBDW_NO_UNIT : 0;
}
