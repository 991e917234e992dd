/* Where libdw has an expression: in an attribute, a list of locations, and the rules of call frame information. */
#include "values.h"

uint32_t dwexpr_libdw_encoding(Dwarf_CU *unit, dwexpr_encoding *encoding)
{
    Dwarf_Half version;
    if (dwarf_cu_info(unit, &version, NULL, NULL, NULL, NULL, &encoding->address_size, &encoding->offset_size))
        return DWEXPR_LIBDW_FAILED;
    encoding->big_endian = elf_getident(dwarf_getelf(dwarf_cu_getdwarf(unit)), NULL)[EI_DATA] == ELFDATA2MSB;
    encoding->version = (uint8_t)version;
    return 0;
}

/* Makes the text one of these operations. */
static uint32_t from_operations(const Dwarf_Op *operations, size_t count, dwexpr_libdw_text *expression)
{
    uint8_t *bytes;
    size_t length;
    const uint32_t code = dwexpr_libdw_encode(operations, count, 0, expression->encoding, NULL, 0, &length);
    if (code)
        return code;
    bytes = dwexpr_libdw_take(&expression->memory, length);
    if (!bytes)
        return DWEXPR_LIBDW_NO_MEMORY;
    dwexpr_libdw_encode(operations, count, 0, expression->encoding, bytes, length, &length);
    expression->text.bytes = bytes;
    expression->text.length = length;
    return 0;
}

uint32_t dwexpr_libdw_expression(Dwarf_Attribute *attribute, Dwarf_Addr address, dwexpr_libdw_text *expression)
{
    Dwarf_Block block;
    Dwarf_Op *operations;
    size_t count;
    int found;
    memset(expression, 0, sizeof *expression);
    expression->unit = attribute->cu;
    if (dwexpr_libdw_encoding(attribute->cu, &expression->encoding))
        return DWEXPR_LIBDW_FAILED;
    if (!dwarf_formblock(attribute, &block)) {
        expression->text.bytes = block.data;
        expression->text.length = (size_t)block.length;
        return block.length ? 0 : DWEXPR_LIBDW_OPTIMIZED_AWAY;
    }
    found = dwarf_getlocation_addr(attribute, address, &operations, &count, 1);
    if (found < 0)
        return DWEXPR_LIBDW_FAILED;
    if (!found || !count)
        return DWEXPR_LIBDW_OPTIMIZED_AWAY;
    return from_operations(operations, count, expression);
}

uint32_t dwexpr_libdw_entry_expression(Dwarf_Attribute *attribute, Dwarf_Addr entry, dwexpr_libdw_text *expression)
{
    const uint32_t code = dwexpr_libdw_expression(attribute, entry, expression);
    Dwarf_Addr base, begin = 0, end = 0;
    Dwarf_Op *operations;
    size_t count;
    ptrdiff_t at = 0;
    while ((at = dwarf_getlocations(attribute, at, &base, &begin, &end, &operations, &count)) > 0)
        if (begin == entry && end == entry) {
            dwexpr_libdw_free_text(expression);
            return count ? from_operations(operations, count, expression) : DWEXPR_LIBDW_OPTIMIZED_AWAY;
        }
    return code;
}

/* ---- call frame information */

/* What libdw 0.188 takes as the ABI of x86-64: it mixes up two registers that no rule names. A call may change rax,
 * and keeps rbx. */
enum { RAX = 0, RBX = 3 };

static uint32_t unnamed(Elf *elf, int number, int is_lost)
{
    GElf_Ehdr header = {.e_machine = EM_NONE};
    gelf_getehdr(elf, &header);
    if (header.e_machine == EM_X86_64 && (number == RAX || number == RBX))
        is_lost = number == RAX;
    return is_lost ? DWEXPR_LIBDW_OPTIMIZED_AWAY : DWEXPR_LIBDW_SAME_VALUE;
}

static uint32_t register_rule(Dwarf_Frame *state, Elf *elf, int number, dwexpr_libdw_text *expression)
{
    Dwarf_Op kept[3], *operations;
    size_t count;
    uint32_t code;
    if (dwarf_frame_register(state, number, kept, &operations, &count))
        return DWEXPR_LIBDW_FAILED;
    if (!count)
        return unnamed(elf, number, operations != NULL);
    /* libdw puts the CFA before the bytes, and DW_OP_stack_value after those of a value */
    expression->on_cfa = operations[0].atom == DW_OP_call_frame_cfa;
    expression->is_value = expression->on_cfa && operations[count - 1].atom == DW_OP_stack_value;
    if (operations == kept && expression->on_cfa) {
        const Dwarf_Word distance = count > 1 && kept[1].atom == DW_OP_plus_uconst ? kept[1].number : 0;
        const Dwarf_Op sum = {DW_OP_plus_uconst, distance, 0, 0};
        return from_operations(&sum, 1, expression);
    }
    code = from_operations(operations + expression->on_cfa, count - (size_t)expression->on_cfa, expression);
    if (!code && expression->is_value)
        expression->text.length--;
    return code;
}

uint32_t dwexpr_libdw_rule(Dwarf_Frame *state, Elf *elf, int register_number, dwexpr_libdw_text *expression)
{
    const unsigned char *ident = (const unsigned char *)elf_getident(elf, NULL);
    Dwarf_Op *operations;
    size_t count;
    memset(expression, 0, sizeof *expression);
    if (!ident)
        return DWEXPR_LIBDW_FAILED;
    expression->encoding.address_size = ident[EI_CLASS] == ELFCLASS32 ? 4 : 8;
    expression->encoding.offset_size = 4;
    expression->encoding.version = 5;
    expression->encoding.big_endian = ident[EI_DATA] == ELFDATA2MSB;
    if (register_number != DWEXPR_LIBDW_CFA)
        return register_rule(state, elf, register_number, expression);
    if (dwarf_frame_cfa(state, &operations, &count) || !count)
        return DWEXPR_LIBDW_FAILED;
    return from_operations(operations, count, expression);
}
