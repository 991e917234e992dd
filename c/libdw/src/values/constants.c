/* Values that no expression gives: constants, and what is at an address. */
#include "values.h"

uint32_t dwexpr_libdw_make_value(const dwexpr_libdw_frame *frame, Dwarf_CU *unit, uint64_t address,
                           dwexpr_libdw_value **value)
{
    *value = (dwexpr_libdw_value *)calloc(1, sizeof **value);
    if (!*value)
        return DWEXPR_LIBDW_NO_MEMORY;
    (*value)->unit = unit;
    (*value)->frame = frame;
    (*value)->outcome.request = DWEXPR_COMPLETE;
    (*value)->outcome.pieces = 1;
    (*value)->pieces[0].kind = DWEXPR_AT_ADDRESS;
    (*value)->pieces[0].number = address;
    return dwexpr_libdw_encoding(unit, &(*value)->encoding);
}

uint32_t dwexpr_libdw_hold_constant(dwexpr_libdw_value *value, Dwarf_Die *variable, Dwarf_Attribute *attribute)
{
    const char *string = dwarf_formstring(attribute);
    const unsigned form = dwarf_whatform(attribute);
    const int big_endian = value->encoding.big_endian;
    Dwarf_Block block = {string ? strlen(string) + 1 : 0, (unsigned char *)(uintptr_t)string};
    Dwarf_Die type;
    Dwarf_Word number, kind;
    if (!string && dwarf_formblock(attribute, &block)) {
        if (dwarf_formudata(attribute, &number))
            return DWEXPR_LIBDW_FAILED;
        value->pieces[0].kind = DWEXPR_HOLDS_VALUE;
        value->pieces[0].value_type = DWEXPR_U64;
        value->pieces[0].number = number;
        if (dwexpr_libdw_type(variable, &type) || !dwexpr_libdw_is_scalar(&type, &block.length, &kind) ||
            block.length <= 8 || block.length > DWEXPR_LIBDW_REGISTER_SIZE)
            return 0;
        block.data = dwexpr_libdw_take(&value->memory, (size_t)block.length);
        if (!block.data) /* GCOVR_EXCL_BR_LINE: no memory */
            return DWEXPR_LIBDW_NO_MEMORY; /* GCOVR_EXCL_LINE: no memory */
        memset(block.data, (form == DW_FORM_sdata || form == DW_FORM_implicit_const || kind == DW_ATE_signed) &&
                               number >> 63 ? 0xff : 0, (size_t)block.length);
        dwexpr_libdw_bytes_of(number, 8, big_endian, block.data + (big_endian ? block.length - 8 : 0));
    }
    value->pieces[0].kind = DWEXPR_HOLDS_BYTES;
    value->pieces[0].block_length = (size_t)block.length;
    value->texts[0] = (dwexpr_text){block.data, (size_t)block.length};
    value->texts_length = 1;
    return 0;
}
