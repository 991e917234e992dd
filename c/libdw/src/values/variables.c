/* The values of variables, in the frames of their functions. */
#include "values.h"

/* ---- the frame of an entry's function */

/* The frame of the enclosing function: the caller whose frame base DW_AT_static_link gives, or else the only caller of
 * that function. GCC writes a link also if no caller sets it. NULL if it isn't known. */
static dwexpr_libdw_frame *enclosing_frame(dwexpr_libdw_frame *inner, const Dwarf_Die *function)
{
    const struct dwexpr_libdw_given given = {.frame = inner};
    Dwarf_Attribute attribute;
    dwexpr_libdw_frame *frame, *found = NULL;
    uint64_t base = 0;
    int count = 0;
    const int has_link = dwarf_attr_integrate(&inner->place.function, DW_AT_static_link, &attribute) &&
                         !dwexpr_libdw_attribute_number(&given, &attribute, &base);
    for (frame = inner->source.caller; frame; frame = frame->source.caller) {
        if (dwexpr_libdw_find_place(frame) == DWEXPR_LIBDW_NO_MEMORY) /* GCOVR_EXCL_BR_LINE: no memory */
            return NULL; /* GCOVR_EXCL_LINE: no memory */
        if (frame->place.function.addr != function->addr)
            continue;
        if (has_link && !dwexpr_libdw_find_base(frame, NULL) && frame->base == base)
            return frame;
        found = frame;
        count++;
    }
    return count == 1 ? found : NULL;
}

/* The frame in which a variable's location is evaluated: that of the function in which it stands, through all those
 * between them. */
static uint32_t find_owner(dwexpr_libdw_frame *frame, Dwarf_Die *variable, dwexpr_libdw_frame **owner)
{
    Dwarf_Die unit, outer, function = dwexpr_libdw_function_around(&frame->place.function, variable);
    if (!function.addr)
        function = dwexpr_libdw_function_around(dwarf_diecu(variable, &unit, NULL, NULL), variable);
    for (; frame && function.addr && frame->place.function.addr != function.addr;
         frame = outer.addr ? enclosing_frame(frame, &outer) : NULL)
        outer = dwexpr_libdw_function_around(&frame->place.unit, &frame->place.function);
    *owner = frame;
    return frame ? 0 : DWEXPR_LIBDW_OTHER_FUNCTION;
}

/* Whether a location is the same in each frame. */
static int is_fixed(Dwarf_Attribute *attribute)
{
    static const uint8_t kinds[] = {DWEXPR_OP_ADDRESS, DWEXPR_OP_ADDRESS_INDEX, DWEXPR_OP_UNSIGNED_CONSTANT,
                                    DWEXPR_OP_CONSTANT_INDEX, DWEXPR_OP_PLUS_CONSTANT, DWEXPR_OP_TLS};
    Dwarf_Block block;
    dwexpr_encoding encoding;
    dwexpr_libdw_encoding(attribute->cu, &encoding);
    return !dwarf_formblock(attribute, &block) &&
           dwexpr_libdw_has_only((dwexpr_text){block.data, (size_t)block.length}, encoding, kinds, sizeof kinds);
}

/* ---- variables */

uint32_t dwexpr_libdw_variable(dwexpr_libdw_frame *frame, Dwarf_Die *variable, dwexpr_libdw_value **value)
{
    Dwarf_Attribute attribute;
    struct dwexpr_libdw_given given = {.frame = frame};
    uint32_t code = dwexpr_libdw_find_place(frame);
    *value = NULL;
    if (code == DWEXPR_LIBDW_NO_MEMORY) /* GCOVR_EXCL_BR_LINE: no memory */
        return code; /* GCOVR_EXCL_LINE: no memory */
    if (dwarf_attr_integrate(variable, DW_AT_const_value, &attribute)) {
        code = dwexpr_libdw_make_value(frame, attribute.cu, 0, value);
        return code ? code : dwexpr_libdw_hold_constant(*value, variable, &attribute);
    }
    if (!dwarf_attr_integrate(variable, DW_AT_location, &attribute))
        return dwexpr_libdw_named(frame, variable, value);
    if (!is_fixed(&attribute)) {
        code = find_owner(frame, variable, &given.frame);
        return code ? code : dwexpr_libdw_attribute_value(&given, &attribute, value);
    }
    code = dwexpr_libdw_attribute_value(&given, &attribute, value);
    if (dwarf_hasattr_integrate(variable, DW_AT_external))
        return dwexpr_libdw_replaced(frame, variable, code, value);
    return code;
}

uint32_t dwexpr_libdw_on_entry(dwexpr_libdw_frame *frame, Dwarf_Die *parameter, dwexpr_libdw_value **value)
{
    Dwarf_Attribute attribute;
    dwexpr_libdw_text expression;
    uint8_t bytes[32] = {DW_OP_entry_value};
    size_t length;
    uint32_t code = dwexpr_libdw_find_place(frame);
    *value = NULL;
    if (code)
        return code;
    if (!frame->place.function.addr || !dwarf_attr_integrate(parameter, DW_AT_location, &attribute))
        return DWEXPR_LIBDW_OPTIMIZED_AWAY;
    code = dwexpr_libdw_entry_expression(&attribute, dwexpr_libdw_entry_of(frame) - frame->place.bias, &expression);
    length = expression.text.length;
    if (!code && length > sizeof bytes - 3)
        code = DWEXPR_LIBDW_NOT_ENCODABLE;
    if (!code) {
        bytes[1] = (uint8_t)length;
        memcpy(bytes + 2, expression.text.bytes, length);
        bytes[2 + length] = DW_OP_stack_value;
        expression.text = (dwexpr_text){bytes, length + 3};
        code = dwexpr_libdw_evaluate(frame, &expression, NULL, NULL, value);
        /* its piece is a number; the bytes end with this call */
        if (*value)
            (*value)->texts_length = 0;
    }
    dwexpr_libdw_free_text(&expression);
    return code;
}

uint32_t dwexpr_libdw_points_into(const dwexpr_libdw_value *value, const dwexpr_piece *piece, Dwarf_Die *variable)
{
    return piece->kind == DWEXPR_POINTS_INTO &&
                   dwexpr_libdw_find_entry(value->unit, DW_OP_implicit_pointer, piece->number, variable)
               ? 0
               : DWEXPR_LIBDW_FAILED;
}
