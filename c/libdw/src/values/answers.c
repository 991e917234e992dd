/* What a frame and its debug information answer to the requests of an evaluation. */
#include "values.h"

#define TEXTS (sizeof ((dwexpr_libdw_value *)0)->texts / sizeof(dwexpr_text))

/* ---- from the frame */

uint32_t dwexpr_libdw_register_number(const dwexpr_libdw_value *value, uint32_t number, uint64_t *content)
{
    uint8_t bytes[DWEXPR_LIBDW_REGISTER_SIZE];
    size_t size;
    const uint32_t code = dwexpr_libdw_register(value->frame, number, bytes, &size);
    if (!code)
        *content = dwexpr_libdw_number_of(bytes, size, value->encoding.big_endian);
    return code;
}

uint32_t dwexpr_libdw_memory_number(const dwexpr_libdw_value *value, uint64_t *content)
{
    const dwexpr_outcome *asked = &value->outcome;
    uint8_t bytes[UINT8_MAX] = {0};
    const uint32_t code = asked->flag ? DWEXPR_LIBDW_NOT_READABLE
                                      : dwexpr_libdw_memory(value->frame, asked->number, bytes, asked->size);
    *content = dwexpr_libdw_number_of(bytes, asked->size, value->encoding.big_endian);
    return code;
}

uint32_t dwexpr_libdw_take_number(uint32_t code, dwexpr_libdw_value *value, uint64_t *number)
{
    if (!code && value->outcome.value_type != DWEXPR_NO_TYPE)
        *number = value->outcome.value;
    else if (!code && value->outcome.pieces == 1 && value->pieces[0].kind == DWEXPR_IN_REGISTER)
        code = dwexpr_libdw_register_number(value, (uint32_t)value->pieces[0].number, number);
    else if (!code)
        code = DWEXPR_LIBDW_NO_NUMBER;
    dwexpr_libdw_release(value);
    return code;
}

uint32_t dwexpr_libdw_expression_in(dwexpr_libdw_frame *frame, Dwarf_Attribute *attribute,
                                    dwexpr_libdw_text *expression)
{
    Dwfl_Module *module;
    Dwarf_Addr bias;
    Dwarf_Block block;
    /* a list has addresses of its module */
    if (dwexpr_libdw_find_module(frame, attribute->cu, &module, &bias) && dwarf_formblock(attribute, &block))
        return DWEXPR_LIBDW_WANTS + DWEXPR_WANTS_RELOCATED;
    return dwexpr_libdw_expression(attribute, frame->place.address + frame->place.bias - bias, expression);
}

uint32_t dwexpr_libdw_attribute_value(const struct dwexpr_libdw_given *given, Dwarf_Attribute *attribute,
                                dwexpr_libdw_value **value)
{
    dwexpr_libdw_text expression;
    const uint32_t code = dwexpr_libdw_expression_in(given->frame, attribute, &expression);
    *value = NULL;
    return code ? code : dwexpr_libdw_evaluate_with(given, &expression, value);
}

uint32_t dwexpr_libdw_attribute_number(const struct dwexpr_libdw_given *given, Dwarf_Attribute *attribute,
                                       uint64_t *number)
{
    dwexpr_libdw_value *value;
    const uint32_t code = dwexpr_libdw_attribute_value(given, attribute, &value);
    return dwexpr_libdw_take_number(code, value, number);
}

uint32_t dwexpr_libdw_find_base(dwexpr_libdw_frame *frame, uint32_t *left)
{
    const struct dwexpr_libdw_given given = {.frame = frame, .purpose = FOR_BASE, .left = left};
    Dwarf_Attribute attribute;
    uint32_t code;
    if (frame->has_base)
        return 0;
    dwexpr_libdw_find_place(frame);
    if (!frame->place.function.addr ||
        !dwarf_attr_integrate(&frame->place.function, DW_AT_frame_base, &attribute))
        return DWEXPR_LIBDW_OPTIMIZED_AWAY;
    code = dwexpr_libdw_attribute_number(&given, &attribute, &frame->base);
    frame->has_base = !code;
    return code;
}

uint32_t dwexpr_libdw_find_cfa(dwexpr_libdw_frame *frame, uint32_t *left)
{
    const struct dwexpr_libdw_given given = {.frame = frame, .purpose = FOR_CFA, .left = left};
    Dwarf_Frame *state;
    Elf *elf;
    dwexpr_libdw_text rule;
    dwexpr_libdw_value *value = NULL;
    uint32_t code;
    if (frame->has_cfa)
        return 0;
    code = dwexpr_libdw_find_state(frame, &state, &elf);
    if (code)
        return code;
    code = dwexpr_libdw_rule(state, elf, DWEXPR_LIBDW_CFA, &rule);
    free(state);
    if (!code)
        code = dwexpr_libdw_evaluate_with(&given, &rule, &value);
    code = dwexpr_libdw_take_number(code, value, &frame->cfa);
    frame->has_cfa = !code;
    return code;
}

/* ---- from the debug information */

int dwexpr_libdw_find_entry(Dwarf_CU *unit, uint8_t opcode, uint64_t offset, Dwarf_Die *entry)
{
    Dwarf_Op operation = {opcode, offset, 0, 0};
    Dwarf_Attribute attribute = {.cu = unit};
    return unit && !dwarf_getlocation_die(&attribute, &operation, entry);
}

static int has_bytes(dwexpr_text text, const uint8_t *bytes, size_t length)
{
    return text.length == length && (!length || !memcmp(text.bytes, bytes, length));
}

uint32_t dwexpr_libdw_find_location(dwexpr_libdw_frame *frame, dwexpr_libdw_value *value, size_t *index)
{
    const dwexpr_outcome *asked = &value->outcome;
    Dwarf_Die entry;
    Dwarf_Attribute attribute;
    dwexpr_libdw_text called = {.memory = NULL};
    uint32_t code = 0;
    size_t i = 0;
    if (!dwexpr_libdw_find_entry(value->unit, asked->flag ? DW_OP_call_ref : DW_OP_call4, asked->number, &entry))
        return DWEXPR_LIBDW_FAILED;
    if (dwarf_attr_integrate(&entry, DW_AT_location, &attribute))
        code = dwexpr_libdw_expression_in(frame, &attribute, &called);
    if (code && code != DWEXPR_LIBDW_OPTIMIZED_AWAY)
        return code;
    /* a second call of the same entry is a call of the same text */
    while (i < value->texts_length && !has_bytes(value->texts[i], called.text.bytes, called.text.length))
        i++;
    *index = i;
    if (i < value->texts_length)
        dwexpr_libdw_free_text(&called);
    else if (i < TEXTS)
        value->texts[value->texts_length++] = called.text;
    dwexpr_libdw_keep(&called, &value->memory);
    return i < TEXTS ? 0 : DWEXPR_TOO_MANY_TEXTS;
}

uint32_t dwexpr_libdw_find_tls(const dwexpr_libdw_frame *frame, Dwfl_Module *module, uint64_t offset, uint64_t *address)
{
    const dwexpr_libdw_source *source = &frame->source;
    return !module || !source->find_tls || source->find_tls(source->context, module, offset, address)
               ? DWEXPR_LIBDW_WANTS + DWEXPR_WANTS_TLS
               : 0;
}

uint32_t dwexpr_libdw_find_indexed(const dwexpr_libdw_value *value, uint64_t *address)
{
    Dwarf_Op operation = {DW_OP_addrx, value->outcome.number, 0, 0};
    Dwarf_Attribute unit = {.cu = value->unit}, attribute;
    return !unit.cu || dwarf_getlocation_attr(&unit, &operation, &attribute) || dwarf_formaddr(&attribute, address)
               ? DWEXPR_LIBDW_FAILED
               : 0;
}

int dwexpr_libdw_has_only(dwexpr_text text, dwexpr_encoding encoding, const uint8_t *kinds, size_t count)
{
    dwexpr_operation operation;
    size_t at;
    for (at = 0; at < text.length; at += operation.size)
        if (dwexpr_decode(text.bytes, text.length, encoding, at, &operation) ||
            !memchr(kinds, (int)operation.kind, count))
            return 0;
    return 1;
}

/* Whether an expression only moves values. A float may then be handled as a number with the same bits. */
static int moves_only(dwexpr_text text, dwexpr_encoding encoding)
{
    static const uint8_t kinds[] = {DWEXPR_OP_DEREF, DWEXPR_OP_UNSIGNED_CONSTANT, DWEXPR_OP_SIGNED_CONSTANT,
                                    DWEXPR_OP_REGISTER, DWEXPR_OP_REGISTER_OFFSET, DWEXPR_OP_FRAME_OFFSET,
                                    DWEXPR_OP_CALL_FRAME_CFA, DWEXPR_OP_PIECE, DWEXPR_OP_STACK_VALUE,
                                    DWEXPR_OP_ENTRY_VALUE, DWEXPR_OP_ADDRESS, DWEXPR_OP_TYPED_LITERAL,
                                    DWEXPR_OP_REINTERPRET};
    return dwexpr_libdw_has_only(text, encoding, kinds, sizeof kinds);
}

uint32_t dwexpr_libdw_find_base_type(const dwexpr_libdw_value *value, uint64_t offset, uint32_t *value_type)
{
    static const uint8_t integers[] = {
        [DW_ATE_signed] = DW_ATE_signed, [DW_ATE_signed_char] = DW_ATE_signed, [DW_ATE_unsigned] = DW_ATE_unsigned,
        [DW_ATE_unsigned_char] = DW_ATE_unsigned, [DW_ATE_address] = DW_ATE_unsigned,
        [DW_ATE_boolean] = DW_ATE_unsigned, [DW_ATE_UTF] = DW_ATE_unsigned, [DW_ATE_float] = DW_ATE_unsigned,
    };
    Dwarf_Die type;
    Dwarf_Word size, encoding;
    if (!dwexpr_libdw_find_entry(value->unit, DW_OP_convert, offset, &type) ||
        !dwexpr_libdw_is_scalar(&type, &size, &encoding) || encoding >= sizeof integers ||
        (encoding == DW_ATE_float && !moves_only(value->texts[0], value->encoding)))
        return DWEXPR_LIBDW_WANTS + DWEXPR_WANTS_BASE_TYPE;
    *value_type = dwexpr_type_from_encoding(integers[encoding], size);
    return *value_type == DWEXPR_NO_TYPE ? DWEXPR_LIBDW_WANTS + DWEXPR_WANTS_BASE_TYPE : 0;
}
