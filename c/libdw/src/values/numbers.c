/* The numbers of attributes: constants, and the values of expressions and variables. */
#include "values.h"

/* Reads a value of so many bytes as a number. */
static uint32_t read_number(const dwexpr_libdw_value *value, Dwarf_Word size, int is_signed, uint64_t *number)
{
    uint8_t bytes[8];
    const unsigned unused = 64 - 8 * (unsigned)size;
    const uint32_t code = !size || size > sizeof bytes ? DWEXPR_LIBDW_NO_NUMBER
                                                       : dwexpr_libdw_read(value->frame, value, 8 * size, bytes, NULL);
    if (code)
        return code;
    *number = dwexpr_libdw_number_of(bytes, (size_t)size, value->encoding.big_endian) << unused;
    *number = is_signed ? (uint64_t)((int64_t)*number >> unused) : *number >> unused;
    return 0;
}

/* The number that a variable has, as a bound of an array. */
static uint32_t variable_number(const struct dwexpr_libdw_given *given, Dwarf_Die *variable, uint64_t *number)
{
    dwexpr_libdw_value *value;
    Dwarf_Die type;
    Dwarf_Word size, encoding;
    uint32_t code;
    if (dwexpr_libdw_type(variable, &type) || !dwexpr_libdw_is_scalar(&type, &size, &encoding))
        return DWEXPR_LIBDW_NO_NUMBER;
    code = dwexpr_libdw_variable(given->frame, variable, &value);
    if (!code)
        code = read_number(value, size, encoding == DW_ATE_signed || encoding == DW_ATE_signed_char, number);
    dwexpr_libdw_release(value);
    return code;
}

/* Whether an attribute is an expression or a list of locations. */
static int is_location(Dwarf_Attribute *attribute)
{
    const unsigned form = dwarf_whatform(attribute);
    Dwarf_Block block;
    return !dwarf_formblock(attribute, &block) || form == DW_FORM_sec_offset || form == DW_FORM_loclistx;
}

uint32_t dwexpr_libdw_number_with(const struct dwexpr_libdw_given *given, Dwarf_Attribute *attribute, uint64_t *number)
{
    const unsigned name = dwarf_whatattr(attribute);
    struct dwexpr_libdw_given own = *given;
    Dwarf_Die entry;
    *number = 0;
    dwexpr_libdw_find_place(given->frame);
    if (name == DW_AT_data_member_location || name == DW_AT_vtable_elem_location)
        own.initial = given->object;
    if (is_location(attribute))
        return dwexpr_libdw_attribute_number(&own, attribute, number);
    if (dwarf_formref_die(attribute, &entry))
        return dwarf_tag(&entry) == DW_TAG_member ? dwexpr_libdw_discriminant(given->holder, &entry, number)
                                                  : variable_number(given, &entry, number);
    return dwarf_formudata(attribute, number) ? DWEXPR_LIBDW_NO_NUMBER : 0;
}

uint32_t dwexpr_libdw_number_or(const struct dwexpr_libdw_given *given, Dwarf_Die *entry, unsigned name, uint64_t other,
                                uint64_t *number)
{
    Dwarf_Attribute attribute;
    *number = other;
    return dwarf_attr_integrate(entry, name, &attribute) ? dwexpr_libdw_number_with(given, &attribute, number) : 0;
}

uint32_t dwexpr_libdw_number(dwexpr_libdw_frame *frame, Dwarf_Attribute *attribute, const uint64_t *object,
                             uint64_t *number)
{
    const struct dwexpr_libdw_given given = {.frame = frame, .object = object};
    return dwexpr_libdw_number_with(&given, attribute, number);
}

uint32_t dwexpr_libdw_string_length(const struct dwexpr_libdw_given *given, Dwarf_Die *type,
                                    Dwarf_Attribute *attribute, uint64_t *bytes)
{
    Dwarf_Attribute size;
    Dwarf_Word count;
    dwexpr_libdw_value *value;
    uint32_t code;
    if (!is_location(attribute))
        return dwexpr_libdw_number_with(given, attribute, bytes);
    code = dwexpr_libdw_attribute_value(given, attribute, &value);
    if (!code && dwarf_formudata(dwarf_attr_integrate(type, DW_AT_string_length_byte_size, &size), &count))
        count = value->encoding.address_size;
    if (!code)
        code = read_number(value, count, 0, bytes);
    dwexpr_libdw_release(value);
    return code;
}
