/* The types of variables, and what they say of numbers. */
#include "values.h"

int dwexpr_libdw_is_left_out(int tag)
{
    return tag == DW_TAG_typedef || tag == DW_TAG_const_type || tag == DW_TAG_volatile_type ||
           tag == DW_TAG_restrict_type || tag == DW_TAG_atomic_type || tag == DW_TAG_immutable_type;
}

uint32_t dwexpr_libdw_type(Dwarf_Die *variable, Dwarf_Die *type)
{
    Dwarf_Attribute attribute;
    Dwarf_Die whole;
    int steps;
    *type = *variable;
    for (steps = 0; steps < 64; steps++) {
        if (!dwarf_formref_die(dwarf_attr_integrate(type, DW_AT_type, &attribute), type))
            return DWEXPR_LIBDW_FAILED;
        /* a declaration, whose type unit has the type */
        if (dwarf_formref_die(dwarf_attr(type, DW_AT_signature, &attribute), &whole))
            *type = whole;
        if (!dwexpr_libdw_is_left_out(dwarf_tag(type)))
            return 0;
    }
    return DWEXPR_LIBDW_FAILED;
}

Dwarf_Die dwexpr_libdw_base(Dwarf_Die *type)
{
    Dwarf_Die base = *type;
    int steps;
    for (steps = 0; steps < 64 && dwarf_tag(&base) == DW_TAG_subrange_type; steps++)
        dwexpr_libdw_type(&base, &base);
    return base;
}

int dwexpr_libdw_has_in_base(Dwarf_Die *type, unsigned name, Dwarf_Attribute *attribute)
{
    Dwarf_Die base = *type;
    int steps;
    for (steps = 0; steps < 64; steps++) {
        const int tag = dwarf_tag(&base);
        if (dwarf_attr_integrate(&base, name, attribute))
            return 1;
        if ((tag != DW_TAG_subrange_type && tag != DW_TAG_enumeration_type) || dwexpr_libdw_type(&base, &base))
            return 0;
    }
    return 0;
}

int dwexpr_libdw_is_scalar(Dwarf_Die *type, Dwarf_Word *size, Dwarf_Word *encoding)
{
    Dwarf_Attribute attribute;
    return dwexpr_libdw_has_in_base(type, DW_AT_byte_size, &attribute) && !dwarf_formudata(&attribute, size) &&
           dwexpr_libdw_has_in_base(type, DW_AT_encoding, &attribute) && !dwarf_formudata(&attribute, encoding);
}

int dwexpr_libdw_is_pointer(int tag)
{
    return tag == DW_TAG_pointer_type || tag == DW_TAG_reference_type || tag == DW_TAG_rvalue_reference_type;
}
