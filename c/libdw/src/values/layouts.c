/* How types lay out the bits of objects: their sizes, the elements of arrays, and the places of members. */
#include "values.h"

/* ---- numbers */

/* Multiplies two numbers. The product isn't known if it has more than 64 bits. */
static uint32_t multiply(uint64_t number, uint64_t factor, uint64_t *product)
{
    return __builtin_mul_overflow(number, factor, product) ? DWEXPR_LIBDW_NO_NUMBER : 0;
}

uint64_t dwexpr_libdw_whole_bytes(uint64_t bits)
{
    return bits / 8 + (bits % 8 != 0);
}

/* The bits between two elements, or two indexes, as an entry says them; 0 if it doesn't. */
static uint32_t find_stride(const struct dwexpr_libdw_given *given, Dwarf_Die *entry, uint64_t *stride)
{
    const uint32_t code = dwexpr_libdw_number_or(given, entry, DW_AT_byte_stride, 0, stride);
    return code ? code : dwexpr_libdw_number_or(given, entry, DW_AT_bit_stride, 8 * *stride, stride);
}

/* ---- types */

uint32_t dwexpr_libdw_find_layout(dwexpr_libdw_frame *frame, Dwarf_Die *type)
{
    const uint32_t code = dwexpr_libdw_is_left_out(dwarf_tag(type)) ? dwexpr_libdw_type(type, type) : 0;
    return code || !dwarf_hasattr(type, DW_AT_declaration) ? code : dwexpr_libdw_definition(frame, type, type);
}

static uint32_t find_type(dwexpr_libdw_frame *frame, Dwarf_Die *entry, Dwarf_Die *type)
{
    const uint32_t code = dwexpr_libdw_type(entry, type);
    return code ? code : dwexpr_libdw_find_layout(frame, type);
}

/* ---- arrays */

int dwexpr_libdw_find_enumerator(int more, Dwarf_Die *entry, Dwarf_Word *number)
{
    Dwarf_Attribute attribute;
    for (; more == 0; more = dwarf_siblingof(entry, entry))
        if (dwarf_tag(entry) == DW_TAG_enumerator &&
            !dwarf_formudata(dwarf_attr(entry, DW_AT_const_value, &attribute), number))
            return 1;
    return 0;
}

uint64_t dwexpr_libdw_indexes(Dwarf_Die *type, int64_t lower, int64_t number)
{
    Dwarf_Die value;
    Dwarf_Word found;
    uint64_t count = 0;
    int more;
    if (dwarf_tag(type) != DW_TAG_enumeration_type)
        return (uint64_t)number - (uint64_t)lower;
    for (more = dwarf_child(type, &value); dwexpr_libdw_find_enumerator(more, &value, &found);
         more = dwarf_siblingof(&value, &value))
        count += (int64_t)found >= lower && (int64_t)found < number;
    return count;
}

int64_t dwexpr_libdw_index(const dwexpr_libdw_dimension *dimension, uint64_t place)
{
    Dwarf_Die type = dimension->index, value;
    Dwarf_Word found;
    int more;
    if (dwarf_tag(&type) != DW_TAG_enumeration_type)
        return (int64_t)((uint64_t)dimension->lower + place);
    for (more = dwarf_child(&type, &value); dwexpr_libdw_find_enumerator(more, &value, &found);
         more = dwarf_siblingof(&value, &value))
        if ((int64_t)found >= dimension->lower && !place--)
            return (int64_t)found;
    return INT64_MAX;
}

/* The language of an entry's unit, DW_LANG_*; -1 if it isn't known. */
static int language_of(Dwarf_Die *entry)
{
    Dwarf_Die unit;
    dwarf_diecu(entry, &unit, NULL, NULL);
    return dwarf_srclang(&unit);
}

static uint32_t add_dimension(const struct dwexpr_libdw_given *given, Dwarf_Die *range,
                              struct dwexpr_libdw_shape *shape)
{
    const int is_whole = dwarf_tag(range) == DW_TAG_enumeration_type; /* each of its values is an index */
    dwexpr_libdw_dimension found = {.index = dwexpr_libdw_base(range)};
    Dwarf_Sword first = 0;
    uint64_t stride, lower = (uint64_t)INT64_MIN, last = INT64_MAX - 1;
    int64_t end;
    uint32_t code = find_stride(given, range, &stride);
    dwarf_default_lower_bound(language_of(range), &first);
    if (!code && !is_whole)
        code = dwexpr_libdw_number_or(given, range, DW_AT_lower_bound, (uint64_t)first, &lower);
    if (!code && !is_whole)
        code = dwexpr_libdw_number_or(given, range, DW_AT_upper_bound, lower - 1, &last);
    if (code)
        return code;
    found.stride = (int64_t)stride;
    found.lower = (int64_t)lower;
    found.has_count = is_whole || dwarf_hasattr_integrate(range, DW_AT_upper_bound) ||
                      dwarf_hasattr_integrate(range, DW_AT_count);
    /* an upper bound below the lower one is an array without elements */
    end = (int64_t)(last + 1);
    found.count = end < found.lower ? 0 : dwexpr_libdw_indexes(&found.index, found.lower, end);
    code = dwexpr_libdw_number_or(given, range, DW_AT_count, found.count, &found.count);
    return code ? code : dwexpr_libdw_add(&shape->dimensions, &found, sizeof found);
}

enum { MOST_DIMENSIONS = 64, MOST_ARRAYS = 64 };

/* Adds the dimensions of an array: an entry for each, or one for all, whose number is computed (DW_AT_rank). */
static uint32_t add_dimensions(const struct dwexpr_libdw_given *given, Dwarf_Die *array,
                               struct dwexpr_libdw_shape *shape)
{
    struct dwexpr_libdw_given own = *given;
    Dwarf_Die range;
    uint64_t rank, i;
    uint32_t code = dwexpr_libdw_number_or(given, array, DW_AT_rank, 1, &rank);
    int more;
    for (more = dwarf_child(array, &range); more == 0; more = dwarf_siblingof(&range, &range)) {
        const int tag = dwarf_tag(&range);
        const int is_generic = tag == DW_TAG_generic_subrange;
        if (tag != DW_TAG_subrange_type && tag != DW_TAG_enumeration_type && !is_generic)
            continue;
        own.initial = is_generic ? &i : NULL;
        for (i = 0; i < (is_generic ? rank : 1) && !code; i++)
            code = shape->dimensions.length < MOST_DIMENSIONS ? add_dimension(&own, &range, shape)
                                                              : DWEXPR_LIBDW_NO_NUMBER;
    }
    return code;
}

/* In which order the indexes of an array change, DW_ORD_*: as it says, or else as its language has it. */
static uint32_t find_ordering(const struct dwexpr_libdw_given *given, Dwarf_Die *array, uint64_t *ordering)
{
    const int language = language_of(array);
    const int is_fortran = language == DW_LANG_Fortran77 || language == DW_LANG_Fortran90 ||
                           language == DW_LANG_Fortran95 || language == DW_LANG_Fortran03 ||
                           language == DW_LANG_Fortran08;
    return dwexpr_libdw_number_or(given, array, DW_AT_ordering, is_fortran ? DW_ORD_col_major : DW_ORD_row_major,
                                  ordering);
}

/* Gives each dimension its stride, from the one whose index changes fastest. `next` is the bits between two elements
 * there. */
static uint32_t set_strides(struct dwexpr_libdw_shape *shape, int is_reversed, uint64_t next)
{
    const size_t length = shape->dimensions.length;
    uint64_t count = 1;
    size_t i;
    uint32_t code = 0;
    shape->total = next;
    shape->is_contiguous = 1;
    for (i = 0; i < length && !code; i++) {
        dwexpr_libdw_dimension *here = (dwexpr_libdw_dimension *)shape->dimensions.items +
                                       (is_reversed ? length - 1 - i : i);
        if (!here->has_count && i + 1 < length)
            return DWEXPR_LIBDW_NO_NUMBER;
        shape->is_contiguous &= here->has_count &&
                                (!here->stride || here->stride == (int64_t)next || here->count < 2);
        here->stride = here->stride ? here->stride : (int64_t)next;
        next *= here->count;
        code = multiply(count, here->count, &count);
    }
    return code ? code : multiply(shape->total, count, &shape->total);
}

uint32_t dwexpr_libdw_read_shape(const struct dwexpr_libdw_given *given, Dwarf_Die *array,
                                 struct dwexpr_libdw_shape *shape)
{
    uint64_t next, ordering;
    uint32_t code = add_dimensions(given, array, shape);
    if (!code)
        code = find_type(given->frame, array, &shape->element);
    if (!code)
        code = dwexpr_libdw_size_of(given, &shape->element, &shape->bits);
    if (!code)
        code = find_stride(given, array, &next);
    if (!code)
        code = find_ordering(given, array, &ordering);
    if (code)
        return code;
    if (next && next < shape->bits) /* it is packed */
        shape->bits = next;
    return set_strides(shape, ordering != DW_ORD_col_major, next ? next : shape->bits);
}

/* ---- sizes, in bits */

/* The bytes of a type that isn't an array, or that has DW_AT_byte_size. */
static uint32_t other_size(const struct dwexpr_libdw_given *given, Dwarf_Die *type, uint64_t *bytes)
{
    const int tag = dwarf_tag(type);
    Dwarf_Attribute attribute;
    Dwarf_Die unit, target;
    uint8_t address_size = 0;
    uint32_t code = 0;
    if (dwarf_hasattr(type, DW_AT_declaration)) /* its definition wasn't found */
        code = dwexpr_libdw_definition(given->frame, type, &target);
    if (code)
        return code;
    if (dwexpr_libdw_has_in_base(type, DW_AT_byte_size, &attribute))
        return dwexpr_libdw_number_with(given, &attribute, bytes);
    dwarf_diecu(type, &unit, &address_size, NULL);
    *bytes = address_size;
    if (tag == DW_TAG_pointer_type || tag == DW_TAG_reference_type || tag == DW_TAG_rvalue_reference_type)
        return 0;
    if (tag == DW_TAG_ptr_to_member_type) { /* of a function it has a second word */
        if (!dwexpr_libdw_type(type, &target) && dwarf_tag(&target) == DW_TAG_subroutine_type)
            *bytes *= 2;
        return 0;
    }
    if (tag == DW_TAG_string_type && dwarf_attr_integrate(type, DW_AT_string_length, &attribute))
        return dwexpr_libdw_string_length(given, type, &attribute, bytes);
    if (!dwarf_attr_integrate(type, DW_AT_bit_size, &attribute))
        return DWEXPR_LIBDW_NO_NUMBER;
    code = dwexpr_libdw_number_with(given, &attribute, bytes);
    *bytes = dwexpr_libdw_whole_bytes(*bytes);
    return code;
}

uint32_t dwexpr_libdw_size_of(const struct dwexpr_libdw_given *given, Dwarf_Die *type, uint64_t *bits)
{
    struct dwexpr_libdw_shape shape = {.bits = 0};
    struct dwexpr_libdw_given own = *given;
    uint32_t code;
    *bits = 0;
    if (dwarf_hasattr_integrate(type, DW_AT_byte_size) || dwarf_tag(type) != DW_TAG_array_type) {
        code = other_size(given, type, bits);
        return code ? code : multiply(8, *bits, bits);
    }
    if (++own.arrays > MOST_ARRAYS)
        return DWEXPR_LIBDW_NO_NUMBER;
    code = dwexpr_libdw_read_shape(&own, type, &shape);
    free(shape.dimensions.items);
    if (!code && !shape.is_contiguous)
        code = DWEXPR_LIBDW_NO_NUMBER;
    return code ? code : multiply(8, dwexpr_libdw_whole_bytes(shape.total), bits);
}

/* ---- members */

/* Moves the begin of a bit field by what DW_AT_bit_offset says: DWARF 3 counts its bits from the highest one of the
 * bytes that hold it (5.6.6). `bits` is 0 if the member doesn't say how many it has. */
static uint32_t add_old_offset(const struct dwexpr_libdw_given *given, Dwarf_Die *member, Dwarf_Die *type,
                               uint64_t bits, uint64_t *begin)
{
    uint64_t highest = 0, size, bytes = 0;
    dwexpr_encoding encoding;
    uint32_t code = dwexpr_libdw_size_of(given, type, &size);
    if (!code)
        code = dwexpr_libdw_number_or(given, member, DW_AT_bit_offset, 0, &highest);
    if (!code)
        code = dwexpr_libdw_number_or(given, member, DW_AT_byte_size, size / 8, &bytes);
    if (!code)
        code = dwexpr_libdw_encoding(member->cu, &encoding);
    if (!code)
        *begin += encoding.big_endian ? highest : 8 * bytes - highest - (bits ? bits : size);
    return code;
}

uint32_t dwexpr_libdw_member_begin(const struct dwexpr_libdw_given *given, Dwarf_Die *member, Dwarf_Die *type,
                                   uint64_t *begin, uint64_t *bits)
{
    const uint64_t whole = given->object ? *given->object : 0;
    struct dwexpr_libdw_given own = *given;
    Dwarf_Attribute attribute;
    Dwarf_Block block;
    uint32_t code = dwexpr_libdw_number_or(given, member, DW_AT_bit_size, 0, bits);
    *begin = 0;
    if (dwarf_hasattr(member, DW_AT_declaration)) /* that of a class, which no object holds */
        return DWEXPR_LIBDW_NO_NUMBER;
    if (!code && dwarf_attr(member, DW_AT_data_member_location, &attribute)) {
        own.object = &whole;
        code = dwexpr_libdw_number_with(&own, &attribute, begin);
        /* an expression gives the member's address */
        *begin -= dwarf_formblock(&attribute, &block) ? 0 : whole;
    }
    if (!code)
        code = dwexpr_libdw_number_or(given, member, DW_AT_data_bit_offset, 8 * *begin, begin);
    return code || !dwarf_hasattr(member, DW_AT_bit_offset) ? code : add_old_offset(given, member, type, *bits, begin);
}
