/* Objects: variables and their parts, where their types lay them out in the process. */
#include "values.h"

struct dwexpr_libdw_given dwexpr_libdw_given_of(const dwexpr_libdw_object *object)
{
    const int has_address = !object->place.value && !object->place.begin;
    return (struct dwexpr_libdw_given){.frame = object->frame, .holder = object,
                                       .object = has_address ? &object->place.address : NULL};
}

void dwexpr_libdw_move(struct dwexpr_libdw_bit_place *place, int64_t bits)
{
    bits += (int64_t)place->begin;
    if (!place->value) {
        place->address += (uint64_t)(bits >> 3);
        bits &= 7;
    }
    place->begin = (uint64_t)bits;
}

uint32_t dwexpr_libdw_make_object(dwexpr_libdw_frame *frame, const Dwarf_Die *type,
                                  const struct dwexpr_libdw_bit_place *from, int64_t bits,
                                  dwexpr_libdw_object **object)
{
    dwexpr_libdw_object *made = *object = (dwexpr_libdw_object *)calloc(1, sizeof *made);
    if (!made)
        return DWEXPR_LIBDW_NO_MEMORY;
    made->frame = frame;
    made->type = *type;
    made->place = *from;
    dwexpr_libdw_move(&made->place, bits);
    /* of one that is nowhere defined the place is known */
    dwexpr_libdw_find_layout(frame, &made->type);
    return 0;
}

uint32_t dwexpr_libdw_object_at(dwexpr_libdw_frame *frame, const Dwarf_Die *type, uint64_t address,
                                dwexpr_libdw_object **object)
{
    const struct dwexpr_libdw_bit_place place = {.address = address};
    return dwexpr_libdw_make_object(frame, type, &place, 0, object);
}

uint32_t dwexpr_libdw_make_with(dwexpr_libdw_frame *frame, const Dwarf_Die *type, dwexpr_libdw_value *value,
                          dwexpr_libdw_object **object)
{
    const dwexpr_piece *piece = &value->pieces[0];
    const int has_address = value->outcome.pieces == 1 && piece->kind == DWEXPR_AT_ADDRESS && !piece->has_size;
    const struct dwexpr_libdw_bit_place place = {has_address ? NULL : value, has_address ? piece->number : 0, 0};
    const uint32_t code = dwexpr_libdw_make_object(frame, type, &place, 0, object);
    if (code || has_address)
        dwexpr_libdw_release(value);
    else
        (*object)->value = value;
    return code;
}

uint32_t dwexpr_libdw_object_of_variable(dwexpr_libdw_frame *frame, Dwarf_Die *variable, dwexpr_libdw_object **object)
{
    dwexpr_libdw_value *value = NULL;
    Dwarf_Die type;
    uint32_t code = dwexpr_libdw_type(variable, &type);
    *object = NULL;
    if (!code)
        code = dwexpr_libdw_variable(frame, variable, &value);
    if (!code)
        return dwexpr_libdw_make_with(frame, &type, value, object);
    dwexpr_libdw_release(value);
    return code;
}

uint32_t dwexpr_libdw_object_global(dwexpr_libdw_frame *frame, const char *name, dwexpr_libdw_object **object)
{
    Dwarf_Die *globals;
    size_t count, i;
    uint32_t code = dwexpr_libdw_globals(frame, NULL, name, &globals, &count);
    *object = NULL;
    if (!code)
        code = DWEXPR_LIBDW_NOT_DEFINED;
    for (i = 0; i < count && !*object && code != DWEXPR_LIBDW_NO_MEMORY; i++)
        code = dwexpr_libdw_object_of_variable(frame, &globals[i], object);
    free(globals);
    return code;
}

void dwexpr_libdw_object_free(dwexpr_libdw_object *object)
{
    while (object) {
        dwexpr_libdw_object *owned = object->owned;
        dwexpr_libdw_release(object->value);
        free(object->shape.dimensions.items);
        free(object);
        object = owned;
    }
}

Dwarf_Die dwexpr_libdw_object_type(const dwexpr_libdw_object *object)
{
    return object->type;
}

uint32_t dwexpr_libdw_object_size(const dwexpr_libdw_object *object, uint64_t *bits)
{
    const struct dwexpr_libdw_given given = dwexpr_libdw_given_of(object);
    Dwarf_Die type = object->type;
    *bits = object->bits;
    return *bits ? 0 : dwexpr_libdw_size_of(&given, &type, bits);
}

uint32_t dwexpr_libdw_find_data(dwexpr_libdw_object *object)
{
    const struct dwexpr_libdw_given given = dwexpr_libdw_given_of(object);
    Dwarf_Die *type = &object->type;
    Dwarf_Attribute attribute;
    uint64_t is_allocated, is_associated = 1;
    uint32_t code;
    if (object->has_data)
        return 0;
    code = dwexpr_libdw_number_or(&given, type, DW_AT_allocated, 1, &is_allocated);
    if (!code)
        code = dwexpr_libdw_number_or(&given, type, DW_AT_associated, 1, &is_associated);
    if (!code && !(is_allocated && is_associated))
        return DWEXPR_LIBDW_OPTIMIZED_AWAY;
    object->data = object->place;
    if (!code && dwarf_attr_integrate(type, DW_AT_data_location, &attribute)) {
        object->data = (struct dwexpr_libdw_bit_place){.address = 0};
        code = dwexpr_libdw_number_with(&given, &attribute, &object->data.address);
    }
    object->has_data = !code;
    return code;
}

uint32_t dwexpr_libdw_object_address(dwexpr_libdw_object *object, uint64_t *address, uint64_t *bit)
{
    const uint32_t code = dwexpr_libdw_find_data(object);
    *address = object->data.address;
    *bit = object->data.begin;
    return code || !object->data.value ? code : DWEXPR_LIBDW_NO_NUMBER;
}

/* ---- bits */

uint32_t dwexpr_libdw_find_bits(dwexpr_libdw_object *object, struct dwexpr_libdw_bits *bits)
{
    dwexpr_encoding encoding = {.big_endian = 0};
    Dwarf_Attribute attribute;
    Dwarf_Word order = DW_END_default;
    const uint32_t code = dwexpr_libdw_find_data(object);
    dwexpr_libdw_encoding(object->type.cu, &encoding);
    if (dwexpr_libdw_has_in_base(&object->type, DW_AT_endianity, &attribute))
        dwarf_formudata(&attribute, &order);
    bits->of_unit = encoding.big_endian;
    bits->of_number = order == DW_END_default ? encoding.big_endian : order == DW_END_big;
    return code ? code : dwexpr_libdw_object_size(object, &bits->count);
}

/* Reads bits from a place on, as they lie in memory. */
static uint32_t read_bits(const dwexpr_libdw_object *object, const struct dwexpr_libdw_bit_place *place, uint64_t count,
                          int big_endian, uint8_t *bytes, uint8_t *unknown)
{
    const dwexpr_libdw_object *root = object;
    uint64_t size;
    uint32_t code;
    if (!place->value)
        return dwexpr_libdw_read_at(object->frame, place->address, place->begin, count, big_endian, bytes, unknown);
    while (root->whole)
        root = root->whole;
    code = dwexpr_libdw_object_size(root, &size);
    if (!code && (place->begin > size || count > size - place->begin))
        code = DWEXPR_LIBDW_TOO_SMALL;
    return code ? code
                : dwexpr_libdw_read_part(object->frame, place->value, size, place->begin, count, bytes, unknown);
}

/* Reads the bits of a number whose order isn't its unit's, and which may begin within a byte. */
static uint32_t read_reversed(const dwexpr_libdw_object *object, uint64_t count, const struct dwexpr_libdw_bits *bits,
                              uint8_t *bytes, uint8_t *unknown)
{
    struct dwexpr_libdw_bit_place from = object->data;
    const uint64_t skipped = from.begin % 8;
    uint8_t whole[9], lost[9];
    uint32_t code;
    if (count > 64)
        return DWEXPR_LIBDW_NO_NUMBER;
    from.begin -= skipped;
    code = read_bits(object, &from, 8 * dwexpr_libdw_whole_bytes(skipped + count), bits->of_unit, whole, lost);
    dwexpr_libdw_take_bits(bytes, whole, skipped, count, bits->of_number);
    if (unknown)
        dwexpr_libdw_take_bits(unknown, lost, skipped, count, bits->of_number);
    return code;
}

uint32_t dwexpr_libdw_object_read(dwexpr_libdw_object *object, uint64_t size_in_bits, uint8_t *bytes, uint8_t *unknown)
{
    struct dwexpr_libdw_bits bits;
    const uint32_t code = dwexpr_libdw_find_bits(object, &bits);
    if (code || size_in_bits > bits.count)
        return code ? code : DWEXPR_LIBDW_TOO_SMALL;
    if (bits.of_number != bits.of_unit)
        return read_reversed(object, size_in_bits, &bits, bytes, unknown);
    return read_bits(object, &object->data, size_in_bits, bits.of_unit, bytes, unknown);
}
