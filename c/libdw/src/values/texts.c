/* The numbers of objects, and their texts. */
#include "values.h"

#include <inttypes.h>
#include <stdio.h>

/* Reads the bits of an object of at most 64 as a number. */
static uint32_t read_number(dwexpr_libdw_object *object, int is_signed, uint64_t *number)
{
    struct dwexpr_libdw_bits bits;
    uint8_t bytes[8];
    uint64_t unused;
    uint32_t code = dwexpr_libdw_find_bits(object, &bits);
    if (!code && (!bits.count || bits.count > 64))
        code = DWEXPR_LIBDW_NO_NUMBER;
    if (!code)
        code = dwexpr_libdw_object_read(object, bits.count, bytes, NULL);
    if (code)
        return code;
    *number = dwexpr_libdw_number_of(bytes, (size_t)dwexpr_libdw_whole_bytes(bits.count), bits.of_number);
    unused = 64 - bits.count;
    *number <<= bits.of_number ? 64 - 8 * dwexpr_libdw_whole_bytes(bits.count) : unused;
    *number = is_signed ? (uint64_t)((int64_t)*number >> unused) : *number >> unused;
    return 0;
}

Dwarf_Word dwexpr_libdw_kind_of(Dwarf_Die *type)
{
    const int tag = dwarf_tag(type);
    Dwarf_Attribute attribute;
    Dwarf_Word kind = tag == DW_TAG_enumeration_type ? DW_ATE_unsigned : 0;
    if (dwexpr_libdw_is_pointer(tag))
        return DW_ATE_address;
    if (dwexpr_libdw_has_in_base(type, DW_AT_encoding, &attribute))
        dwarf_formudata(&attribute, &kind);
    return kind;
}

int dwexpr_libdw_is_signed(Dwarf_Word kind)
{
    return kind == DW_ATE_signed || kind == DW_ATE_signed_char;
}

/* Whether they are integers, or stand for some. */
static int is_number(Dwarf_Word kind)
{
    return dwexpr_libdw_is_signed(kind) || kind == DW_ATE_address || kind == DW_ATE_boolean ||
           kind == DW_ATE_unsigned || kind == DW_ATE_unsigned_char || kind == DW_ATE_UTF;
}

uint32_t dwexpr_libdw_object_number(dwexpr_libdw_object *object, uint64_t *number)
{
    const Dwarf_Word kind = dwexpr_libdw_kind_of(&object->type);
    return is_number(kind) ? read_number(object, dwexpr_libdw_is_signed(kind), number) : DWEXPR_LIBDW_NO_NUMBER;
}

/* Finds an entry below another one. Returns 0; DWEXPR_LIBDW_NO_PART if it stands elsewhere; or
 * DWEXPR_LIBDW_NO_MEMORY. */
static uint32_t find_below(const Dwarf_Die *entry, const Dwarf_Die *parent)
{
    struct dwexpr_libdw_walk walk;
    const uint32_t code = dwexpr_libdw_walk_to(&walk, parent, entry);
    free(walk.path.items);
    return code;
}

uint32_t dwexpr_libdw_discriminant(const dwexpr_libdw_object *object, Dwarf_Die *member, uint64_t *number)
{
    dwexpr_libdw_object part = {.has_data = 1};
    Dwarf_Attribute attribute;
    Dwarf_Word size, kind, begin;
    uint32_t code = 0;
    while (object && (code = find_below(member, &object->type)) == DWEXPR_LIBDW_NO_PART)
        object = object->whole;
    if (code == DWEXPR_LIBDW_NO_MEMORY) /* GCOVR_EXCL_BR_LINE: no memory */
        return code; /* GCOVR_EXCL_LINE: no memory */
    if (!object || object->place.value || dwexpr_libdw_type(member, &part.type) ||
        !dwexpr_libdw_is_scalar(&part.type, &size, &kind) || dwarf_hasattr(member, DW_AT_bit_size) ||
        dwarf_hasattr(member, DW_AT_data_bit_offset) ||
        dwarf_formudata(dwarf_attr(member, DW_AT_data_member_location, &attribute), &begin))
        return DWEXPR_LIBDW_NO_NUMBER;
    part.frame = object->frame;
    part.bits = 8 * size;
    part.data = object->place;
    dwexpr_libdw_move(&part.data, (int64_t)(8 * begin));
    return read_number(&part, dwexpr_libdw_is_signed(kind), number);
}

/* The name of the enumerator of a type that has a number, or NULL. */
static const char *enumerator_of(Dwarf_Die *type, uint64_t number)
{
    Dwarf_Die value;
    Dwarf_Word found;
    int more;
    for (more = dwarf_child(type, &value); dwexpr_libdw_find_enumerator(more, &value, &found);
         more = dwarf_siblingof(&value, &value))
        if (found == number)
            return dwarf_diename(&value);
    return NULL;
}

/* A string in quotes. Each byte that is no printable character of ASCII has a question mark. */
static uint32_t string_text(dwexpr_libdw_object *object, char *text, size_t room)
{
    uint64_t bits;
    size_t length, i;
    uint32_t code = dwexpr_libdw_object_size(object, &bits);
    if (!code && bits / 8 + 3 > room)
        code = DWEXPR_LIBDW_TOO_SMALL;
    length = (size_t)(bits / 8);
    if (!code)
        code = dwexpr_libdw_object_read(object, bits, (uint8_t *)text + 1, NULL);
    if (code)
        return code;
    for (i = 1; i <= length; i++)
        if (text[i] < ' ' || text[i] > '~')
            text[i] = '?';
    text[0] = text[length + 1] = '"';
    text[length + 2] = 0;
    return 0;
}

/* A number as its digits in hexadecimal. */
static uint32_t digits(dwexpr_libdw_object *object, char *text, size_t room)
{
    struct dwexpr_libdw_bits bits;
    uint8_t bytes[DWEXPR_LIBDW_REGISTER_SIZE];
    size_t size, i;
    uint32_t code = dwexpr_libdw_find_bits(object, &bits);
    if (code)
        return code;
    size = (size_t)dwexpr_libdw_whole_bytes(bits.count);
    if (!size || size > sizeof bytes)
        return DWEXPR_LIBDW_NO_NUMBER;
    if (2 * size + 3 > room)
        return DWEXPR_LIBDW_TOO_SMALL;
    code = dwexpr_libdw_object_read(object, bits.count, bytes, NULL);
    snprintf(text, room, "0x");
    for (i = 0; i < size; i++)
        snprintf(text + 2 + 2 * i, 3, "%02x", bytes[bits.of_number ? i : size - 1 - i]);
    return code;
}

uint32_t dwexpr_libdw_object_text(dwexpr_libdw_object *object, char *text, size_t room)
{
    Dwarf_Die type = dwexpr_libdw_base(&object->type);
    const Dwarf_Word kind = dwexpr_libdw_kind_of(&type);
    const char *name = NULL;
    uint64_t number = 0, bits = 0;
    uint32_t low, code;
    int length;
    double real;
    float single;
    if (dwarf_tag(&type) == DW_TAG_string_type)
        return string_text(object, text, room);
    if (!kind && dwarf_tag(&type) != DW_TAG_ptr_to_member_type)
        return DWEXPR_LIBDW_NO_NUMBER;
    code = dwexpr_libdw_object_size(object, &bits);
    if (code || !(is_number(kind) ? bits <= 64 : kind == DW_ATE_float && (bits == 32 || bits == 64)))
        return code ? code : digits(object, text, room);
    code = read_number(object, dwexpr_libdw_is_signed(kind), &number);
    if (code)
        return code;
    if (kind == DW_ATE_boolean)
        name = number == 0 ? "false" : number == 1 ? "true" : NULL;
    else if (dwarf_tag(&type) == DW_TAG_enumeration_type)
        name = enumerator_of(&type, number);
    low = (uint32_t)number;
    memcpy(&real, &number, sizeof real);
    memcpy(&single, &low, sizeof single);
    if (name)
        length = snprintf(text, room, "%s", name);
    else if (kind == DW_ATE_address)
        length = snprintf(text, room, "0x%" PRIx64, number);
    else if (is_number(kind))
        length = snprintf(text, room, dwexpr_libdw_is_signed(kind) ? "%" PRId64 : "%" PRIu64, number);
    else
        length = bits == 64 ? snprintf(text, room, "%.17g", real) : snprintf(text, room, "%.9g", (double)single);
    return (size_t)length < room ? 0 : DWEXPR_LIBDW_TOO_SMALL;
}
