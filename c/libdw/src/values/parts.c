/* Parts of objects: members, variants, elements, and what pointers point to. */
#include "values.h"

/* Makes a part of an object, in its data. If `bits` is 0 its type says how many there are. */
static uint32_t make_part(const dwexpr_libdw_object *whole, const Dwarf_Die *type, uint64_t begin, uint64_t bits,
                          dwexpr_libdw_object **part)
{
    const uint32_t code = dwexpr_libdw_make_object(whole->frame, type, &whole->data, (int64_t)begin, part);
    if (!code) {
        (*part)->whole = whole;
        (*part)->bits = bits;
    }
    return code;
}

uint32_t dwexpr_libdw_object_member(dwexpr_libdw_object *object, Dwarf_Die *member, dwexpr_libdw_object **part)
{
    struct dwexpr_libdw_given given = dwexpr_libdw_given_of(object);
    Dwarf_Die type;
    uint64_t begin, bits;
    uint32_t code = dwexpr_libdw_find_data(object);
    *part = NULL;
    if (!code)
        code = dwexpr_libdw_type(member, &type);
    if (code)
        return code;
    given.object = object->data.value || object->data.begin ? NULL : &object->data.address;
    code = dwexpr_libdw_member_begin(&given, member, &type, &begin, &bits);
    return code ? code : make_part(object, &type, begin, bits, part);
}

/* ---- variants */

/* Whether the lowest bits of two numbers are the same. */
static int is_equal(uint64_t number, uint64_t other, uint64_t bits)
{
    return !((number ^ other) << (64 - bits));
}

/* Reads a number of a list of discriminants. Gives back whether there is one. */
static int read_discriminant(Dwarf_Block *list, int is_signed, uint64_t *number)
{
    unsigned shift = 0;
    uint8_t byte = 0x80;
    *number = 0;
    for (; list->length && byte & 0x80; shift += 7) {
        byte = *list->data++;
        list->length--;
        *number |= shift < 64 ? (uint64_t)(byte & 0x7f) << shift : 0;
    }
    if (is_signed && byte & 0x40 && shift < 64)
        *number |= UINT64_MAX << shift;
    return !(byte & 0x80);
}

/* Whether a list of discriminants has a number: each is a label, or a range from one to another (DWARF 5, 5.7.10). */
static int has_discriminant(Dwarf_Block list, int is_signed, uint64_t number)
{
    const uint64_t sign = is_signed ? (uint64_t)INT64_MIN : 0;
    while (list.length) {
        const int is_range = *list.data++ == DW_DSC_range;
        uint64_t first, last;
        list.length--;
        if (!read_discriminant(&list, is_signed, &first))
            return 0;
        last = first;
        if (is_range && !read_discriminant(&list, is_signed, &last))
            return 0;
        if ((number ^ sign) >= (first ^ sign) && (number ^ sign) <= (last ^ sign))
            return 1;
    }
    return 0;
}

uint32_t dwexpr_libdw_object_variant(dwexpr_libdw_object *object, Dwarf_Die *part, Dwarf_Die *variant)
{
    dwexpr_libdw_object *discriminant = NULL;
    Dwarf_Attribute attribute;
    Dwarf_Die member, child;
    Dwarf_Word value;
    Dwarf_Block list;
    uint64_t number, bits = 64;
    uint32_t code = DWEXPR_LIBDW_NO_NUMBER, other = DWEXPR_LIBDW_NO_PART;
    int is_negative, more;
    if (dwarf_formref_die(dwarf_attr(part, DW_AT_discr, &attribute), &member))
        code = dwexpr_libdw_object_member(object, &member, &discriminant);
    if (!code)
        code = dwexpr_libdw_object_number(discriminant, &number);
    if (!code)
        code = dwexpr_libdw_object_size(discriminant, &bits);
    is_negative = !code && dwexpr_libdw_is_signed(dwexpr_libdw_kind_of(&discriminant->type));
    dwexpr_libdw_object_free(discriminant);
    if (code)
        return code;
    for (more = dwarf_child(part, &child); more == 0; more = dwarf_siblingof(&child, &child)) {
        if (dwarf_tag(&child) != DW_TAG_variant)
            continue;
        if (!dwarf_formudata(dwarf_attr(&child, DW_AT_discr_value, &attribute), &value)
                ? is_equal(value, number, bits)
                : !dwarf_formblock(dwarf_attr(&child, DW_AT_discr_list, &attribute), &list) &&
                      has_discriminant(list, is_negative, number)) {
            *variant = child;
            return 0;
        }
        /* the one for all others */
        if (!dwarf_hasattr(&child, DW_AT_discr_value) && !dwarf_hasattr(&child, DW_AT_discr_list)) {
            *variant = child;
            other = 0;
        }
    }
    return other;
}

/* ---- members by name */

/* A search for a member: through so many parts at most, of which so many are within each other. */
struct search {
    const char *name;
    unsigned left, levels;
    dwexpr_libdw_object *found;
};

/* Looks for a member among the children of an entry: also in members without names, in bases, and in the variant that
 * is there. */
static uint32_t find_member(dwexpr_libdw_object *object, Dwarf_Die *parent, struct search *search)
{
    Dwarf_Die child, variant;
    uint32_t code = DWEXPR_LIBDW_NO_PART;
    int more;
    if (!search->levels)
        return code;
    search->levels--;
    for (more = dwarf_child(parent, &child); more == 0 && code == DWEXPR_LIBDW_NO_PART && search->left;
         more = dwarf_siblingof(&child, &child)) {
        const int tag = dwarf_tag(&child);
        const char *name = tag == DW_TAG_member ? dwarf_diename(&child) : NULL;
        dwexpr_libdw_object *part = NULL, *last;
        search->left--;
        if (tag == DW_TAG_variant_part && !dwexpr_libdw_object_variant(object, &child, &variant))
            code = find_member(object, &variant, search);
        else if (name && !strcmp(name, search->name))
            code = dwexpr_libdw_object_member(object, &child, &search->found);
        else if (tag == DW_TAG_inheritance || (tag == DW_TAG_member && !name))
            dwexpr_libdw_object_member(object, &child, &part);
        if (part)
            code = find_member(part, &part->type, search);
        /* what is found within a part keeps it */
        for (last = search->found; part && last && last->owned; last = last->owned)
            ;
        if (part && last)
            last->owned = part;
        else
            dwexpr_libdw_object_free(part);
    }
    search->levels++;
    return code;
}

uint32_t dwexpr_libdw_object_named(dwexpr_libdw_object *object, const char *name, dwexpr_libdw_object **part)
{
    struct search search = {.name = name, .left = 10000, .levels = 64};
    const uint32_t code = find_member(object, &object->type, &search);
    *part = search.found;
    return code;
}

/* ---- elements */

static uint32_t find_shape(dwexpr_libdw_object *object)
{
    const struct dwexpr_libdw_given given = dwexpr_libdw_given_of(object);
    uint32_t code;
    if (object->has_shape)
        return 0;
    if (dwarf_tag(&object->type) != DW_TAG_array_type)
        return DWEXPR_LIBDW_NO_PART;
    free(object->shape.dimensions.items);
    memset(&object->shape, 0, sizeof object->shape);
    code = dwexpr_libdw_read_shape(&given, &object->type, &object->shape);
    object->has_shape = !code;
    return code;
}

uint32_t dwexpr_libdw_object_shape(dwexpr_libdw_object *object, const dwexpr_libdw_dimension **dimensions, size_t *rank)
{
    const uint32_t code = find_shape(object);
    *dimensions = (const dwexpr_libdw_dimension *)object->shape.dimensions.items;
    *rank = code ? 0 : object->shape.dimensions.length;
    return code;
}

uint32_t dwexpr_libdw_object_element(dwexpr_libdw_object *object, const int64_t *indexes, size_t count,
                                     dwexpr_libdw_object **element)
{
    uint64_t begin = 0;
    size_t i;
    uint32_t code = dwexpr_libdw_find_data(object);
    *element = NULL;
    if (!code)
        code = find_shape(object);
    if (!code && count != object->shape.dimensions.length)
        code = DWEXPR_LIBDW_NO_PART;
    for (i = 0; i < count && !code; i++) {
        dwexpr_libdw_dimension *here = (dwexpr_libdw_dimension *)object->shape.dimensions.items + i;
        const uint64_t place = dwexpr_libdw_indexes(&here->index, here->lower, indexes[i]);
        if (indexes[i] < here->lower || (here->has_count && place >= here->count))
            code = DWEXPR_LIBDW_NO_PART;
        begin += place * (uint64_t)here->stride;
    }
    return code ? code : make_part(object, &object->shape.element, begin, object->shape.bits, element);
}

/* ---- what a pointer points to */

/* The piece that begins where an object does, if that is in a value. */
static const dwexpr_piece *piece_at(const struct dwexpr_libdw_bit_place *place)
{
    uint64_t at = 0;
    size_t i = 0;
    if (!place->value)
        return NULL;
    while (at < place->begin && i < place->value->outcome.pieces)
        at += place->value->pieces[i++].size_in_bits;
    return at == place->begin && i < place->value->outcome.pieces ? &place->value->pieces[i] : NULL;
}

/* Follows a pointer into a variable that has no address: the target is a part of it. */
static uint32_t follow_into(dwexpr_libdw_object *pointer, const dwexpr_piece *piece, const Dwarf_Die *type,
                            dwexpr_libdw_object **target)
{
    dwexpr_libdw_object *variable = NULL;
    dwexpr_libdw_value *value = NULL;
    Dwarf_Die entry, own;
    uint32_t code = dwexpr_libdw_points_into(pointer->data.value, piece, &entry);
    if (!code)
        code = dwexpr_libdw_variable(pointer->frame, &entry, &value);
    if (code)
        dwexpr_libdw_release(value);
    else /* a DWARF procedure has no type */
        code = dwexpr_libdw_make_with(pointer->frame, dwexpr_libdw_type(&entry, &own) ? type : &own, value, &variable);
    if (!code)
        code = dwexpr_libdw_find_data(variable);
    if (!code)
        code = make_part(variable, type, 8 * (uint64_t)piece->byte_offset, 0, target);
    if (code)
        dwexpr_libdw_object_free(variable);
    else
        (*target)->owned = variable;
    return code;
}

uint32_t dwexpr_libdw_object_follow(dwexpr_libdw_object *pointer, dwexpr_libdw_object **target)
{
    const dwexpr_piece *piece;
    Dwarf_Die type;
    uint64_t address;
    uint32_t code = dwexpr_libdw_find_data(pointer);
    *target = NULL;
    if (!dwexpr_libdw_is_pointer(dwarf_tag(&pointer->type)))
        return DWEXPR_LIBDW_NO_PART;
    if (!code)
        code = dwexpr_libdw_type(&pointer->type, &type);
    if (code)
        return code;
    piece = piece_at(&pointer->data);
    if (piece && piece->kind == DWEXPR_POINTS_INTO)
        return follow_into(pointer, piece, &type, target);
    code = dwexpr_libdw_object_number(pointer, &address);
    return code ? code : dwexpr_libdw_object_at(pointer->frame, &type, address, target);
}
