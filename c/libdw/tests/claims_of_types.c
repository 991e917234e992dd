/* Claims on types, and on objects and their parts. */
#include <dwarf.h>

#include "claims.h"

const uint64_t object_address = 0x1010;

int is_said(const char *word, uint32_t code, uint64_t number)
{
    if (code && subject.may_refuse)
        return 1;
    return strcmp(word, "none") ? !code && number == strtoull(word, NULL, 10) : code != 0;
}

/* The object of a row and, one after the other, those on the path to a part of it. */
static dwexpr_libdw_object *parts[8];
static size_t parts_length;
static int lacks_place; /* an index of an element on the path */

static void free_parts(void)
{
    while (parts_length)
        dwexpr_libdw_object_free(parts[--parts_length]);
}

static uint32_t begin_parts(Dwarf_Die *type)
{
    const uint32_t code = dwexpr_libdw_object_at(frame_number(0), type, object_address, &parts[0]);
    parts_length = !code;
    return code;
}

/* Whether each index has a place in its dimension. */
static int have_places(dwexpr_libdw_object *array, const int64_t *indexes, size_t count)
{
    const dwexpr_libdw_dimension *dimensions;
    size_t rank, i;
    uint64_t at;
    for (i = 0; !dwexpr_libdw_object_shape(array, &dimensions, &rank) && i < rank && i < count; i++) {
        for (at = 0; at < 100 && dwexpr_libdw_index(&dimensions[i], at) != indexes[i]; at++)
            ;
        if (at >= (dimensions[i].has_count ? dimensions[i].count : 100))
            return 0;
    }
    return 1;
}

/* Finds an element. */
static uint32_t find_element(dwexpr_libdw_object *array, const char *said, dwexpr_libdw_object **element)
{
    int64_t indexes[80];
    size_t count = 0;
    int read;
    uint32_t code;
    for (; sscanf(said, "%ld%n", &indexes[count], &read) == 1; said += read + (said[read] == ','))
        count++;
    code = dwexpr_libdw_object_element(array, indexes, count, element);
    lacks_place |= !have_places(array, indexes, count) && !code;
    return code;
}

/* Goes to the part that a path names. */
static uint32_t go(const char *path)
{
    uint32_t code = 0;
    lacks_place = 0;
    for (; *path && !code; parts_length += !code) {
        dwexpr_libdw_object *whole = parts[parts_length - 1], **part = &parts[parts_length];
        const size_t length = strcspn(path + 1, ".[*");
        char name[64] = "";
        memcpy(name, path + 1, length);
        code = *path == '.'   ? dwexpr_libdw_object_named(whole, name, part)
               : *path == '[' ? find_element(whole, name, part)
                              : dwexpr_libdw_object_follow(whole, part);
        path += 1 + length;
    }
    return code;
}

/* Whether a part of the object is where a word says, in bits from the object's data, and has so many bits. */
static int is_placed(Dwarf_Die *type, const char *path, const char *begins, const char *has)
{
    uint64_t data = 0, address = 0, bit = 0, bits = 0;
    uint32_t code = begin_parts(type), unknown = 0;
    if (!code)
        code = dwexpr_libdw_object_address(parts[0], &data, &bit);
    if (!code)
        code = go(path);
    if (!code)
        code = dwexpr_libdw_object_address(parts[parts_length - 1], &address, &bit);
    if (!code)
        unknown = dwexpr_libdw_object_size(parts[parts_length - 1], &bits);
    free_parts();
    return !lacks_place && is_said(begins, code, 8 * (address - data) + bit) && (code || is_said(has, unknown, bits));
}

/* Whether an object has the number that its text says, if that is one, and its bits are known then; and no number if it
 * has no text. */
static int has_number(dwexpr_libdw_object *part, uint32_t code, const char *text)
{
    uint8_t bytes[64], unknown[64] = {1};
    uint64_t number = 0, bits;
    const int is_known = !dwexpr_libdw_object_number(part, &number);
    if (dwexpr_libdw_object_size(part, &bits) || bits > 8 * sizeof bytes)
        return !is_known;
    if (!dwexpr_libdw_object_read(part, bits + 1, bytes, unknown))
        return 0;
    if (code)
        return !is_known || code == DWEXPR_LIBDW_TOO_SMALL;
    return !dwexpr_libdw_object_read(part, bits, bytes, unknown) && !unknown[0] &&
           (!is_known || !strspn(text, "-0123456789") || strtoull(text, NULL, 0) == number);
}

/* Whether a text is what is said, which may be several with `, or ` between them. */
static int is_one_of(const char *text, const char *said)
{
    static const char or[] = ", or ";
    const char *next = strstr(said, or);
    const size_t length = next ? (size_t)(next - said) : strlen(said);
    return (strlen(text) == length && !strncmp(text, said, length)) || (next && is_one_of(text, next + strlen(or)));
}

int has_text(uint32_t code, dwexpr_libdw_object *object, const char *path, const char *said)
{
    char text[64];
    int holds;
    parts[0] = object;
    parts_length = !code;
    if (!code)
        code = go(path);
    holds = !lacks_place;
    if (!code) {
        code = dwexpr_libdw_object_text(parts[parts_length - 1], text, sizeof text);
        holds &= has_number(parts[parts_length - 1], code, text);
    }
    free_parts();
    return (code && subject.may_refuse) || (holds && is_one_of(code ? dwexpr_libdw_code_name(code) : text, said));
}

/* Checks the size of a type, and of the variable's as it stands: that of a typedef. */
static int has_size(Dwarf_Die *type, const char *said)
{
    Dwarf_Attribute attribute;
    char bits[32] = "none";
    int holds;
    if (strcmp(said, "none"))
        snprintf(bits, sizeof bits, "%llu", 8 * strtoull(said, NULL, 10));
    holds = is_placed(type, "", "0", bits);
    if (dwarf_formref_die(dwarf_attr(&subject.variable, DW_AT_type, &attribute), type))
        holds &= is_placed(type, "", "0", bits);
    return holds;
}

/* data N, and vtable N */
static int has_place(Dwarf_Die *type, const char *kind, const char *said)
{
    Dwarf_Attribute attribute;
    uint64_t number = 0, bit;
    uint32_t code;
    if (!strcmp(kind, "vtable")) {
        dwarf_attr(type, DW_AT_vtable_elem_location, &attribute);
        code = dwexpr_libdw_number(frame_number(0), &attribute, &object_address, &number);
        return is_said(said, code, number);
    }
    code = begin_parts(type);
    if (!code)
        code = dwexpr_libdw_object_address(parts[0], &number, &bit);
    free_parts();
    return strcmp(said, "memory") ? is_said(said, code, number) : !code && number != object_address;
}

/* without, and nowhere */
static int is_unknown(const char *kind)
{
    uint64_t number, bit;
    uint32_t code = dwexpr_libdw_object_of_variable(frame_number(0), &subject.variable, &parts[0]);
    parts_length = !code;
    if (!code)
        code = !strcmp(kind, "without") ? dwexpr_libdw_object_size(parts[0], &number)
                                        : dwexpr_libdw_object_address(parts[0], &number, &bit);
    free_parts();
    return code != 0;
}

/* PATH is TEXT */
static int has_part_text(Dwarf_Die *type, const char *path, const char *said)
{
    dwexpr_libdw_object *object = NULL;
    uint32_t code;
    if (*path != '=') {
        code = begin_parts(type);
        return has_text(code, parts[0], path, said);
    }
    code = dwexpr_libdw_object_of_variable(frame_number(0), &subject.variable, &object);
    return has_text(code, object, path + 1, said);
}

int is_of_type(const char *claim)
{
    static const char *const kinds[] = {"size ", "at ", "member ", "data ", "vtable ", "type ", "without", "nowhere"};
    size_t i = 0;
    while (i < COUNT(kinds) && strncmp(claim, kinds[i], strlen(kinds[i])))
        i++;
    return strchr(".[*=", *claim) || (i < COUNT(kinds) && !strstr(claim, " is "));
}

int is_type(const char *claim)
{
    char word[4][64] = {"", "", "", ""}, path[70];
    const char *said = strstr(claim, " is ");
    Dwarf_Die type = {.addr = NULL};
    const uint32_t code = dwexpr_libdw_type(&subject.variable, &type);
    sscanf(claim, "%63s %63s %63s %63s", word[0], word[1], word[2], word[3]);
    snprintf(path, sizeof path, !strcmp(word[0], "at") ? "[%s]" : ".%s", word[1]);
    if (said)
        return has_part_text(&type, word[0], said + 4);
    if (!strcmp(word[0], "size"))
        return has_size(&type, word[1]);
    if (!strcmp(word[0], "at") || !strcmp(word[0], "member"))
        return is_placed(&type, path, word[2], word[3]);
    if (!strcmp(word[0], "type"))
        return code != 0;
    return *word[1] ? has_place(&type, word[0], word[1]) : is_unknown(word[0]);
}
