/* The definitions of types that are only declared. */
#include "values.h"

/* Whether two entries have the same name, and are of the same kind. */
static int is_same(Dwarf_Die *first, Dwarf_Die *second)
{
    const int tag = dwarf_tag(first), other = dwarf_tag(second);
    const int are_classes = (tag == DW_TAG_structure_type || tag == DW_TAG_class_type) &&
                            (other == DW_TAG_structure_type || other == DW_TAG_class_type);
    const char *name = dwarf_diename(first), *wanted = dwarf_diename(second);
    return (tag == other || are_classes) && name && wanted && !strcmp(name, wanted);
}

/* ---- searches */

struct search {
    struct dwexpr_libdw_walk type;  /* the path to a declaration */
    struct dwexpr_libdw_list found; /* its definitions */
};

/* Looks for definitions in namespaces and classes of the same names. */
static uint32_t search_unit(void *context, const Dwarf_Die *unit)
{
    struct search *search = (struct search *)context;
    const size_t wanted = search->type.path.length;
    struct dwexpr_libdw_walk walk;
    int enters = 1;
    uint32_t code = dwexpr_libdw_begin_walk(&walk, unit);
    while (!code && !(code = dwexpr_libdw_next_entry(&walk, enters))) {
        const size_t depth = walk.path.length;
        Dwarf_Die *entry = dwexpr_libdw_here(&walk);
        const int same = depth <= wanted && is_same(entry, (Dwarf_Die *)search->type.path.items + depth - 1);
        enters = same && depth < wanted;
        if (same && depth == wanted && !dwarf_hasattr(entry, DW_AT_declaration))
            code = dwexpr_libdw_add(&search->found, entry, sizeof *entry);
    }
    free(walk.path.items);
    return code == DWEXPR_LIBDW_NO_PART ? 0 : code;
}

static uint32_t search_module(void *context, Dwfl_Module *module)
{
    return dwexpr_libdw_visit_units(module, search_unit, context);
}

/* Searches all modules, and the frame's unit, which may be in none. */
static uint32_t search_all(struct search *search, dwexpr_libdw_frame *frame)
{
    const Dwarf_Die *unit = &frame->place.unit;
    const uint32_t code = unit->addr ? search_unit(search, unit) : 0;
    return code ? code : dwexpr_libdw_visit_modules(frame, search_module, search);
}

/* ---- definitions that may differ */

/* How much of two definitions is compared. */
struct comparison {
    unsigned left, level;
};

/* The attributes of a type, or of a member, that say how its bits are laid out. */
static const unsigned laid_out[] = {
    DW_AT_byte_size, DW_AT_bit_size, DW_AT_data_member_location, DW_AT_data_bit_offset, DW_AT_bit_offset,
    DW_AT_encoding, DW_AT_count, DW_AT_lower_bound, DW_AT_upper_bound, DW_AT_const_value, DW_AT_endianity,
};

static int has_same_number(Dwarf_Die *first, Dwarf_Die *second, unsigned name)
{
    Dwarf_Attribute attribute, other_attribute;
    Dwarf_Word number, other;
    const int has = dwarf_attr_integrate(first, name, &attribute) != NULL;
    if (has != (dwarf_attr_integrate(second, name, &other_attribute) != NULL))
        return 0;
    return !has || (!dwarf_formudata(&attribute, &number) && !dwarf_formudata(&other_attribute, &other) &&
                    number == other);
}

static int is_pointer(int tag)
{
    return tag == DW_TAG_pointer_type || tag == DW_TAG_reference_type || tag == DW_TAG_rvalue_reference_type ||
           tag == DW_TAG_ptr_to_member_type;
}

/* Goes from an entry to the first one that is a part of a type, among the entry and those after it. */
static int find_part(int more, Dwarf_Die *entry)
{
    for (; more == 0; more = dwarf_siblingof(entry, entry)) {
        const int tag = dwarf_tag(entry);
        if (tag == DW_TAG_member || tag == DW_TAG_inheritance || tag == DW_TAG_enumerator ||
            tag == DW_TAG_subrange_type || tag == DW_TAG_variant_part || tag == DW_TAG_variant)
            return 1;
    }
    return 0;
}

static int are_alike(Dwarf_Die *first, Dwarf_Die *second, struct comparison *comparison);

/* Whether two entries have types that are alike, or none. What a pointer points to has to have the same name. */
static int have_types_alike(Dwarf_Die *first, Dwarf_Die *second, struct comparison *comparison)
{
    Dwarf_Die type, other;
    const int has_type = !dwexpr_libdw_type(first, &type);
    if (dwarf_tag(first) == DW_TAG_subrange_type)
        return 1;
    if (has_type != !dwexpr_libdw_type(second, &other))
        return 0;
    if (has_type && is_pointer(dwarf_tag(first)) && dwarf_diename(&type))
        return dwarf_tag(&type) == DW_TAG_base_type ? dwarf_tag(&other) == DW_TAG_base_type : is_same(&type, &other);
    return !has_type || is_pointer(dwarf_tag(first)) || are_alike(&type, &other, comparison);
}

/* Whether two definitions of a type lay out the same parts in the same way. Compilers name base types differently. */
static int are_alike(Dwarf_Die *first, Dwarf_Die *second, struct comparison *comparison)
{
    const int tag = dwarf_tag(first), has_name = tag != DW_TAG_base_type && dwarf_diename(first);
    Dwarf_Die part, other;
    size_t i;
    int more, alike = comparison->left > 0 && comparison->level < 32 &&
                      (has_name ? is_same(first, second) : tag == dwarf_tag(second));
    for (i = 0; alike && i < sizeof laid_out / sizeof *laid_out; i++)
        alike = has_same_number(first, second, laid_out[i]);
    if (!alike)
        return 0;
    comparison->left--;
    comparison->level++;
    alike = have_types_alike(first, second, comparison);
    more = find_part(dwarf_child(first, &part), &part);
    alike = alike && more == find_part(dwarf_child(second, &other), &other);
    while (alike && more) {
        alike = are_alike(&part, &other, comparison);
        more = find_part(dwarf_siblingof(&part, &part), &part);
        alike = alike && more == find_part(dwarf_siblingof(&other, &other), &other);
    }
    comparison->level--;
    return alike;
}

/* ---- declarations */

uint32_t dwexpr_libdw_definition(dwexpr_libdw_frame *frame, Dwarf_Die *type, Dwarf_Die *definition)
{
    struct search search = {.found = {.length = 0}};
    Dwarf_Die unit, *found;
    Dwfl_Module *module;
    Dwarf_Addr bias;
    size_t count, i;
    uint32_t code;
    dwarf_diecu(type, &unit, NULL, NULL);
    code = dwexpr_libdw_walk_to(&search.type, &unit, type);
    if (!code) /* GCOVR_EXCL_BR_LINE: no memory */
        code = search_unit(&search, &unit);
    if (!code && !search.found.length) { /* GCOVR_EXCL_BR_LINE: no memory */
        dwexpr_libdw_find_module(frame, type->cu, &module, &bias);
        code = search_module(&search, module);
    }
    if (!code && !search.found.length) /* GCOVR_EXCL_BR_LINE: no memory */
        code = search_all(&search, frame);
    found = dwexpr_libdw_give(code, &search.found, &count);
    if (code == DWEXPR_LIBDW_NO_PART || (!code && !count)) /* GCOVR_EXCL_BR_LINE: a type is in its unit; no memory */
        code = DWEXPR_LIBDW_NOT_DEFINED;
    for (i = 1; i < count && !code; i++) {
        struct comparison comparison = {10000, 0};
        if (found[i].addr != found[0].addr && !are_alike(&found[0], &found[i], &comparison))
            code = DWEXPR_LIBDW_AMBIGUOUS;
    }
    if (!code)
        *definition = *found;
    free(found);
    free(search.type.path.items);
    return code;
}
