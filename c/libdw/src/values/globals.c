/* Variables outside of functions, in tables that are read once. */
#include "values.h"

/* A name of a variable, and the variable's place among those of its table. */
struct name {
    const char *text;
    size_t place;
};

/* The variables of a module, or of a unit, in the order of their entries. */
struct table {
    const void *of;                     /* which module or unit it is */
    struct dwexpr_libdw_list variables; /* of Dwarf_Die */
    struct dwexpr_libdw_list names;     /* of name, sorted */
};

/* ---- tables */

static uint32_t add_name(struct table *table, const char *text)
{
    const struct name name = {text, table->variables.length};
    return dwexpr_libdw_add(&table->names, &name, sizeof name);
}

/* Adds a variable with its name in the source and, if that is another one, its name for the linker. */
static uint32_t add_variable(struct table *table, Dwarf_Die *entry)
{
    const char *plain = dwarf_diename(entry), *linkage = dwexpr_libdw_linkage_name(entry);
    uint32_t code = plain ? add_name(table, plain) : 0;
    if (!code && linkage && (!plain || strcmp(plain, linkage)))
        code = add_name(table, linkage);
    return code ? code : dwexpr_libdw_add(&table->variables, entry, sizeof *entry);
}

/* Adds what stands in a unit, its namespaces and its modules. */
static uint32_t add_unit(void *context, const Dwarf_Die *unit)
{
    struct table *table = (struct table *)context;
    struct dwexpr_libdw_walk walk;
    int enters = 1;
    uint32_t code = dwexpr_libdw_begin_walk(&walk, unit);
    while (!code && !(code = dwexpr_libdw_next_entry(&walk, enters))) {
        Dwarf_Die *entry = dwexpr_libdw_here(&walk);
        const int tag = dwarf_tag(entry);
        enters = tag == DW_TAG_namespace || tag == DW_TAG_module;
        if (tag == DW_TAG_constant || (tag == DW_TAG_variable && !dwarf_hasattr(entry, DW_AT_declaration)))
            code = add_variable(table, entry);
    }
    free(walk.path.items);
    return code == DWEXPR_LIBDW_NO_PART ? 0 : code;
}

static int compare(const void *first, const void *second)
{
    const struct name *name = (const struct name *)first, *other = (const struct name *)second;
    const int order = strcmp(name->text, other->text);
    return order ? order : (name->place > other->place) - (name->place < other->place);
}

static void free_table(const struct table *table)
{
    free(table->variables.items);
    free(table->names.items);
}

/* Finds the table of a unit or, if that is NULL, of a module. It is read the first time. */
static uint32_t find_table(struct dwexpr_libdw_names *names, const Dwarf_Die *unit, Dwfl_Module *module,
                           const struct table **found)
{
    struct table made = {.of = unit ? unit->addr : (const void *)module};
    const struct table *tables = (const struct table *)names->tables.items;
    size_t i = 0;
    uint32_t code = 0;
    while (i < names->tables.length && tables[i].of != made.of)
        i++;
    if (i == names->tables.length) {
        code = unit ? add_unit(&made, unit) : dwexpr_libdw_visit_units(module, add_unit, &made);
        if (made.names.length)
            qsort(made.names.items, made.names.length, sizeof(struct name), compare);
        if (!code)
            code = dwexpr_libdw_add(&names->tables, &made, sizeof made);
        if (code)
            free_table(&made);
    }
    *found = (const struct table *)names->tables.items + i;
    return code;
}

static void free_tables(const struct dwexpr_libdw_names *names)
{
    size_t i;
    for (i = 0; i < names->tables.length; i++)
        free_table((const struct table *)names->tables.items + i);
    free(names->tables.items);
}

uint32_t dwexpr_libdw_make_names(dwexpr_libdw_names **names)
{
    *names = (dwexpr_libdw_names *)calloc(1, sizeof **names);
    return *names ? 0 : DWEXPR_LIBDW_NO_MEMORY;
}

void dwexpr_libdw_free_names(dwexpr_libdw_names *names)
{
    if (names)
        free_tables(names);
    free(names);
}

/* ---- searches */

struct search {
    struct dwexpr_libdw_names *names;
    const char *name;         /* NULL for all variables */
    const Dwarf_CU *left_out; /* a unit that isn't searched again */
    struct dwexpr_libdw_list found;
};

/* The first name of a table that doesn't stand before another one. */
static size_t first_of(const struct table *table, const char *name)
{
    const struct name *names = (const struct name *)table->names.items;
    size_t first = 0, end = table->names.length;
    while (first < end) {
        const size_t middle = first + (end - first) / 2;
        if (strcmp(names[middle].text, name) < 0)
            first = middle + 1;
        else
            end = middle;
    }
    return first;
}

static uint32_t add_found(struct search *search, const struct table *table, size_t place)
{
    const Dwarf_Die *variable = (const Dwarf_Die *)table->variables.items + place;
    return variable->cu == search->left_out ? 0 : dwexpr_libdw_add(&search->found, variable, sizeof *variable);
}

/* Searches a unit or, if that is NULL, the units of a module. */
static uint32_t search_in(struct search *search, const Dwarf_Die *unit, Dwfl_Module *module)
{
    const struct table *table;
    size_t i, end;
    uint32_t code = find_table(search->names, unit, module, &table);
    if (code)
        return code;
    i = search->name ? first_of(table, search->name) : 0;
    end = search->name ? table->names.length : table->variables.length;
    for (; i < end && !code; i++) {
        const struct name *name = (const struct name *)table->names.items + i;
        if (search->name && strcmp(name->text, search->name))
            break;
        code = add_found(search, table, search->name ? name->place : i);
    }
    return code;
}

static uint32_t search_module(void *context, Dwfl_Module *module)
{
    return search_in((struct search *)context, NULL, module);
}

/* Searches all modules, the frame's unit first. */
static uint32_t search_all(struct search *search, dwexpr_libdw_frame *frame)
{
    const Dwarf_Die *unit = &frame->place.unit;
    uint32_t code = 0;
    dwexpr_libdw_find_place(frame);
    if (unit->addr) {
        code = search_in(search, unit, NULL);
        search->left_out = unit->cu;
    }
    return code ? code : dwexpr_libdw_visit_modules(frame, search_module, search);
}

uint32_t dwexpr_libdw_globals(dwexpr_libdw_frame *frame, Dwfl_Module *module, const char *name, Dwarf_Die **globals,
                              size_t *count)
{
    struct dwexpr_libdw_names own = {.tables = {.length = 0}};
    struct search search = {.names = frame->source.names ? frame->source.names : &own, .name = name};
    const uint32_t code = module ? search_module(&search, module) : search_all(&search, frame);
    free_tables(&own);
    *globals = dwexpr_libdw_give(code, &search.found, count);
    return code;
}
