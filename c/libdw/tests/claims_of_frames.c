/* Claims on frames, and on the values of variables and expressions in them. */
#include <dwarf.h>
#include <stdlib.h>

#include "claims.h"

/* A claim: its words, its frame, what it says after ` is ` or ` = `, and after ` with ` before that. */
struct claim {
    char word[6][64];
    dwexpr_libdw_frame *frame;
    const char *said, *with;
};

/* ---- what a value has to be */

enum { MOST_BYTES = 512 };

/* Bytes, and which of their bits are unknown. */
struct wanted {
    uint8_t bytes[MOST_BYTES], unknown[MOST_BYTES];
    unsigned bits;
};

/* Takes the bytes with which a text begins. Gives back what follows them: the text, if it begins with none. */
static const char *take_bytes(const char *text, struct wanted *wanted)
{
    unsigned bits = 0, count = 0;
    int begin = 0;
    const char *at;
    memset(wanted, 0, sizeof *wanted);
    if (sscanf(text, "%u bits %n", &bits, &begin) != 1 || !begin)
        bits = 0;
    for (at = text + begin; *at == '?' || (isxdigit((unsigned char)at[0]) && isxdigit((unsigned char)at[1])); count++) {
        char pair[] = {at[0], at[1], 0};
        if (*at == '?')
            wanted->unknown[count] = 0xff;
        else
            bytes_of(pair, &wanted->bytes[count]);
        at += 2;
        if (at[0] == '?' && at[1] != '?') {
            memcpy(pair, at + 1, 2);
            bytes_of(pair, &wanted->unknown[count]);
            at += 3;
        }
    }
    if (!count || (*at && *at != ' '))
        return text;
    wanted->bits = bits ? bits : 8 * count;
    return at + (*at == ' ');
}

/* Whether a code is the one with a name, which is empty for 0. */
static int is_code(uint32_t code, const char *name)
{
    return !strcmp(code ? dwexpr_libdw_code_name(code) : "", name);
}

/* Whether a value's only piece is what a text says. */
static int is_piece(dwexpr_libdw_value *value, const char *said)
{
    const dwexpr_piece *piece = &value->pieces[0];
    Dwarf_Die variable;
    if (value->outcome.pieces != 1)
        return 0;
    if (!strncmp(said, "at ", 3))
        return piece->kind == DWEXPR_AT_ADDRESS && piece->number == strtoull(said + 3, NULL, 16);
    if (!strncmp(said, "in register ", 12))
        return piece->kind == DWEXPR_IN_REGISTER && piece->number == strtoull(said + 12, NULL, 10);
    return !dwexpr_libdw_points_into(value, piece, &variable) && !piece->byte_offset &&
           !strcmp(dwarf_diename(&variable), said + strlen("into "));
}

/* Whether the bits of a value are the wanted ones, if they are said, and no more are written. Gives the code. */
static int has_bits(const dwexpr_libdw_frame *frame, const dwexpr_libdw_value *value, const struct wanted *wanted,
                    unsigned bits, uint32_t *code)
{
    static uint8_t got[MOST_BYTES + 1], again[MOST_BYTES + 1], unknown[MOST_BYTES + 1];
    const size_t size = (bits + 7) / 8;
    got[size] = unknown[size] = 0x55;
    *code = dwexpr_libdw_read(frame, value, bits, got, unknown);
    if (got[size] != 0x55 || unknown[size] != 0x55 || dwexpr_libdw_read(frame, value, bits, again, NULL) != *code ||
        memcmp(again, got, size))
        return 0;
    return !wanted->bits || (!memcmp(got, wanted->bytes, size) && !memcmp(unknown, wanted->unknown, size));
}

/* Whether a value, which a call with this code gave, is what a claim says. It is freed. */
static int is_value(const struct claim *claim, uint32_t code, dwexpr_libdw_value *value)
{
    static struct wanted wanted;
    const char *name = take_bytes(claim->said, &wanted);
    const int is_known = !strcmp(name, "known");
    int holds = 1;
    if (!code && (!strncmp(claim->said, "at ", 3) || !strncmp(claim->said, "in", 2))) {
        holds = is_piece(value, claim->said);
        name = "";
    } else if (!code) {
        holds = has_bits(claim->frame, value, &wanted, wanted.bits ? wanted.bits : is_known ? 64 : 8, &code);
    }
    dwexpr_libdw_release(value);
    return (code && subject.may_refuse) || (holds && is_code(code, is_known ? "" : name));
}

/* Whether bytes, which a call with this code gave, are what a claim says. */
static int are_bytes(const struct claim *claim, uint32_t code, const uint8_t *bytes, size_t size)
{
    static struct wanted wanted;
    if (!strcmp(claim->said, "known"))
        return !code;
    return is_code(code, take_bytes(claim->said, &wanted)) &&
           (code || (wanted.bits == 8 * size && !memcmp(bytes, wanted.bytes, size)));
}

/* ---- variables */

/* Whether an entry has this name, in the source or for the linker. */
static int is_named(Dwarf_Die *entry, const char *name)
{
    Dwarf_Attribute attribute;
    const char *linkage = dwarf_formstring(dwarf_attr(entry, DW_AT_linkage_name, &attribute));
    const char *given = dwarf_diename(entry);
    return (linkage && !strcmp(linkage, name)) || (given && !strcmp(given, name));
}

/* A variable of a frame; the total is that of all before it. */
static int find_variable(dwexpr_libdw_frame *frame, const char *name, Dwarf_Die *variable, size_t *total)
{
    dwexpr_libdw_entry *entries;
    size_t i;
    int found = 0;
    dwexpr_libdw_variables(frame, &entries, total);
    for (i = 0; i < *total && !found; i++) {
        const char *given = dwarf_diename(&entries[i].entry);
        found = !strcmp(given ? given : "nameless", name);
        *variable = entries[i].entry;
    }
    free(entries);
    return found;
}

/* A variable of a function with this name or, if that is NULL, of the entry itself. */
static int find_in(Dwarf_Die parent, const char *function, const char *name, Dwarf_Die *variable)
{
    Dwarf_Die child;
    int more;
    for (more = dwarf_child(&parent, &child); more == 0; more = dwarf_siblingof(&child, &child)) {
        *variable = child;
        if (function ? find_in(child, is_named(&child, function) ? NULL : function, name, variable)
                     : is_named(&child, name))
            return 1;
    }
    return 0;
}

/* The unit of the first global with a name. */
static Dwarf_Die unit_of_global(dwexpr_libdw_frame *frame, const char *name)
{
    Dwarf_Die *globals, unit = {.addr = NULL};
    size_t count;
    dwexpr_libdw_globals(frame, NULL, name, &globals, &count);
    if (count)
        dwarf_diecu(&globals[0], &unit, NULL, NULL);
    free(globals);
    return unit;
}

/* The variable that a claim names by its words from one on, or that of the row. */
static int find_said(const struct claim *claim, size_t from, Dwarf_Die *variable)
{
    const char *name = claim->word[from], *kind = claim->word[from + 1], *where = claim->word[from + 2];
    const char *function = strcmp(where, "unit") ? where : NULL, *global = claim->word[from + 4];
    size_t total;
    *variable = subject.variable;
    if (!strcmp(name, "value"))
        return 1;
    if (!strcmp(kind, "of"))
        return find_in(*global ? unit_of_global(claim->frame, global) : subject.unit, function, name, variable);
    if (!strcmp(kind, "from"))
        return find_in(subject.foreign, function, name, variable);
    return find_variable(claim->frame, name, variable, &total) ||
           (from && find_in(subject.unit, NULL, name, variable));
}

/* The value of the variable into which a pointer points. */
static uint32_t follow(dwexpr_libdw_frame *frame, Dwarf_Die *pointer, dwexpr_libdw_value **value)
{
    Dwarf_Die variable;
    uint32_t code = dwexpr_libdw_variable(frame, pointer, value);
    if (code)
        return code;
    code = dwexpr_libdw_points_into(*value, &(*value)->pieces[0], &variable);
    dwexpr_libdw_release(*value);
    *value = NULL;
    return code ? code : dwexpr_libdw_variable(frame, &variable, value);
}

/* NAME in FRAME is VALUE, and those with `value`, `of`, `from`, `beside`, `entry of` and `target of` */
static int has_value(const struct claim *claim)
{
    uint32_t (*const evaluate)(dwexpr_libdw_frame *, Dwarf_Die *, dwexpr_libdw_value **) =
        !strcmp(claim->word[0], "entry")    ? dwexpr_libdw_on_entry
        : !strcmp(claim->word[0], "target") ? follow
                                            : dwexpr_libdw_variable;
    Dwarf_Die variable;
    dwexpr_libdw_value *value;
    uint32_t code;
    if (!find_said(claim, evaluate == dwexpr_libdw_variable ? 0 : 2, &variable))
        return subject.may_refuse || !strcmp(claim->said, "missing");
    code = evaluate(claim->frame, &variable, &value);
    return is_value(claim, code, value);
}

/* NAMEPATH in FRAME = TEXT */
static int has_text_of(const struct claim *claim)
{
    const size_t length = strcspn(claim->word[0], ".[*");
    struct claim named = *claim;
    dwexpr_libdw_object *object;
    Dwarf_Die variable;
    uint32_t code;
    named.word[0][length] = 0;
    if (!find_said(&named, 0, &variable))
        return !strcmp(claim->said, "missing");
    code = dwexpr_libdw_object_of_variable(claim->frame, &variable, &object);
    return has_text(code, object, claim->word[0] + length, claim->said);
}

/* limit N */
static int set_limit(const struct claim *claim)
{
    dwexpr_libdw_set_limit(claim->frame, (uint32_t)atol(claim->word[1]));
    return 1;
}

/* ---- globals */

/* first of NAME is TEXT */
static int has_first_text(const struct claim *claim)
{
    dwexpr_libdw_object *object;
    const uint32_t code = dwexpr_libdw_object_global(claim->frame, claim->word[2], &object);
    return has_text(code, object, "", claim->said);
}

/* each NAME in FRAME = TEXT */
static int has_each_text(const struct claim *claim)
{
    Dwarf_Die *globals;
    size_t count, i;
    int holds;
    dwexpr_libdw_globals(claim->frame, NULL, claim->word[1], &globals, &count);
    holds = count > 0;
    for (i = 0; i < count; i++) {
        dwexpr_libdw_object *object;
        const uint32_t code = dwexpr_libdw_object_of_variable(claim->frame, &globals[i], &object);
        holds &= has_text(code, object, "", claim->said);
    }
    free(globals);
    return holds;
}

/* all of NAME is N, and all in FRAME is N, of the frame's module */
static int has_globals(const struct claim *claim)
{
    const char *name = !strcmp(claim->word[1], "of") ? claim->word[2] : NULL;
    dwexpr_libdw_place place = {.module = NULL};
    Dwarf_Die *globals;
    size_t count;
    uint32_t code;
    if (!name)
        dwexpr_libdw_locate(claim->frame, &place);
    code = dwexpr_libdw_globals(claim->frame, place.module, name, &globals, &count);
    free(globals);
    return subject.may_refuse || is_said(claim->said, code, count);
}

/* ---- expressions, rules, registers and memory */

static int is_evaluated(const struct claim *claim, const dwexpr_libdw_text *text)
{
    unsigned long long given[2] = {0, 0};
    const int count = sscanf(claim->with, "%llx %llx", &given[0], &given[1]);
    const uint64_t initial = given[0], object = given[1];
    dwexpr_libdw_value *value;
    const uint32_t code = dwexpr_libdw_evaluate(claim->frame, text, count > 1 ? &object : NULL,
                                                count > 0 ? &initial : NULL, &value);
    return is_value(claim, code, value);
}

/* BYTES on FRAME is VALUE */
static int has_expression(const struct claim *claim)
{
    uint8_t bytes[32];
    const dwexpr_libdw_text text = {.text = {bytes, bytes_of(claim->word[0], bytes)}, .encoding = subject.encoding};
    return is_evaluated(claim, &text);
}

/* Finds the rule of a register at a frame's place. Without a file there is none. */
static uint32_t find_rule(dwexpr_libdw_frame *frame, const char *number, dwexpr_libdw_text *rule)
{
    dwexpr_libdw_place place;
    Dwarf_Addr bias, elf_bias;
    Dwarf_Frame *rules = NULL;
    Dwarf_CFI *table;
    uint32_t code = DWEXPR_LIBDW_NO_UNIT;
    dwexpr_libdw_locate(frame, &place);
    table = dwfl_module_eh_cfi(place.module, &bias);
    if (!table)
        table = dwfl_module_dwarf_cfi(place.module, &bias);
    if (!dwarf_cfi_addrframe(table, place.pc - bias, &rules) &&
        dwexpr_libdw_rule(rules, NULL, 0, rule) == DWEXPR_LIBDW_FAILED)
        code = dwexpr_libdw_rule(rules, dwfl_module_getelf(place.module, &elf_bias), atoi(number), rule);
    free(rules);
    return code;
}

/* Adds a part to a text, after a comma if it isn't the first. */
static void add_part(char *text, size_t room, const char *part)
{
    const size_t length = strlen(text);
    snprintf(text + length, room - length, "%s%s", length ? ", " : "", part);
}

/* rule N in FRAME is RULE */
static int is_rule(const struct claim *claim)
{
    dwexpr_libdw_text rule = {.on_cfa = 0};
    char text[128] = "";
    const uint32_t code = find_rule(claim->frame, claim->word[1], &rule);
    size_t i;
    for (i = 0; i < rule.text.length; i++)
        snprintf(text + 2 * i, 3, "%02x", rule.text.bytes[i]);
    if (rule.on_cfa)
        add_part(text, sizeof text, "on the CFA");
    if (rule.is_value)
        add_part(text, sizeof text, "a value");
    if (code)
        add_part(text, sizeof text, dwexpr_libdw_code_name(code));
    dwexpr_libdw_free_text(&rule);
    return (code && subject.may_refuse) || !strcmp(text, claim->said);
}

/* by rule N in FRAME is VALUE */
static int has_value_by_rule(const struct claim *claim)
{
    dwexpr_libdw_text rule = {.on_cfa = 0};
    const uint32_t code = find_rule(claim->frame, claim->word[2], &rule);
    const int holds = code ? subject.may_refuse : is_evaluated(claim, &rule);
    dwexpr_libdw_free_text(&rule);
    return holds;
}

/* register N in FRAME is VALUE */
static int is_register(const struct claim *claim)
{
    uint8_t got[DWEXPR_LIBDW_REGISTER_SIZE];
    size_t size;
    const uint32_t code = dwexpr_libdw_register(claim->frame, (uint32_t)strtoul(claim->word[1], NULL, 10), got, &size);
    return are_bytes(claim, code, got, size);
}

/* memory ADDRESS SIZE in FRAME is VALUE */
static int is_memory(const struct claim *claim)
{
    uint8_t got[64];
    const size_t size = strtoul(claim->word[2], NULL, 10);
    dwexpr_libdw_place place;
    uint64_t address = strtoull(claim->word[1], NULL, 16);
    if (!strcmp(claim->word[1], "pc")) {
        dwexpr_libdw_locate(claim->frame, &place);
        address = place.pc;
    }
    return are_bytes(claim, dwexpr_libdw_memory(claim->frame, address, got, size), got, size);
}

/* ---- frames */

/* frames MOST is N, CODE; or is CODE, however many there are */
static int has_frames(const struct claim *claim)
{
    dwexpr_libdw_stack *stack;
    const size_t most = strtoul(claim->word[1], NULL, 10);
    const uint32_t code = dwexpr_libdw_unwind(subject.target, subject.thread, most, &stack);
    const char *name = code ? dwexpr_libdw_code_name(code) : "all";
    char text[64];
    size_t count = 0;
    while (dwexpr_libdw_frame_at(stack, count))
        count++;
    dwexpr_libdw_free_stack(stack);
    if (code == DWEXPR_LIBDW_CUT_OFF && !strcmp(dwexpr_libdw_target_error(), "nothing failed"))
        return 0;
    snprintf(text, sizeof text, "%zu, %s", count, name);
    return !strcmp(text, claim->said) || !strcmp(name, claim->said);
}

/* functions is NAME NAME.., up to main, each with a star if it left by a tail call */
static int are_functions(const struct claim *claim)
{
    char text[256] = "";
    dwexpr_libdw_frame *frame;
    size_t number, length = 0;
    for (number = 0; (frame = frame_number(number)) != NULL && !strstr(text, "main"); number++) {
        dwexpr_libdw_place place;
        dwexpr_libdw_locate(frame, &place);
        snprintf(text + length, sizeof text - length, "%s%s%s", number ? " " : "",
                 place.function.addr ? dwarf_diename(&place.function) : "?", place.has_left ? "*" : "");
        length = strlen(text);
    }
    return !strcmp(text, claim->said);
}

/* Reads the registers of the first caller that hasn't left. */
static void read_caller(uint8_t registers[16][DWEXPR_LIBDW_REGISTER_SIZE])
{
    dwexpr_libdw_frame *frame = NULL;
    dwexpr_libdw_place place = {.has_left = 1};
    size_t number, size;
    for (number = 1; place.has_left && (frame = frame_number(number)) != NULL; number++)
        dwexpr_libdw_locate(frame, &place);
    for (number = 0; frame && number < 16; number++)
        dwexpr_libdw_register(frame, (uint32_t)number, registers[number], &size);
}

/* tail calls */
static int has_tail_calls(const struct claim *claim)
{
    uint8_t before[16][DWEXPR_LIBDW_REGISTER_SIZE] = {{1}}, after[16][DWEXPR_LIBDW_REGISTER_SIZE];
    (void)claim;
    read_caller(before);
    if (dwexpr_libdw_add_tail_calls(subject.stack))
        return 0;
    read_caller(after);
    return !memcmp(before, after, sizeof before);
}

/* threads FIRST is N */
static int has_threads(const struct claim *claim)
{
    const pid_t *threads;
    return dwexpr_libdw_threads(subject.target, &threads) == strtoul(claim->said, NULL, 10) &&
           threads[0] == atoi(claim->word[1]);
}

/* count in FRAME is N */
static int has_variables(const struct claim *claim)
{
    dwexpr_libdw_entry *entries;
    size_t count;
    const uint32_t code = dwexpr_libdw_variables(claim->frame, &entries, &count);
    free(entries);
    return subject.may_refuse || (code ? !count && is_code(code, claim->said) : is_said(claim->said, 0, count));
}

/* function in FRAME is NAME */
static int is_function(const struct claim *claim)
{
    dwexpr_libdw_place place;
    const uint32_t code = dwexpr_libdw_locate(claim->frame, &place);
    return code ? is_code(code, claim->said) : place.function.addr && is_named(&place.function, claim->said);
}

/* address in FRAME is ADDRESS, or ADDRESS, a call */
static int is_at_address(const struct claim *claim)
{
    dwexpr_libdw_place place;
    char text[64];
    dwexpr_libdw_locate(claim->frame, &place);
    snprintf(text, sizeof text, "%llx%s", (unsigned long long)place.address, place.is_activation ? "" : ", a call");
    return !strcmp(text, claim->said) && place.pc - place.bias - !place.is_activation == place.address;
}

/* How many variables have a value of so many bits, or many if one has another value. */
static size_t have_value(dwexpr_libdw_frame *frame, Dwarf_Die *variables, size_t count, uint64_t wanted, uint64_t bits)
{
    size_t i, equal = 0;
    for (i = 0; i < count; i++) {
        dwexpr_libdw_value *value;
        uint64_t number = 0;
        uint32_t code = dwexpr_libdw_variable(frame, &variables[i], &value);
        if (!code)
            code = dwexpr_libdw_read(frame, value, bits, (uint8_t *)&number, NULL);
        dwexpr_libdw_release(value);
        equal += code ? 0 : number == wanted ? 1 : 1000;
    }
    return equal;
}

/* Whether a local NAME_is of a frame has what NAME has, which is declared in the function, or a variable of its module
 * or else of any; and NAME_isnt has something else. */
static int is_seen(dwexpr_libdw_frame *frame, Dwarf_Die *local)
{
    const char *said = dwarf_diename(local), *end = strstr(said, "_is");
    char name[64] = "";
    dwexpr_libdw_object *object = NULL;
    dwexpr_libdw_place place;
    Dwarf_Die declared, *globals;
    uint64_t wanted = 0, bits = 0;
    size_t found, equal = 0;
    int is_known;
    memcpy(name, said, (size_t)(end - said));
    is_known = !dwexpr_libdw_object_of_variable(frame, local, &object) && !dwexpr_libdw_object_size(object, &bits) &&
               !dwexpr_libdw_object_read(object, bits, (uint8_t *)&wanted, NULL);
    dwexpr_libdw_object_free(object);
    if (find_variable(frame, name, &declared, &found))
        equal += have_value(frame, &declared, 1, wanted, bits);
    dwexpr_libdw_locate(frame, &place);
    dwexpr_libdw_globals(frame, place.module, name, &globals, &found);
    if (!found)
        dwexpr_libdw_globals(frame, NULL, name, &globals, &found);
    equal += have_value(frame, globals, found, wanted, bits);
    free(globals);
    return is_known && (strcmp(end, "_is") ? equal >= 1000 : equal > 0 && equal < 1000);
}

/* seen */
static int are_seen(const struct claim *claim)
{
    dwexpr_libdw_frame *frame;
    dwexpr_libdw_entry *entries;
    size_t count, i, number, locals = 0;
    int hold = 1;
    (void)claim;
    for (number = 0; (frame = frame_number(number)) != NULL; number++) {
        dwexpr_libdw_variables(frame, &entries, &count);
        for (i = 0; i < count; i++) {
            const char *name = dwarf_diename(&entries[i].entry);
            if (!name || !strstr(name, "_is"))
                continue;
            locals++;
            if (!is_seen(frame, &entries[i].entry)) {
                printf("frame %zu: %s\n", number, name);
                hold = 0;
            }
        }
        free(entries);
    }
    return hold && locals > 0;
}

/* ---- claims */

/* Kinds of claims, by the words with which they begin. */
static const struct kind {
    const char *words[2];
    int (*holds)(const struct claim *claim);
} kinds[] = {
    {{"limit"}, set_limit}, {{"first", "of"}, has_first_text}, {{"each"}, has_each_text}, {{"all"}, has_globals},
    {{"register"}, is_register}, {{"memory"}, is_memory}, {{"rule"}, is_rule}, {{"by", "rule"}, has_value_by_rule},
    {{"frames"}, has_frames}, {{"functions"}, are_functions}, {{"tail", "calls"}, has_tail_calls},
    {{"threads"}, has_threads}, {{"count", "in"}, has_variables},
    {{"function", "in"}, is_function}, {{"address", "in"}, is_at_address}, {{"seen"}, are_seen},
    {{NULL, "on"}, has_expression},
};

static int begins(const struct claim *claim, const struct kind *kind)
{
    size_t i;
    for (i = 0; i < 2; i++)
        if (kind->words[i] && strcmp(kind->words[i], claim->word[i]))
            return 0;
    return 1;
}

/* Reads a claim. Gives back whether it is one on a text, after ` = `. */
static int read_claim(const char *text, struct claim *claim)
{
    const char *is = strstr(text, " is "), *equals = strstr(text, " = "), *with = strstr(text, " with ");
    const char *end = text + strlen(text);
    const int is_text = equals && (!is || equals < is);
    char front[256];
    size_t i;
    memset(claim, 0, sizeof *claim);
    claim->said = claim->with = "";
    if (!strncmp(text, "value ", 6))
        claim->said = (end = text + 5) + 1;
    else if (is_text)
        claim->said = (end = equals) + 3;
    else if (is)
        claim->said = (end = is) + 4;
    if (with && with < end)
        claim->with = with + 6;
    snprintf(front, sizeof front, "%.*s", (int)(end - text), text);
    sscanf(front, "%63s %63s %63s %63s %63s %63s", claim->word[0], claim->word[1], claim->word[2], claim->word[3],
           claim->word[4], claim->word[5]);
    claim->frame = frame_number(0);
    for (i = 1; i + 1 < COUNT(claim->word); i++)
        if (!strcmp(claim->word[i], "in") || !strcmp(claim->word[i], "on"))
            claim->frame = frame_number(strtoul(claim->word[i + 1], NULL, 10));
    return is_text;
}

int is_found(const char *text)
{
    struct claim claim;
    const int is_text = read_claim(text, &claim);
    size_t i;
    if (!claim.frame)
        return 0;
    for (i = 0; i < COUNT(kinds); i++)
        if (begins(&claim, &kinds[i]))
            return kinds[i].holds(&claim);
    return is_text ? has_text_of(&claim) : has_value(&claim);
}
