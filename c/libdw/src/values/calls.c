/* The call that led to a frame, and what it passed (DWARF 5, section 3.4). */
#include "values.h"

/* An attribute of a call site, which has another name before version 5. */
static Dwarf_Attribute *attribute_of(Dwarf_Die *site, unsigned name, unsigned old_name, Dwarf_Attribute *attribute)
{
    return dwarf_attr(site, dwarf_tag(site) == DW_TAG_GNU_call_site ? old_name : name, attribute);
}

static int is_tail_call(Dwarf_Die *site)
{
    Dwarf_Attribute attribute;
    bool is_one = false;
    dwarf_formflag(attribute_of(site, DW_AT_call_tail_call, DW_AT_GNU_tail_call, &attribute), &is_one);
    return is_one;
}

/* Goes to the next call site of a function, in its blocks and in what is inlined into it; to the next tail call if
 * `has_left`. Returns what dwexpr_libdw_next_entry does. */
static uint32_t next_call_site(struct dwexpr_libdw_walk *walk, int has_left, Dwarf_Die *site)
{
    int enters = walk->path.length == walk->floor; /* where it began */
    uint32_t code;
    while (!(code = dwexpr_libdw_next_entry(walk, enters))) {
        Dwarf_Die *entry = dwexpr_libdw_here(walk);
        const int tag = dwarf_tag(entry);
        if ((tag == DW_TAG_call_site || tag == DW_TAG_GNU_call_site) && (!has_left || is_tail_call(entry))) {
            *site = *entry;
            break;
        }
        enters = tag == DW_TAG_lexical_block || tag == DW_TAG_inlined_subroutine || tag == DW_TAG_try_block ||
                 tag == DW_TAG_catch_block;
    }
    return code;
}

/* Finds the call site that led to a frame, which is in its caller. Returns likewise. */
static uint32_t find_call_site(dwexpr_libdw_frame *frame, Dwarf_Die *site)
{
    dwexpr_libdw_frame *caller = frame->source.caller;
    struct dwexpr_libdw_walk walk;
    uint32_t code;
    int found = 0;
    if (!caller)
        return DWEXPR_LIBDW_NO_PART;
    dwexpr_libdw_find_place(frame);
    dwexpr_libdw_find_place(caller);
    if (!frame->place.function.addr || !caller->place.function.addr)
        return DWEXPR_LIBDW_NO_PART;
    code = dwexpr_libdw_begin_walk(&walk, &caller->place.function);
    while (!code && !found) {
        Dwarf_Attribute attribute;
        Dwarf_Addr address;
        code = next_call_site(&walk, 0, site);
        found = !code &&
                !dwarf_formaddr(attribute_of(site, DW_AT_call_return_pc, DW_AT_low_pc, &attribute), &address) &&
                address == caller->place.address + 1;
    }
    free(walk.path.items);
    return code;
}

/* ---- which function a call site names */

/* Follows a function's DW_AT_abstract_origin and DW_AT_specification to the last entry. */
static Dwarf_Die root_of(const Dwarf_Die *function)
{
    Dwarf_Die root = *function;
    Dwarf_Attribute attribute;
    int steps;
    for (steps = 0; steps < 8; steps++)
        if (!dwarf_formref_die(dwarf_attr(&root, DW_AT_abstract_origin, &attribute), &root) &&
            !dwarf_formref_die(dwarf_attr(&root, DW_AT_specification, &attribute), &root))
            break;
    return root;
}

/* The name that a function has for the linker, or else in its source if other units see it. */
static const char *external_name(Dwarf_Die *function)
{
    const char *name = dwexpr_libdw_linkage_name(function), *plain = dwarf_diename(function);
    return name != plain || dwarf_hasattr_integrate(function, DW_AT_external) ? name : NULL;
}

/* Whether a call site in `caller` names the function of a frame: 1; 0 if it names another one, whose address is 0 if
 * it isn't known; or -1 if it computes an address. */
static int is_named(Dwarf_Die *site, dwexpr_libdw_frame *caller, const dwexpr_libdw_frame *called,
                    uint64_t *address)
{
    Dwarf_Die origin, function = called->place.function;
    Dwarf_Attribute attribute;
    const uint64_t entry = dwexpr_libdw_entry_of(called);
    Dwarf_Addr begin;
    struct dwexpr_libdw_symbol symbol;
    const char *wanted = external_name(&function);
    *address = 0;
    if (!dwarf_formref_die(attribute_of(site, DW_AT_call_origin, DW_AT_abstract_origin, &attribute), &origin))
        return -1;
    if (root_of(&origin).addr == root_of(&function).addr)
        return 1;
    if (dwexpr_libdw_has_entry(&origin, &begin)) {
        *address = begin + caller->place.bias;
        return *address == entry;
    }
    symbol.name = external_name(&origin);
    if (symbol.name && ((wanted && !strcmp(symbol.name, wanted)) ||
                        dwexpr_libdw_find_symbol(called->place.module, entry, &symbol)))
        return 1;
    symbol.name = dwexpr_libdw_linkage_name(&origin);
    if (symbol.name && !dwexpr_libdw_resolve(caller, caller->place.module, NULL, &symbol))
        *address = symbol.address;
    return 0;
}

/* ---- tail calls */

/* Makes a frame of the function at an address that the caller called, and that isn't there any more: none of its
 * registers is known. Gives back whether a function begins there. */
static int enter(dwexpr_libdw_frame *caller, uint64_t address, dwexpr_libdw_frame *entered)
{
    const dwexpr_libdw_source *given = &caller->source;
    const dwexpr_libdw_source source = {.dwfl = given->dwfl, .pc = address, .is_activation = 1, .caller = caller,
                                        .read_memory = given->read_memory, .find_tls = given->find_tls,
                                        .context = given->context, .names = given->names};
    dwexpr_libdw_begin_frame(entered, &source);
    return address && !dwexpr_libdw_find_place(entered) && dwexpr_libdw_entry_of(entered) == address;
}

/* Finds the tail call by which a frame's function left, and which it calls, as is_named says. Gives back -1 if there is
 * none or another one, or if it isn't known which. */
static int find_tail_call(dwexpr_libdw_frame *between, const dwexpr_libdw_frame *called, Dwarf_Die *site,
                          uint64_t *address)
{
    struct dwexpr_libdw_walk walk;
    int count = 0;
    uint32_t code = dwexpr_libdw_begin_walk(&walk, &between->place.function);
    while (!code) {
        code = next_call_site(&walk, 1, site);
        count += !code;
    }
    free(walk.path.items);
    if (code == DWEXPR_LIBDW_NO_MEMORY) /* GCOVR_EXCL_BR_LINE: no memory */
        return -1; /* GCOVR_EXCL_LINE: no memory */
    return count == 1 ? is_named(site, between, called, address) : -1;
}

/* How many functions are followed at most, in search of tail calls. */
enum { MOST_FUNCTIONS = 32 };

/* Whether the function of a frame may have called itself by tail calls: then its caller's call site tells nothing. It
 * may if there is no memory to know. */
static int may_call_itself(dwexpr_libdw_frame *frame)
{
    dwexpr_libdw_frame *functions, *next;
    struct dwexpr_libdw_walk walk;
    Dwarf_Die site;
    uint64_t address;
    int count = 1, at, i, found;
    if (frame->is_checked)
        return frame->may_call_itself;
    functions = (dwexpr_libdw_frame *)malloc((MOST_FUNCTIONS + 1) * sizeof *functions);
    found = !functions;
    if (functions)
        functions[0] = *frame;
    for (at = 0; at < count && !found; at++) {
        uint32_t code = dwexpr_libdw_begin_walk(&walk, &functions[at].place.function);
        while (!found && !code && !(code = next_call_site(&walk, 1, &site))) {
            next = &functions[count];
            if (is_named(&site, &functions[at], &functions[0], &address) || count == MOST_FUNCTIONS)
                found = 1;
            else if (!enter(&functions[at], address, next))
                found = next->code == DWEXPR_LIBDW_NO_MEMORY;
            else {
                for (i = 0; functions[i].place.function.addr != next->place.function.addr; i++)
                    ;
                count += i == count;
            }
        }
        free(walk.path.items);
        found |= code == DWEXPR_LIBDW_NO_MEMORY;
    }
    free(functions);
    frame->is_checked = 1;
    frame->may_call_itself = found;
    return found;
}

/* Adds the frame of a function that left by a tail call, at which it stands. */
static uint32_t add_left(struct dwexpr_libdw_list *left, const dwexpr_libdw_frame *entered, Dwarf_Die *site)
{
    dwexpr_libdw_source source = entered->source;
    dwexpr_libdw_frame frame;
    Dwarf_Attribute attribute;
    /* GCOVR_EXCL_BR_START: compilers write it */
    if (dwarf_formaddr(attribute_of(site, DW_AT_call_return_pc, DW_AT_low_pc, &attribute), &source.pc))
    /* GCOVR_EXCL_BR_STOP */
        return DWEXPR_LIBDW_NO_PART; /* GCOVR_EXCL_LINE: compilers write it */
    source.pc += entered->place.bias;
    source.is_activation = 0;
    dwexpr_libdw_begin_frame(&frame, &source);
    frame.place.has_left = 1;
    return dwexpr_libdw_add(left, &frame, sizeof frame);
}

/* A frame's caller called another function, at `address`, which left for the frame's by tail calls, each of them the
 * only one of its function. Finds the last of these functions and its tail call. All are added to `left` unless it is
 * NULL. Returns 0; DWEXPR_LIBDW_NO_PART if they aren't known; or DWEXPR_LIBDW_NO_MEMORY. */
static uint32_t follow(const dwexpr_libdw_frame *frame, uint64_t address, dwexpr_libdw_frame *last, Dwarf_Die *site,
                       struct dwexpr_libdw_list *left)
{
    uint32_t code = 0;
    int steps, is_called = 0;
    /* GCOVR_EXCL_BR_START: no memory */
    for (steps = 0; steps < MOST_FUNCTIONS && !is_called && !code; steps++) {
        /* GCOVR_EXCL_BR_STOP */
        is_called = enter(frame->source.caller, address, last) ? find_tail_call(last, frame, site, &address) : -1;
        if (left && is_called >= 0)
            code = add_left(left, last, site);
    }
    return is_called > 0 || code ? code : DWEXPR_LIBDW_NO_PART; /* GCOVR_EXCL_BR_LINE: no memory */
}

/* Finds the call site that led to a frame, and whether it names the frame's function, as is_named says. It tells
 * nothing if that may have called itself. */
static uint32_t find_call(dwexpr_libdw_frame *frame, Dwarf_Die *site, int *is_called, uint64_t *address)
{
    const uint32_t code = find_call_site(frame, site);
    if (code || may_call_itself(frame))
        return code ? code : DWEXPR_LIBDW_NO_PART;
    *is_called = is_named(site, frame->source.caller, frame, address);
    return 0;
}

/* Finds what says which address a call site calls. */
static uint32_t find_target(Dwarf_Die *site, Dwarf_Attribute *target)
{
    return attribute_of(site, DW_AT_call_target, DW_AT_GNU_call_site_target, target) ? 0 : DWEXPR_LIBDW_NO_PART;
}

uint32_t dwexpr_libdw_find_left(dwexpr_libdw_frame *frame, struct dwexpr_libdw_list *left)
{
    const struct dwexpr_libdw_given given = {.frame = frame->source.caller};
    dwexpr_libdw_frame last;
    Dwarf_Attribute target;
    Dwarf_Die site;
    uint64_t address = 0;
    int is_called = 0;
    uint32_t code = find_call(frame, &site, &is_called, &address);
    if (!code && is_called < 0) {
        code = find_target(&site, &target);
        if (!code)
            code = dwexpr_libdw_attribute_number(&given, &target, &address);
        is_called = address == dwexpr_libdw_entry_of(frame);
    }
    return code || is_called ? code : follow(frame, address, &last, &site, left);
}

/* ---- what it passes */

/* Whether an expression, on entry of a function, is the place of a call site's parameter: it has the same bytes, or
 * reads its register with a type. */
static int is_passed_in(dwexpr_text wanted, const Dwarf_Block *place, dwexpr_encoding encoding)
{
    dwexpr_operation first, second;
    if (wanted.length == place->length && !memcmp(wanted.bytes, place->data, wanted.length))
        return 1;
    return !dwexpr_decode(wanted.bytes, wanted.length, encoding, 0, &first) &&
           !dwexpr_decode(place->data, (size_t)place->length, encoding, 0, &second) && first.size == wanted.length &&
           second.size == place->length && first.kind == DWEXPR_OP_REGISTER_OFFSET && first.base_type &&
           second.kind == DWEXPR_OP_REGISTER && first.register_number == second.register_number;
}

/* Finds the attribute of the value that a call site passes. Returns 0 or DWEXPR_LIBDW_NO_PART. */
static uint32_t find_passed(struct dwexpr_libdw_question *question, Dwarf_Attribute *value)
{
    Dwarf_Die parameter;
    int more;
    for (more = dwarf_child(&question->site, &parameter); more == 0; more = dwarf_siblingof(&parameter, &parameter)) {
        const int is_old = dwarf_tag(&parameter) == DW_TAG_GNU_call_site_parameter;
        const unsigned names = is_old ? DW_AT_abstract_origin : DW_AT_call_parameter;
        Dwarf_Attribute attribute;
        Dwarf_Block block;
        Dwarf_Die origin;
        if (question->entry.addr ? dwarf_formref_die(dwarf_attr(&parameter, names, &attribute), &origin) &&
                                       origin.addr == question->entry.addr /* GCOVR_EXCL_BR_LINE: GCC before 11 */
                                 : !dwarf_formblock(dwarf_attr(&parameter, DW_AT_location, &attribute), &block) &&
                                       is_passed_in(question->place, &block, question->encoding))
            return dwarf_attr(&parameter, is_old ? DW_AT_GNU_call_site_value : DW_AT_call_value, value)
                       ? 0
                       : DWEXPR_LIBDW_NO_PART;
    }
    return DWEXPR_LIBDW_NO_PART;
}

/* Asks for what the last of the functions between the caller and this one passed. Its own values are those that it had
 * on entry. */
static uint32_t ask_between(struct dwexpr_libdw_question *question, uint64_t address, Dwarf_Attribute *value)
{
    const uint32_t code = follow(question->frame, address, &question->between, &question->site, NULL);
    question->asked = &question->between;
    return code ? code : find_passed(question, value);
}

uint32_t dwexpr_libdw_ask(struct dwexpr_libdw_question *question, Dwarf_Attribute *value)
{
    uint64_t address = 0;
    int is_called = 0;
    const uint32_t code = find_call(question->frame, &question->site, &is_called, &address);
    question->asked = question->frame->source.caller;
    if (code)
        return code;
    if (is_called >= 0)
        return is_called ? find_passed(question, value) : ask_between(question, address, value);
    question->waits_for_target = 1;
    return find_target(&question->site, value);
}

uint32_t dwexpr_libdw_ask_target(struct dwexpr_libdw_question *question, uint64_t address, Dwarf_Attribute *value)
{
    question->waits_for_target = 0;
    return dwexpr_libdw_entry_of(question->frame) == address ? find_passed(question, value)
                                                             : ask_between(question, address, value);
}
