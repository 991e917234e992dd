/* Decodes every expression of object files by this library and by libdw (elfutils), and compares the opcode and the
 * operands of each operation. The bytes of expressions in location lists are encoded from libdw's operations.
 *
 *     cc expressions.c $(pkg-config --cflags --libs dwexpr-libdw) -o expressions
 *     ./expressions FILE..
 *
 * The last line has the counts. The status is 1 if an operation that both decode differs.
 *
 *     ./expressions --list FILE.. > LIST.tsv
 *
 * With --list it prints the expressions instead, except for those of no bytes or of an empty range. The benchmarks take
 * such a list in DWEXPR_LISTS. */
#include <dwarf.h>
#include <fcntl.h>
#include <stdio.h>
#include <string.h>
#include <unistd.h>

#include "dwexpr_libdw.h"
#include "dwexpr_names.h"

static const char *file;
static dwexpr_encoding encoding;
static int prints;
static size_t expressions, operations, differing, refused_by_libdw, refused_by_both, refused_here, refused_lists;

/* ---- one operation */

static int same_block(const dwexpr_operation *op, const uint8_t *bytes, const uint8_t *block, size_t length)
{
    return op->block_length == length && !memcmp(bytes + op->block_offset, block, length);
}

/* libdw gives a signed operand as its bits */
static int same(const Dwarf_Op *theirs, const dwexpr_operation *op, const uint8_t *bytes)
{
    Dwarf_Word number = theirs->number, second = theirs->number2;
    const uint8_t *block = (const uint8_t *)(uintptr_t)second;
    if (theirs->atom != op->opcode || theirs->offset != op->offset)
        return 0;
    switch (dwexpr_operand_form(op->opcode)) {
    case '-': return 1;
    case 'b': case 'h': case 'i': case 'q': case 's': return op->signed_number == (int64_t)number;
    case 'R': return op->register_number == number;
    case 'O': return op->register_number == number && op->signed_number == (int64_t)second;
    case 'V': return op->register_number == number && op->base_type == second;
    case 'P': return op->number == 8 * number && !op->flag;
    case 'K': return op->number == number && op->flag && op->detail == second;
    case 'D': return op->deref_size == number;
    case 'E': return op->deref_size == number && op->base_type == second;
    case 'T': return op->base_type == number;
    case 'L': return op->base_type == number && same_block(op, bytes, block + 1, block[0]); /* a length, and bytes */
    case 'k': return op->block_length == number;
    case 'p': return op->number == number && op->signed_number == (int64_t)second;
    default: return op->number == number;
    }
}

/* ---- one expression */

/* prints the first twenty differences, each up to the operation */
static void differ(const uint8_t *bytes, size_t length, size_t at, const char *why)
{
    char line[4096];
    dwexpr_operation op;
    size_t place;
    if (differing++ >= 20)
        return;
    printf("%s: %s at %zu:", file, why, at);
    for (place = 0; place < length && place <= at; place += op.size) {
        if (dwexpr_decode(bytes, length, encoding, place, &op))
            break;
        dwexpr_operation_line(line, sizeof line, bytes, &op);
        printf(" %s;", line);
    }
    printf("\n");
}

static void print_expression(const uint8_t *bytes, size_t length)
{
    size_t i;
    if (!length)
        return;
    printf("%d\t%d\t%d\t%s\t", encoding.address_size, encoding.offset_size, encoding.version,
           encoding.big_endian ? "be" : "le");
    for (i = 0; i < length; i++)
        printf("%02x", bytes[i]);
    printf("\n");
}

/* libdw's operations, or none if it refuses the expression */
static void compare(const uint8_t *bytes, size_t length, const Dwarf_Op *theirs, size_t count, int refused)
{
    size_t at, i = 0;
    dwexpr_operation op;
    expressions++;
    if (prints) {
        print_expression(bytes, length);
        return;
    }
    for (at = 0; at < length; at += op.size, i++) {
        if (dwexpr_decode(bytes, length, encoding, at, &op) != DWEXPR_OK) {
            if (refused) {
                refused_by_both++;
            } else {
                refused_here++;
                differ(bytes, length, at, "refused here alone");
            }
            return;
        }
        operations++;
        if (!refused && (i >= count || !same(&theirs[i], &op, bytes))) {
            differ(bytes, length, at, "another operation");
            return;
        }
    }
    if (refused)
        refused_by_libdw++;
    else if (i != count)
        differ(bytes, length, at, "fewer operations");
}

/* ---- lists of locations */

static void compare_list(Dwarf_Attribute *attribute)
{
    static uint8_t bytes[1 << 16];
    Dwarf_Addr base, first, last;
    Dwarf_Op *theirs;
    size_t count, length;
    ptrdiff_t place = 0;
    while ((place = dwarf_getlocations(attribute, place, &base, &first, &last, &theirs, &count)) > 0)
        if (dwexpr_libdw_encode(theirs, count, 0, encoding, bytes, sizeof bytes, &length) || length > sizeof bytes)
            fprintf(prints ? stderr : stdout, "%s: an expression can't be put together\n", file);
        else if (!prints || first != last)
            compare(bytes, length, theirs, count, 0);
    refused_lists += place < 0;
}

/* ---- files */

static int is_list(unsigned form, unsigned name)
{
    int old = encoding.version < 4 && (form == DW_FORM_data4 || form == DW_FORM_data8);
    return (form == DW_FORM_sec_offset || form == DW_FORM_loclistx || old) &&
           (name == DW_AT_location || name == DW_AT_frame_base || name == DW_AT_string_length ||
            name == DW_AT_return_addr || name == DW_AT_static_link);
}

static int on_attribute(Dwarf_Attribute *attribute, void *unused)
{
    unsigned form = dwarf_whatform(attribute), name = dwarf_whatattr(attribute);
    Dwarf_Block block;
    (void)unused;
    if (!dwarf_formblock(attribute, &block)) {
        Dwarf_Op *theirs = NULL;
        size_t count = 0;
        if (form == DW_FORM_exprloc || (encoding.version < 4 && name != DW_AT_const_value)) {
            int refused = dwarf_getlocation(attribute, &theirs, &count);
            compare(block.data, block.length, theirs, count, refused);
        }
    } else if (is_list(form, name)) {
        compare_list(attribute);
    }
    return DWARF_CB_OK;
}

static void walk(Dwarf_Die *die)
{
    do {
        Dwarf_Die child;
        dwarf_getattrs(die, on_attribute, NULL, 0);
        if (dwarf_child(die, &child) == 0)
            walk(&child);
    } while (dwarf_siblingof(die, die) == 0);
}

static int compare_file(void)
{
    const int descriptor = open(file, O_RDONLY);
    Dwarf *dwarf = dwarf_begin(descriptor, DWARF_C_READ);
    Dwarf_CU *unit = NULL;
    Dwarf_Die entry;
    if (!dwarf)
        fprintf(stderr, "%s: no debug information\n", file);
    while (dwarf && dwarf_get_units(dwarf, unit, &unit, NULL, NULL, &entry, NULL) == 0)
        if (!dwexpr_libdw_encoding(unit, &encoding))
            walk(&entry);
    dwarf_end(dwarf);
    close(descriptor);
    return !dwarf;
}

int main(int argc, char **argv)
{
    int i, unread = 0;
    prints = argc > 1 && !strcmp(argv[1], "--list");
    for (i = 1 + prints; i < argc; i++) {
        file = argv[i];
        unread |= compare_file();
    }
    if (prints)
        return unread;
    printf("%zu expressions, %zu operations, %zu differing; refused by libdw alone %zu, here alone %zu, by both %zu; "
           "lists that libdw refuses %zu\n",
           expressions, operations, differing, refused_by_libdw, refused_here, refused_by_both, refused_lists);
    return unread || differing;
}
