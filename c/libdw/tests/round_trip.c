/* Encodes each expression of object files from libdw's operations, and compares it with the file's bytes. libdw doesn't
 * give the bytes of those in location lists: examples/expressions.c compares their operations. The last line is
 * `N passed, M failed`. */
#include <dwarf.h>
#include <fcntl.h>
#include <stdio.h>
#include <string.h>
#include <unistd.h>

#include "dwexpr_libdw.h"

static const char *file;
static dwexpr_encoding encoding;
static size_t same, differing;

static void compare(const uint8_t *bytes, size_t length, const Dwarf_Op *operations, size_t count)
{
    static uint8_t made[1 << 16];
    size_t i;
    uint32_t code = dwexpr_libdw_encode(operations, count, 0, encoding, made, sizeof made, &i);
    /* the sign of an offset may need the size */
    if (code)
        code = dwexpr_libdw_encode(operations, count, length, encoding, made, sizeof made, &i);
    if (!code && i == length && !memcmp(made, bytes, length)) {
        same++;
        return;
    }
    differing++;
    printf("%s: %s:", file, code ? dwexpr_libdw_code_name(code) : "other bytes");
    for (i = 0; i < length; i++)
        printf(" %02x", bytes[i]);
    printf("\n");
}

static int on_attribute(Dwarf_Attribute *attribute, void *unused)
{
    Dwarf_Block block;
    Dwarf_Op *operations;
    size_t count;
    (void)unused;
    if (dwarf_whatattr(attribute) != DW_AT_const_value && !dwarf_formblock(attribute, &block) &&
        !dwarf_getlocation(attribute, &operations, &count))
        compare(block.data, block.length, operations, count);
    return DWARF_CB_OK;
}

static void walk(Dwarf_Die *entry)
{
    do {
        Dwarf_Die child;
        dwarf_getattrs(entry, on_attribute, NULL, 0);
        if (dwarf_child(entry, &child) == 0)
            walk(&child);
    } while (dwarf_siblingof(entry, entry) == 0);
}

int main(int argc, char **argv)
{
    int i;
    for (i = 1; i < argc; i++) {
        const int descriptor = open(file = argv[i], O_RDONLY);
        Dwarf *dwarf = dwarf_begin(descriptor, DWARF_C_READ);
        Dwarf_CU *unit = NULL;
        Dwarf_Die entry;
        while (dwarf && dwarf_get_units(dwarf, unit, &unit, NULL, NULL, &entry, NULL) == 0)
            if (!dwexpr_libdw_encoding(unit, &encoding))
                walk(&entry);
        dwarf_end(dwarf);
        close(descriptor);
    }
    printf("%zu passed, %zu failed\n", same, differing);
    return differing != 0;
}
