/* examples/expressions.c says that the expressions of a file differ if a field of each operation is changed. */
#include <stddef.h>

#include "check.h"

#define FIELD(name) {#name, offsetof(dwexpr_operation, name), sizeof ((dwexpr_operation *)NULL)->name}

/* All that libdw has. */
static const struct {
    const char *name;
    size_t place, size;
} fields[] = {FIELD(offset),        FIELD(size),          FIELD(opcode),          FIELD(number),
              FIELD(signed_number), FIELD(base_type),     FIELD(register_number), FIELD(deref_size),
              FIELD(flag),          FIELD(block_offset),  FIELD(block_length),    FIELD(detail)};

static size_t changed_place;

static uint32_t changed_decode(const uint8_t *bytes, size_t length, dwexpr_encoding unit, size_t offset,
                               dwexpr_operation *op)
{
    const uint32_t code = dwexpr_decode(bytes, length, unit, offset, op);
    if (!code)
        ((uint8_t *)op)[changed_place]++;
    return code;
}

#define dwexpr_decode changed_decode
#define main compare_files
#include "../examples/expressions.c"
#undef main

int main(int argc, char **argv)
{
    size_t i, unchanged, sizes = sizeof(uint32_t) * 2; /* of the kind, and of a fault's code */
    changed_place = offsetof(dwexpr_operation, fault);
    compare_files(argc, argv);
    unchanged = differing;
    for (i = 0; i < COUNT(fields); i++) {
        changed_place = fields[i].place;
        differing = 0;
        check(compare_files(argc, argv) && differing > unchanged, fields[i].name, "another value differs");
        sizes += fields[i].size;
    }
    check(unchanged > 0 && sizes == sizeof(dwexpr_operation), "an operation", "it has these fields");
    return finish();
}
