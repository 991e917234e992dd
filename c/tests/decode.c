/* Decodes each vector of a file, and compares every field: decode DWEXPR.H COUNTS VECTORS. */
#include "rows.h"

static struct name codes[NAMES], kinds[NAMES];
static int has_vector[256];
static size_t count;

/* Whether the kind's number is an offset or an index. */
static int is_place(uint32_t kind)
{
    return kind == DWEXPR_OP_CALL || kind == DWEXPR_OP_IMPLICIT_POINTER || kind == DWEXPR_OP_PARAMETER_REF ||
           kind == DWEXPR_OP_VARIABLE_VALUE || kind == DWEXPR_OP_ADDRESS_INDEX || kind == DWEXPR_OP_CONSTANT_INDEX;
}

/* The operation of a vector, at an offset. */
static dwexpr_operation wanted(const char *row, const uint8_t *bytes, size_t length, size_t offset)
{
    const char *block = field(row, "block");
    dwexpr_operation want = {.offset = offset, .opcode = bytes[0]};
    want.number = number_of(row, "number");
    want.base_type = number_of(row, "base_type");
    want.kind = numbered(row, "kind", kinds);
    if (want.base_type > SIZE_MAX || (is_place(want.kind) && want.number > SIZE_MAX)) {
        want.number = want.base_type = want.kind = 0;
        want.fault = DWEXPR_UNSUPPORTED_OFFSET;
        return want;
    }
    want.fault = numbered(row, "code", codes);
    want.size = want.fault ? 0 : length;
    want.signed_number = (int64_t)number_of(row, "signed_number");
    want.register_number = (uint32_t)number_of(row, "register_number");
    want.deref_size = (uint32_t)number_of(row, "deref_size");
    want.flag = (uint32_t)number_of(row, "flag");
    want.detail = number_of(row, "detail");
    if (block && sscanf(block, "[%zu, %zu", &want.block_offset, &want.block_length) == 2)
        want.block_offset += want.block_offset ? offset : 0;
    return want;
}

/* Decodes the operation at the start, and then after three bytes and before two others. Each of its fronts is cut
 * off. */
static void try_vector(const char *row)
{
    char digits[80];
    uint8_t bytes[64], whole[80];
    dwexpr_encoding encoding;
    dwexpr_operation want, got;
    size_t length;
    if (!read_expression(row, &encoding, digits))
        return;
    count++;
    if (is_for_other_offsets(row))
        return;
    length = bytes_of(digits, bytes);
    for (size_t offset = 0; offset < 4; offset += 3) {
        want = wanted(row, bytes, length, offset);
        memset(whole, 0x96, sizeof whole);
        memcpy(whole + offset, bytes, length);
        memset(&got, 0xa5, sizeof got);
        /* an operation that is cut off has to be at the end */
        check(dwexpr_decode(whole, offset + length + (offset && want.fault != DWEXPR_UNEXPECTED_EOF ? 2 : 0), encoding,
                            offset, &got) == want.fault,
              digits, "the code");
        /* the struct has no padding */
        check(!memcmp(&want, &got, sizeof got), digits, offset ? "the fields, further on" : "the fields");
    }
    has_vector[bytes[0]] = 1;
    for (size_t front = 1; !want.fault && front < length; front++)
        check(dwexpr_decode(bytes, front, encoding, 0, &got) == DWEXPR_UNEXPECTED_EOF &&
                  got.fault == DWEXPR_UNEXPECTED_EOF,
              digits, "a front");
}

/* Each encoding that is allowed, and many that aren't. */
static void encodings(void)
{
    static const uint8_t nop[] = {0x96};
    for (int number = 0; number < 1 << 17; number++) {
        const int address_size = number & 255, offset_size = number >> 8 & 15, version = number >> 12 & 7,
                  big_endian = number >> 15;
        const int good = address_size >= 1 && address_size <= 8 && (offset_size == 4 || offset_size == 8) &&
                         version >= 2 && version <= 5 && big_endian <= 1;
        const dwexpr_operation want = {.size = (size_t)good,
                                       .opcode = good ? 0x96 : 0,
                                       .kind = good ? DWEXPR_OP_NOP : DWEXPR_OP_NONE,
                                       .fault = good ? DWEXPR_OK : DWEXPR_BAD_ENCODING};
        dwexpr_operation got;
        if (dwexpr_decode(nop, 1, encoding_of(address_size, offset_size, version, big_endian), 0, &got) != want.fault ||
            memcmp(&want, &got, sizeof got))
            check(0, "an encoding", good ? "a good one" : "a bad one");
    }
}

static void offsets(void)
{
    static const uint8_t nop[] = {0x96};
    static const size_t offsets[] = {0, 1, 2, SIZE_MAX};
    for (size_t i = 0; i < COUNT(offsets); i++) {
        const dwexpr_operation want = {.offset = offsets[i], .fault = DWEXPR_BAD_OFFSET};
        dwexpr_operation got;
        check(dwexpr_decode(i ? nop : NULL, i ? 1 : 0, LE8, offsets[i], &got) == DWEXPR_BAD_OFFSET, "an offset",
              "the code");
        check(!memcmp(&want, &got, sizeof got), "an offset", "the fields");
    }
}

int main(int argc, char **argv)
{
    static char row[1 << 12];
    FILE *file = opened(argc > 3 ? argv[3] : NULL);
    read_names(argv[1], "dwexpr_code", "DWEXPR_", codes);
    read_names(argv[1], "dwexpr_operation_kind", "DWEXPR_OP_", kinds);
    while (fgets(row, sizeof row, file))
        try_vector(row);
    check_count(argv[2], "decode", count);
    for (size_t opcode = 0; opcode < COUNT(has_vector); opcode++)
        check(has_vector[opcode], "an opcode", "it has a vector");
    encodings();
    offsets();
    return finish();
}
