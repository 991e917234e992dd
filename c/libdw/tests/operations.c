/* Operations of libdw's as bytes: rows with what libdw gives, and the bytes. And the names of codes. */
#include "check.h"
#include "dwexpr_libdw.h"

#define BAD NULL

static const uint8_t block[] = {0x82, 0x00, 0xaa, 0xbb}, type_block[] = {0x01, 0xcc};

static const struct {
    const char *name;
    int address_size, big_endian;
    Dwarf_Op operations[3];
    size_t count;
    const char *bytes;
    size_t size; /* of all bytes, if that is given */
} operations[] = {
    {"no operation", 8, 0, {{0, 0, 0, 0}}, 0, "", 0},
    {"an address of 1 byte", 1, 0, {{0x03, 0xfe, 0, 0}}, 1, "03 fe", 0},
    {"an address of 2 bytes", 2, 0, {{0x03, 0xfedc, 0, 0}}, 1, "03 dcfe", 0},
    {"an address of 2 bytes", 2, 1, {{0x03, 0xfedc, 0, 0}}, 1, "03 fedc", 0},
    {"an address of 3 bytes", 3, 1, {{0x03, 0x123456, 0, 0}}, 1, "03 123456", 0},
    {"an address that doesn't fit", 4, 0, {{0x03, 0x100000000, 0, 0}}, 1, BAD, 0},
    {"an address of 0 bytes", 0, 0, {{0x03, 0, 0, 0}}, 1, BAD, 0},
    {"an address of 9 bytes", 9, 0, {{0x03, 0, 0, 0}}, 1, BAD, 0},
    {"a constant that doesn't fit", 8, 0, {{0x08, 256, 0, 0}}, 1, BAD, 0},
    {"a negative constant without a sign", 8, 0, {{0x0a, UINT64_MAX, 0, 0}}, 1, BAD, 0},
    {"a constant below the least", 8, 0, {{0x09, (Dwarf_Word)-129, 0, 0}}, 1, BAD, 0},
    {"a constant above the most", 8, 0, {{0x09, 128, 0, 0}}, 1, BAD, 0},
    {"an entry that doesn't fit", 8, 0, {{0x98, 0x10000, 0, 0}}, 1, BAD, 0},
    {"an offset whose sign is unknown", 8, 0, {{0xa0, 1, 64, 0}}, 1, BAD, 0},
    {"an offset of two bytes whose sign is unknown", 8, 0, {{0xa0, 1, 0x3f81, 0}}, 1, BAD, 0},
    {"an offset of one byte whose size is known", 8, 0, {{0xa0, 1, 127, 0}}, 1, "a0 01000000 7f", 6},
    {"an offset of two bytes whose size is known", 8, 0, {{0xa0, 1, 127, 0}}, 1, "a0 01000000 ff00", 7},
    {"an offset of a size that it can't have", 8, 0, {{0xa0, 1, 300, 0}}, 1, BAD, 6},
    {"a number of a longer form whose size is known", 8, 0, {{0x30, 0, 0, 0}, {0x10, 5, 0, 1}}, 2, "30 10 858000",
     5},
    {"a number of a size that it can't have", 8, 0, {{0x10, 300, 0, 0}}, 1, BAD, 2},
    {"more bytes than it has", 8, 0, {{0x30, 0, 0, 0}}, 1, BAD, 2},
    {"an offset with a sign", 8, 0, {{0xa0, 1, (Dwarf_Word)-1, 0}}, 1, "a0 01000000 7f", 0},
    {"an offset with a sign and a size", 8, 0, {{0xa0, 1, (Dwarf_Word)-2, 0}}, 1, "a0 01000000 feff7f", 8},
    {"an offset of ten bytes", 8, 0, {{0xa0, 1, (Dwarf_Word)-1, 0}}, 1, "a0 01000000 ffffffffffffffffff7f", 15},
    {"an offset with a size", 8, 0, {{0xa0, 1, 64, 0}, {0x96, 0, 0, 7}}, 2, "a0 01000000 c000 96", 0},
    {"an offset with a smaller size", 8, 0, {{0xa0, 1, 64, 0}, {0x96, 0, 0, 6}}, 2, "a0 01000000 40 96", 0},
    {"a LEB128 number that is too long", 8, 0, {{0x10, 5, 0, 0}, {0x9f, 0, 0, 2000}}, 2, BAD, 0},
    {"a LEB128 number that is too short", 8, 0, {{0x10, 128, 0, 0}, {0x9f, 0, 0, 2}}, 2, BAD, 0},
    {"two LEB128 numbers, one of which is longer", 8, 0, {{0x92, 17, 5, 0}, {0x9f, 0, 0, 4}}, 2, BAD, 0},
    {"a block", 8, 0, {{0x9e, 2, (uintptr_t)block, 0}, {0x9f, 0, 0, 5}}, 2, "9e 8200aabb 9f", 0},
    {"no block", 8, 0, {{0x9e, 2, 0, 0}}, 1, BAD, 0},
    {"a size that doesn't fit", 8, 0, {{0xa6, 256, 40, 0}}, 1, BAD, 0},
    {"no block of a type", 8, 0, {{0xa4, 40, 0, 0}}, 1, BAD, 0},
    {"an entry of another unit that doesn't fit", 8, 0, {{0xa0, 0x100000000, 1, 0}}, 1, BAD, 0},
    {"a block of a type", 8, 0, {{0xa4, 40, (uintptr_t)type_block, 0}, {0x9f, 0, 0, 5}}, 2, "a4 a800 01cc 9f", 0},
    {"an operation that begins elsewhere", 8, 0, {{0x30, 0, 0, 0}, {0x9f, 0, 0, 2}}, 2, BAD, 0},
    {"offsets that count from another", 8, 0, {{0x30, 0, 0, 7}, {0x9f, 0, 0, 8}}, 2, "30 9f", 0},
    {"an unknown opcode", 8, 0, {{0x01, 0, 0, 0}}, 1, BAD, 0},
    {"the last opcode", 8, 0, {{0xff, 0, 0, 0}}, 1, BAD, 0},
};

static void check_operations(void)
{
    uint8_t got[64], wanted[64];
    size_t i, length, room;
    for (i = 0; i < COUNT(operations); i++) {
        const dwexpr_encoding encoding = encoding_of(operations[i].address_size, 4, 5, operations[i].big_endian);
        const Dwarf_Op *all = operations[i].operations;
        const size_t count = operations[i].count, size = operations[i].size;
        const uint32_t code = dwexpr_libdw_encode(all, count, size, encoding, got, sizeof got, &length);
        if (!operations[i].bytes) {
            check(code == DWEXPR_LIBDW_NOT_ENCODABLE, operations[i].name, "it has no bytes");
            continue;
        }
        check(!code && length == bytes_of(operations[i].bytes, wanted) && !memcmp(got, wanted, length),
              operations[i].name, "its bytes");
        for (room = 0; room < length; room++) {
            memset(got, 0x55, sizeof got);
            check(!dwexpr_libdw_encode(all, count, size, encoding, got, room, &length) &&
                      got[room] == 0x55,
                  operations[i].name, "it writes no more than there is room for");
        }
    }
}

static void check_names(void)
{
    uint32_t code;
    for (code = DWEXPR_LIBDW_FAILED; code <= DWEXPR_LIBDW_NO_PART; code++)
        check(strcmp(dwexpr_libdw_code_name(code), "unknown code") != 0, "the name of a code", "it has one");
    check(!strcmp(dwexpr_libdw_code_name(DWEXPR_LIBDW_NO_PART + 1), "unknown code"), "a code", "there is no such");
    check(!strcmp(dwexpr_libdw_code_name(DWEXPR_LIBDW_WANTS + DWEXPR_WANTS_CFA), "the canonical frame address"),
          "a request", "its name");
    check(!strcmp(dwexpr_libdw_code_name(DWEXPR_DIVISION_BY_ZERO), "a division by zero"), "a fault", "its name");
}

int main(void)
{
    check_operations();
    check_names();
    return finish();
}
