/* Numbers as bytes, and the bytes of libdw's operations. */
#include "dwexpr_names.h"
#include "values.h"

uint64_t dwexpr_libdw_number_of(const uint8_t *bytes, size_t size, int big_endian)
{
    uint64_t number = 0;
    size_t i;
    for (i = 0; i < size && i < 8; i++)
        number |= (uint64_t)bytes[big_endian ? size - 1 - i : i] << (8 * i);
    return number;
}

void dwexpr_libdw_bytes_of(uint64_t number, size_t size, int big_endian, uint8_t *bytes)
{
    size_t i;
    for (i = 0; i < size; i++)
        bytes[big_endian ? size - 1 - i : i] = (uint8_t)(number >> (8 * i));
}

/* Bytes that are written if there is room. All are counted. */
struct writer {
    uint8_t *bytes;
    size_t room;
    size_t length;
};

static void put(struct writer *writer, const uint8_t *bytes, size_t length)
{
    if (length <= writer->room && writer->length <= writer->room - length)
        memcpy(writer->bytes + writer->length, bytes, length);
    writer->length += length;
}

/* Writes a number in `size` bytes, if it fits. */
static uint32_t put_fixed(struct writer *writer, uint64_t number, size_t size, int is_signed, int big_endian)
{
    uint8_t bytes[8];
    uint64_t beyond = size < 8 ? number >> (8 * size - (is_signed != 0)) : 0;
    if (size < 1 || size > 8 || (beyond && !(is_signed && beyond == UINT64_MAX >> (8 * size - 1))))
        return DWEXPR_LIBDW_NOT_ENCODABLE;
    dwexpr_libdw_bytes_of(number, sizeof bytes, big_endian, bytes);
    put(writer, bytes + (big_endian ? sizeof bytes - size : 0), size);
    return 0;
}

/* Writes a LEB128 number in its shortest form, or with bytes that change nothing at its end, so that it has `size`.
 * Returns 0. */
static uint32_t put_leb(struct writer *writer, uint64_t number, size_t size, int is_signed)
{
    uint64_t sign = is_signed && number >> 63 ? UINT64_MAX : 0;
    size_t count = 0;
    int more = 1;
    while (more) {
        uint8_t byte = number & 0x7f;
        number = number >> 7 | (sign ? sign << 57 : 0);
        more = ++count < size || number != sign || (is_signed && (byte >> 6 & 1) != (sign & 1));
        byte |= (uint8_t)(more ? 0x80 : 0);
        put(writer, &byte, 1);
    }
    return 0;
}

/* Writes the operands of an operation, if there are such bytes. If they have `size` bytes, and one LEB128 number, it is
 * made as long as that takes. */
static uint32_t put_operands(struct writer *writer, const Dwarf_Op *op, size_t size, dwexpr_encoding encoding)
{
    static const char sizes[] = "BbHhIiQq";
    const char form = dwexpr_operand_form(op->atom);
    const char *fixed = strchr(sizes, form);
    const uint8_t *block = (const uint8_t *)(uintptr_t)op->number2;
    size_t reference = encoding.version == 2 ? encoding.address_size : encoding.offset_size;
    if (fixed)
        return put_fixed(writer, op->number, (size_t)1 << (fixed - sizes) / 2, (int)((fixed - sizes) % 2),
                         encoding.big_endian);
    if ((form == 'k' || form == 'L') && !block)
        return DWEXPR_LIBDW_NOT_ENCODABLE;
    switch (form) {
    case '-': return 0;
    case 'a': return put_fixed(writer, op->number, encoding.address_size, 0, encoding.big_endian);
    case 'r': return put_fixed(writer, op->number, reference, 0, encoding.big_endian);
    /* libdw extends these by their sign */
    case 'w': return put_fixed(writer, op->number, 2, op->number >> 63 != 0, encoding.big_endian);
    case 'x': return put_fixed(writer, op->number, 4, op->number >> 63 != 0, encoding.big_endian);
    case 'p': {
        /* libdw may read the offset without its sign: -64 is as 64 then, and the size alone tells them apart */
        const size_t length = size > reference ? size - reference : 0;
        uint64_t front = op->number2, beyond;
        while (front >> 7)
            front >>= 7;
        if (put_fixed(writer, op->number, reference, 0, encoding.big_endian) ||
            (!length && !(op->number2 >> 63) && front & 0x40))
            return DWEXPR_LIBDW_NOT_ENCODABLE;
        if (!length || length >= 10)
            return put_leb(writer, op->number2, length, 1);
        beyond = op->number2 >> 7 * length;
        if (beyond && beyond != UINT64_MAX >> 7 * length)
            return DWEXPR_LIBDW_NOT_ENCODABLE;
        return put_leb(writer, op->number2 & ~(UINT64_MAX << 7 * length), length, 0);
    }
    case 'u': case 's': case 'R': case 'P': case 'T': return put_leb(writer, op->number, size, form == 's');
    case 'V': case 'K': case 'O':
        put_leb(writer, op->number, 0, 0);
        return put_leb(writer, op->number2, 0, form == 'O');
    case 'D': return put_fixed(writer, op->number, 1, 0, 0);
    case 'E':
        if (put_fixed(writer, op->number, 1, 0, 0))
            return DWEXPR_LIBDW_NOT_ENCODABLE;
        return put_leb(writer, op->number2, size > 1 ? size - 1 : 0, 0);
    case 'k': { /* libdw points to the block's length */
        size_t length = 1;
        while (block[length - 1] & 0x80)
            length++;
        put(writer, block, length + (size_t)op->number);
        return 0;
    }
    case 'L': /* libdw points to the byte of the block's length */
        put_leb(writer, op->number, size > 1u + block[0] ? size - 1 - block[0] : 0, 0);
        put(writer, block, 1u + block[0]);
        return 0;
    default: return DWEXPR_LIBDW_NOT_ENCODABLE;
    }
}

uint32_t dwexpr_libdw_encode(const Dwarf_Op *operations, size_t count, size_t size, dwexpr_encoding encoding,
                             uint8_t *bytes, size_t room, size_t *length)
{
    struct writer writer = {bytes, room, 0};
    size_t i;
    *length = 0;
    for (i = 0; i < count; i++) {
        const Dwarf_Op *op = &operations[i];
        const size_t begin = writer.length;
        const size_t whole = i + 1 < count ? (size_t)(op[1].offset - op->offset) : size > begin ? size - begin : 0;
        const size_t operands = whole > 1 && whole <= 1 + 10 + 256 ? whole - 1 : 0; /* more only a long block has */
        put(&writer, &op->atom, 1);
        if (put_operands(&writer, op, operands, encoding) ||
            ((size || i + 1 < count) && writer.length - begin != whole))
            return DWEXPR_LIBDW_NOT_ENCODABLE;
    }
    *length = writer.length;
    return 0;
}
