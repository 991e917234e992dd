/* The bytes of values. */
#include "values.h"

/* Sets a bit. Bit 0 of a byte is its lowest one in little endian, and its highest in big endian. */
static void set_bit(uint8_t *bytes, uint64_t at, unsigned bit, int big_endian)
{
    const unsigned place = (unsigned)(at % 8) ^ (big_endian ? 7 : 0);
    bytes[at / 8] = (uint8_t)((bytes[at / 8] & ~(1u << place)) | bit << place);
}

static void copy_bits(uint8_t *to, uint64_t to_bit, const uint8_t *from, uint64_t from_bit, uint64_t count,
                      int big_endian)
{
    const unsigned flip = big_endian ? 7 : 0;
    uint64_t i = 0;
    if (count >= 8 && !((to_bit | from_bit) % 8)) {
        memcpy(to + to_bit / 8, from + from_bit / 8, (size_t)(count / 8));
        i = count - count % 8;
    }
    for (; i < count; i++)
        set_bit(to, to_bit + i, from[(from_bit + i) / 8] >> ((from_bit + i) % 8 ^ flip) & 1, big_endian);
}

/* Where the bits of a value go. */
struct destination {
    const dwexpr_libdw_frame *frame;
    int big_endian;
    uint8_t *bytes, *unknown;
};

static void mark_unknown(const struct destination *place, uint64_t at, uint64_t count)
{
    uint64_t i;
    for (i = at; place->unknown && i < at + count; i++)
        set_bit(place->unknown, i, 1, place->big_endian);
}

/* Copies bits from memory: whole bytes at once if all can be read, and else page by page, and each byte of a page that
 * can't be read by itself. Bytes that can't be read are unknown. */
static uint32_t copy_memory(const struct destination *place, uint64_t address, uint64_t bit, uint64_t at,
                            uint64_t count)
{
    uint8_t part[4096];
    uint32_t code = 0;
    size_t alone = 0; /* how many bytes are read by themselves from here on */
    address += bit / 8;
    bit %= 8;
    if (!((bit | at | count) % 8)) {
        uint8_t *whole = place->bytes + at / 8;
        if (!dwexpr_libdw_memory(place->frame, address, whole, (size_t)(count / 8)))
            return 0;
        memset(whole, 0, (size_t)(count / 8));
    }
    while (count) {
        const uint64_t most = 8 * (alone ? 1 : sizeof part - address % sizeof part) - bit;
        const uint64_t bits = count < most ? count : most;
        const size_t size = (size_t)((bit + bits + 7) / 8);
        memset(part, 0, size);
        if (!dwexpr_libdw_memory(place->frame, address, part, size)) {
            copy_bits(place->bytes, at, part, bit, bits, place->big_endian);
        } else if (size > 1) {
            alone = size;
            continue;
        } else {
            mark_unknown(place, at, bits);
            code = DWEXPR_LIBDW_NOT_READABLE;
        }
        alone -= alone > 0;
        address += size;
        at += bits;
        count -= bits;
        bit = 0;
    }
    return code;
}

/* Bits of a piece: so many of those that it has, from one on. */
struct range {
    uint64_t begin, count, size;
};

/* Copies bits of a block, or of a register or a value, whose offset counts from the lowest bit. If there are fewer than
 * the piece has, the others are unknown: those at the end, or above the highest bit. */
static uint32_t copy_content(const struct destination *place, const uint8_t *from, size_t size, int is_block,
                             const dwexpr_piece *piece, uint64_t at, const struct range *range)
{
    const int is_reversed = place->big_endian && !is_block;
    const uint64_t whole = 8 * (uint64_t)size, count = range->count;
    const uint64_t bit = piece->bit_offset + (is_reversed ? range->size - range->begin - count : range->begin);
    const uint64_t rest = bit < whole ? whole - bit : 0, known = count < rest ? count : rest;
    copy_bits(place->bytes, is_reversed ? at + count - known : at, from, is_reversed ? rest - known : bit, known,
              place->big_endian);
    mark_unknown(place, is_reversed ? at : at + known, count - known);
    return known < count ? DWEXPR_LIBDW_TOO_SMALL : 0;
}

/* Copies bits of a piece to a place in the bytes. They are unknown if it is NULL. */
static uint32_t copy_piece(const struct destination *place, const dwexpr_libdw_value *value, const dwexpr_piece *piece,
                           uint64_t at, const struct range *range)
{
    uint8_t content[DWEXPR_LIBDW_REGISTER_SIZE];
    dwexpr_text block;
    size_t size;
    uint32_t code = DWEXPR_LIBDW_OPTIMIZED_AWAY;
    switch (piece ? piece->kind : DWEXPR_EMPTY) {
    case DWEXPR_AT_ADDRESS:
        return copy_memory(place, piece->number, piece->bit_offset + range->begin, at, range->count);
    case DWEXPR_IN_REGISTER:
        code = dwexpr_libdw_register(place->frame, (uint32_t)piece->number, content, &size);
        if (code)
            break;
        return copy_content(place, content, size, 0, piece, at, range);
    case DWEXPR_HOLDS_VALUE:
        size = piece->value_type == DWEXPR_GENERIC ? value->encoding.address_size
                                                   : dwexpr_type_bit_size(piece->value_type, UINT64_MAX) / 8;
        dwexpr_libdw_bytes_of(piece->number, size, place->big_endian, content);
        return copy_content(place, content, size, 0, piece, at, range);
    case DWEXPR_HOLDS_BYTES:
        block = dwexpr_piece_block(piece, value->texts, value->texts_length);
        return copy_content(place, block.bytes, block.length, 1, piece, at, range);
    case DWEXPR_POINTS_INTO: code = DWEXPR_LIBDW_IMPLICIT_POINTER; break;
    default: break;
    }
    mark_unknown(place, at, range->count);
    return code;
}

static void clear(const struct destination *place, uint64_t count)
{
    memset(place->bytes, 0, (size_t)dwexpr_libdw_whole_bytes(count));
    if (place->unknown)
        memset(place->unknown, 0, (size_t)dwexpr_libdw_whole_bytes(count));
}

uint32_t dwexpr_libdw_read_part(const dwexpr_libdw_frame *frame, const dwexpr_libdw_value *value, uint64_t size,
                                uint64_t begin, uint64_t count, uint8_t *bytes, uint8_t *unknown)
{
    const struct destination place = {value->frame ? value->frame : frame, value->encoding.big_endian, bytes, unknown};
    uint64_t at, next;
    uint32_t code = 0;
    size_t i = 0;
    clear(&place, count);
    for (at = 0; at < begin + count; at = next) {
        const dwexpr_piece *piece = i < value->outcome.pieces ? &value->pieces[i++] : NULL;
        struct range range = {begin > at ? begin - at : 0, 0, size - at};
        uint32_t failed;
        if (piece && piece->has_size && piece->size_in_bits < range.size)
            range.size = piece->size_in_bits;
        next = at + range.size;
        if (!range.size || next <= begin)
            continue;
        range.count = (next < begin + count ? next : begin + count) - at - range.begin;
        failed = copy_piece(&place, value, piece, at + range.begin - begin, &range);
        code = code ? code : failed;
    }
    return code;
}

uint32_t dwexpr_libdw_read(const dwexpr_libdw_frame *frame, const dwexpr_libdw_value *value, uint64_t size_in_bits,
                           uint8_t *bytes, uint8_t *unknown)
{
    return dwexpr_libdw_read_part(frame, value, size_in_bits, 0, size_in_bits, bytes, unknown);
}

uint32_t dwexpr_libdw_read_at(const dwexpr_libdw_frame *frame, uint64_t address, uint64_t begin, uint64_t count,
                              int big_endian, uint8_t *bytes, uint8_t *unknown)
{
    const struct destination place = {frame, big_endian, bytes, unknown};
    clear(&place, count);
    return copy_memory(&place, address, begin, 0, count);
}

void dwexpr_libdw_take_bits(uint8_t *to, const uint8_t *from, uint64_t begin, uint64_t count, int big_endian)
{
    memset(to, 0, (size_t)dwexpr_libdw_whole_bytes(count));
    copy_bits(to, 0, from, begin, count, big_endian);
}
