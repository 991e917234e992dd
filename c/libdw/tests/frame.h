/* A frame whose registers and memory are known. Its context says whether the byte order is big-endian. */
#ifndef FRAME_H
#define FRAME_H

#include <dwarf.h>
#include <stdlib.h>
#include <string.h>

#include "dwexpr_libdw.h"

/* Register 0 has 0x1122334455667788, 1 has 0x99aabbccddeeff00, and 17 the bytes 00 to 0f. */
static int read_register(void *context, uint32_t number, uint8_t *content, size_t *size)
{
    static const uint64_t contents[] = {0x1122334455667788, 0x99aabbccddeeff00};
    size_t i;
    if (number == 17) {
        for (i = 0; i < 16; i++)
            content[i] = (uint8_t)i;
        *size = 16;
        return 0;
    }
    if (number > 1)
        return 1;
    for (i = 0; i < 8; i++)
        content[*(int *)context ? 7 - i : i] = (uint8_t)(contents[number] >> (8 * i));
    *size = 8;
    return 0;
}

/* memory from 0x1000 to 0x2000, in which each byte is the lowest one of its address */
static int read_memory(void *context, uint64_t address, uint8_t *content, size_t size)
{
    size_t i;
    (void)context;
    if (address < 0x1000 || address > 0x2000 || size > 0x2000 - address)
        return 1;
    for (i = 0; i < size; i++)
        content[i] = (uint8_t)(address + i);
    return 0;
}

/* A frame of these callbacks. It stands in no module; expressions have their units. */
static inline dwexpr_libdw_frame *frame_of(int (*registers)(void *, uint32_t, uint8_t *, size_t *),
                                           int (*memory)(void *, uint64_t, uint8_t *, size_t), void *context)
{
    const dwexpr_libdw_source source = {.read_register = registers, .read_memory = memory, .context = context};
    dwexpr_libdw_frame *frame;
    dwexpr_libdw_make_frame(&source, &frame);
    return frame;
}

static inline dwexpr_libdw_frame *make_frame(int *big_endian)
{
    return frame_of(read_register, read_memory, big_endian);
}

#endif
