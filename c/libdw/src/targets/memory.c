/* The memory of processes and core dumps. */
#define _GNU_SOURCE /* pread */
#include "targets.h"

#if _ELFUTILS_PREREQ(0, 188) /* dwfl_frame_reg */

#include <inttypes.h>
#include <stdio.h>
#include <unistd.h>

/* Reads at most `size` bytes that were loaded from an ELF file. Gives back how many; 0 if no segment has bytes for the
 * address; or -1 if the file ends before them. */
static ssize_t read_segments(Elf *elf, Dwarf_Addr bias, uint64_t address, uint8_t *bytes, size_t size)
{
    size_t count = 0, i, length;
    const char *file = elf_rawfile(elf, &length);
    elf_getphdrnum(elf, &count);
    for (i = 0; i < count; i++) {
        GElf_Phdr segment = {.p_type = PT_NULL};
        uint64_t offset;
        gelf_getphdr(elf, (int)i, &segment);
        offset = address - bias - segment.p_vaddr;
        if (segment.p_type != PT_LOAD || offset >= segment.p_filesz)
            continue;
        if (size > segment.p_filesz - offset)
            size = (size_t)(segment.p_filesz - offset);
        if (segment.p_offset > length || offset + size > length - segment.p_offset)
            return -1;
        memcpy(bytes, file + segment.p_offset + offset, size);
        return (ssize_t)size;
    }
    return 0;
}

/* Reads memory of a core dump. Pages that never changed aren't in it, but in the file that was loaded. */
static ssize_t read_core(const dwexpr_libdw_target *target, uint64_t address, uint8_t *bytes, size_t size)
{
    Dwarf_Addr bias;
    Elf *elf;
    const ssize_t count = read_segments(target->core, 0, address, bytes, size);
    if (count)
        return count;
    elf = dwfl_module_getelf(dwfl_addrmodule(target->dwfl, address), &bias);
    return elf ? read_segments(elf, bias, address, bytes, size) : 0;
}

uint32_t dwexpr_libdw_read_memory(const dwexpr_libdw_target *target, uint64_t address, uint8_t *bytes, size_t size)
{
    const dwexpr_libdw_reader *reader = &target->reader;
    if (reader->read_register)
        return !reader->read_memory || reader->read_memory(reader->context, address, bytes, size)
                   ? DWEXPR_LIBDW_NOT_READABLE
                   : 0;
    while (size) {
        const ssize_t count = target->core ? read_core(target, address, bytes, size)
                                           : pread(target->file, bytes, size, (off_t)address);
        if (count <= 0)
            return DWEXPR_LIBDW_NOT_READABLE;
        address += (size_t)count;
        bytes += count;
        size -= (size_t)count;
    }
    return 0;
}

uint32_t dwexpr_libdw_read_word(const dwexpr_libdw_target *target, uint64_t address, uint64_t *word)
{
    uint8_t bytes[8] = {0};
    const uint32_t code = dwexpr_libdw_read_memory(target, address, bytes, target->word);
    *word = dwexpr_libdw_number_of(bytes, target->word, target->big_endian);
    return code;
}

int dwexpr_libdw_may_be_code(const dwexpr_libdw_target *target, uint64_t address)
{
    const int has_maps = !target->core && !target->reader.read_register;
    FILE *maps = has_maps ? fopen(dwexpr_libdw_path_of(target, "maps").text, "re") : NULL;
    uint8_t byte;
    uint64_t begin = 0, end = 0;
    char executable = 0;
    size_t count = 0, i;
    int is_code = dwfl_addrmodule(target->dwfl, address) != NULL;
    if (target->reader.read_register) /* its callbacks don't say what can be executed */
        is_code |= !dwexpr_libdw_read_memory(target, address, &byte, 1);
    while (maps && fscanf(maps, "%" SCNx64 "-%" SCNx64 " %*c%*c%c%*[^\n]", &begin, &end, &executable) == 3)
        if (address - begin < end - begin)
            is_code = executable == 'x';
    if (maps)
        fclose(maps);
    elf_getphdrnum(target->core, &count);
    for (i = 0; i < count; i++) {
        GElf_Phdr segment = {.p_type = PT_NULL};
        gelf_getphdr(target->core, (int)i, &segment);
        if (segment.p_type == PT_LOAD && address - segment.p_vaddr < segment.p_memsz)
            is_code = (segment.p_flags & PF_X) != 0;
    }
    return is_code;
}

#endif
