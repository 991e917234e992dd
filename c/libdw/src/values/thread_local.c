/* Where a thread has the thread-local storage of a module, on x86. */
#include "values.h"

/* ---- what glibc keeps of other modules */

/* Reads a frame's memory. After a read has failed, every later one gives 0. */
struct reader {
    const dwexpr_libdw_frame *frame;
    size_t word; /* the bytes of an address */
    int failed;
};

static uint64_t number_at(struct reader *reader, uint64_t address, size_t size)
{
    uint8_t bytes[8] = {0};
    reader->failed |= dwexpr_libdw_memory(reader->frame, address, bytes, size) != 0;
    return reader->failed ? 0 : dwexpr_libdw_number_of(bytes, size, 0);
}

static size_t word_of(Elf *elf)
{
    return gelf_getclass(elf) == ELFCLASS32 ? 4 : 8;
}

static uint64_t word_at(struct reader *reader, uint64_t address)
{
    return number_at(reader, address, reader->word);
}

static uint64_t symbol_at(struct reader *reader, const char *name)
{
    struct dwexpr_libdw_symbol symbol = {.name = name};
    reader->failed |= !dwexpr_libdw_find_exported(reader->frame->source.dwfl, &symbol);
    return reader->failed ? 0 : symbol.address;
}

/* glibc tells debuggers where its fields are, by three numbers at a symbol: the bits, a count and the offset. */
static uint64_t offset_of(struct reader *reader, const char *field)
{
    return number_at(reader, symbol_at(reader, field) + 8, 4);
}

/* What the dynamic linker keeps of a module: an entry of its list, which names the module's dynamic section. */
static uint64_t find_map(struct reader *reader, Dwfl_Module *module)
{
    GElf_Phdr segment;
    Dwarf_Addr bias;
    uint64_t dynamic, map = word_at(reader, symbol_at(reader, "_r_debug") + reader->word);
    int i;
    /* only the program may have none */
    dwexpr_libdw_find_segment(module, PT_DYNAMIC, &segment, &bias);
    dynamic = segment.p_vaddr + bias;
    for (i = 0; i < 10000 && map && word_at(reader, map + 2 * reader->word) != dynamic; i++)
        map = word_at(reader, map + 3 * reader->word);
    return i < 10000 ? map : 0;
}

int dwexpr_libdw_is_bound(const dwexpr_libdw_frame *frame, const struct dwexpr_libdw_relocation *relocation,
                          const struct dwexpr_libdw_symbol *symbol)
{
    Dwarf_Addr bias;
    struct reader reader = {frame, word_of(dwfl_module_getelf(relocation->module, &bias)), 0};
    const uint64_t map = find_map(&reader, symbol->module);
    const uint64_t block = word_at(&reader, map + offset_of(&reader, "_thread_db_link_map_l_tls_offset"));
    const uint64_t distance = (symbol->symbol.st_value + (uint64_t)relocation->addend - block) &
                              UINT64_MAX >> (64 - 8 * reader.word);
    /* a descriptor has a function first, and then the distance if that is fixed */
    const size_t after = relocation->kind == HAS_DESCRIPTOR ? reader.word : 0;
    const uint64_t content = word_at(&reader, relocation->place + after);
    /* it is read last, and is 0 if anything isn't known */
    const uint64_t number = word_at(&reader, map + offset_of(&reader, "_thread_db_link_map_l_tls_modid"));
    return number && content == (relocation->kind == HAS_MODULE ? number : distance);
}

#if _ELFUTILS_PREREQ(0, 188) /* targets */

/* Whether a thread's vector of blocks is up to date for a module: no older than when the module got its number. */
static int is_current(struct reader *reader, uint64_t vector, uint64_t number)
{
    uint64_t list = word_at(reader, symbol_at(reader, "_rtld_global") +
                                        offset_of(reader, "_thread_db_rtld_global__dl_tls_dtv_slotinfo_list"));
    const uint64_t slots = offset_of(reader, "_thread_db_dtv_slotinfo_list_slotinfo");
    const uint64_t size = number_at(reader, symbol_at(reader, "_thread_db_sizeof_dtv_slotinfo"), 4);
    const uint64_t next = offset_of(reader, "_thread_db_dtv_slotinfo_list_next");
    uint64_t first = 0, length;
    int i;
    for (i = 0; i < 1000 && list; i++, first += length) {
        length = word_at(reader, list); /* its first field */
        if (number - first < length) {
            const uint64_t slot = list + slots + (number - first) * size;
            return word_at(reader, vector) >= word_at(reader, slot + offset_of(reader, "_thread_db_dtv_slotinfo_gen"));
        }
        list = word_at(reader, list + next);
    }
    return 0;
}

/* The block of a module that was loaded at the start is at a distance from the thread pointer. Other blocks are in the
 * thread's vector once the thread has used them. */
static uint32_t find_library_block(const dwexpr_libdw_frame *frame, size_t word, Dwfl_Module *module, uint64_t pointer,
                                   uint64_t offset, uint64_t *address)
{
    struct reader reader = {frame, word, 0};
    const uint64_t none = reader.word == 4 ? 0xffffffff : UINT64_MAX;
    const uint64_t map = find_map(&reader, module);
    const uint64_t distance = map ? word_at(&reader, map + offset_of(&reader, "_thread_db_link_map_l_tls_offset")) : 0;
    uint64_t number, vector, block;
    if (!map || reader.failed) /* GCOVR_EXCL_BR_LINE: the list can be read */
        return DWEXPR_LIBDW_NOT_READABLE;
    if (distance && distance != none) {
        *address = pointer - distance + offset;
        return 0;
    }
    number = word_at(&reader, map + offset_of(&reader, "_thread_db_link_map_l_tls_modid"));
    vector = word_at(&reader, pointer + offset_of(&reader, "_thread_db_pthread_dtvp"));
    block = word_at(&reader, vector + 2 * reader.word * number);
    *address = block + offset;
    /* an odd one isn't there yet */
    if (!number || !block || block % 2 || !is_current(&reader, vector, number) ||
        reader.failed) /* GCOVR_EXCL_BR_LINE: it is current if it can be read */
        return DWEXPR_LIBDW_NOT_READABLE;
    return 0;
}

/* The program's own block ends at the thread pointer, and begins as its segment is aligned. */
static uint64_t program_block(const GElf_Phdr *segment, uint64_t pointer)
{
    const uint64_t align = segment->p_align ? segment->p_align : 1, first = (0 - segment->p_vaddr) % align;
    return pointer - first - (segment->p_memsz - first + align - 1) / align * align;
}

uint32_t dwexpr_libdw_find_block(const dwexpr_libdw_frame *frame, Dwarf_Addr program, Dwfl_Module *module,
                                 uint64_t pointer, uint64_t offset, uint64_t *address)
{
    GElf_Phdr segment;
    Dwarf_Addr bias;
    const size_t word = word_of(dwfl_module_getelf(module, &bias));
    /* GCC 12 writes an address for an offset in split debug information of version 5 */
    if (!dwexpr_libdw_find_segment(module, PT_TLS, &segment, &bias) || offset >= segment.p_memsz)
        return DWEXPR_LIBDW_NOT_READABLE;
    if (!program || dwfl_addrmodule(frame->source.dwfl, program) != module)
        return find_library_block(frame, word, module, pointer, offset, address);
    *address = program_block(&segment, pointer) + offset;
    return 0;
}

#endif
