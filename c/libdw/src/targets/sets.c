/* The kernel's sets of registers, of a process or in a core dump. */
#define _GNU_SOURCE /* ptrace */
#include "targets.h"

#if _ELFUTILS_PREREQ(0, 188) /* dwfl_frame_reg */

#include <sys/ptrace.h>
#include <sys/uio.h>

/* The note of each set in a core dump. ptrace has the same types. */
static const struct {
    const char *name;
    uint32_t type;
} notes[SETS] = {
    [GENERAL] = {"CORE", NT_PRSTATUS}, [FLOATING] = {"CORE", NT_FPREGSET}, [FXSAVE] = {"LINUX", NT_PRXFPREG},
    [XSAVE] = {"LINUX", NT_X86_XSTATE}, [SEGMENTS] = {"LINUX", NT_386_TLS}, [VECTOR] = {"CORE", NT_AUXV},
};

/* The notes of a core dump's segment, or NULL if it has none. */
static Elf_Data *notes_of(Elf *core, size_t index)
{
    GElf_Phdr segment = {.p_type = PT_NULL};
    gelf_getphdr(core, (int)index, &segment);
    if (segment.p_type != PT_NOTE || (size_t)segment.p_filesz != segment.p_filesz)
        return NULL;
    return elf_getdata_rawchunk(core, (int64_t)segment.p_offset, (size_t)segment.p_filesz, ELF_T_NHDR);
}

/* The set that a note has, or SETS if it has none. */
static int set_of(const GElf_Nhdr *header, const char *name)
{
    int set = GENERAL;
    while (set < SETS && (header->n_type != notes[set].type || header->n_namesz != strlen(notes[set].name) + 1 ||
                          memcmp(name, notes[set].name, header->n_namesz)))
        set++;
    return set;
}

/* Takes the sets of a thread from notes. A thread's notes begin with NT_PRSTATUS. */
static void take_sets(const dwexpr_libdw_target *target, Elf_Data *from, pid_t thread, struct dwexpr_libdw_sets *sets)
{
    /* in NT_PRSTATUS: the thread's number, and its general registers */
    const size_t thread_at = target->word == 4 ? 24 : 32, registers_at = target->word == 4 ? 72 : 112;
    GElf_Nhdr header;
    size_t at = 0, name_at, bytes_at;
    int is_thread = 0;
    while ((at = gelf_getnote(from, at, &header, &name_at, &bytes_at)) > 0) {
        const uint8_t *bytes = (const uint8_t *)from->d_buf + bytes_at;
        const int set = set_of(&header, (const char *)from->d_buf + name_at);
        const size_t front = set == GENERAL ? registers_at : 0;
        if (set == SETS || header.n_descsz <= front)
            continue;
        if (set == GENERAL)
            is_thread = (pid_t)dwexpr_libdw_number_of(bytes + thread_at, 4, target->big_endian) == thread;
        if (is_thread || set == VECTOR) {
            sets->bytes[set] = bytes + front;
            sets->lengths[set] = header.n_descsz - front;
        }
    }
}

void dwexpr_libdw_read_sets(const dwexpr_libdw_target *target, pid_t thread, struct dwexpr_libdw_sets *sets)
{
    uint8_t *bytes = sets->traced;
    size_t count = 0, i;
    int set;
    elf_getphdrnum(target->core, &count);
    for (i = 0; i < count; i++)
        take_sets(target, notes_of(target->core, i), thread, sets);
    for (set = GENERAL; set < SETS && !target->core && !target->reader.read_register; set++) {
        /* the kernel wants room for whole items: the largest, a segment, has 16 bytes */
        struct iovec part = {bytes, (size_t)(sets->traced + sizeof sets->traced - bytes) / 16 * 16};
        if (set == VECTOR)
            part.iov_len = dwexpr_libdw_read_proc(target, "auxv", bytes, part.iov_len);
        else if (ptrace(PTRACE_GETREGSET, thread, (void *)(uintptr_t)notes[set].type, &part))
            continue;
        sets->bytes[set] = bytes;
        sets->lengths[set] = part.iov_len;
        bytes += part.iov_len;
    }
}

#endif
