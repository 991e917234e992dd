/* Targets and their threads. */
#define _GNU_SOURCE /* O_CLOEXEC */
#include "targets.h"

#if _ELFUTILS_PREREQ(0, 188) /* dwfl_frame_reg */

#include <errno.h>
#include <fcntl.h>
#include <stdio.h>
#include <unistd.h>

/* ---- what /proc has of a process */

struct dwexpr_libdw_path dwexpr_libdw_path_of(const dwexpr_libdw_target *target, const char *name)
{
    struct dwexpr_libdw_path path;
    snprintf(path.text, sizeof path.text, "/proc/%ld/%s", (long)dwfl_pid(target->dwfl), name);
    return path;
}

static int open_proc(const dwexpr_libdw_target *target, const char *name)
{
    return open(dwexpr_libdw_path_of(target, name).text, O_RDONLY | O_CLOEXEC);
}

size_t dwexpr_libdw_read_proc(const dwexpr_libdw_target *target, const char *name, void *bytes, size_t size)
{
    const int file = open_proc(target, name);
    const ssize_t count = file < 0 ? 0 : read(file, bytes, size);
    if (file >= 0)
        close(file);
    return count > 0 ? (size_t)count : 0;
}

/* ---- why there is no target */

_Thread_local const char *dwexpr_libdw_error = "nothing failed";

const char *dwexpr_libdw_target_error(void)
{
    return dwexpr_libdw_error;
}

/* What the system's number or, if that is negative, libdwfl says. Gives back whether there is one. */
static int has_failed(int number)
{
    if (number)
        dwexpr_libdw_error = number > 0 ? strerror(number) : dwfl_errmsg(-1);
    return number != 0;
}

/* ---- targets */

static int on_thread(Dwfl_Thread *thread, void *given)
{
    dwexpr_libdw_target *target = (dwexpr_libdw_target *)given;
    const pid_t number = dwfl_thread_tid(thread);
    return dwexpr_libdw_add(&target->threads, &number, sizeof number) ? DWARF_CB_ABORT : DWARF_CB_OK;
}

/* Ends a call that makes a target, which is freed unless the answer is 0. */
static uint32_t ended(uint32_t code, dwexpr_libdw_target **target)
{
    if (code) {
        dwexpr_libdw_close(*target);
        *target = NULL;
    }
    return code;
}

static uint32_t make_target(dwexpr_libdw_target **target)
{
    *target = (dwexpr_libdw_target *)calloc(1, sizeof **target);
    if (!*target)
        return DWEXPR_LIBDW_NO_MEMORY;
    (*target)->file = -1;
    return ended(dwexpr_libdw_make_names(&(*target)->names), target);
}

/* Makes a target with a Dwfl of its own, which looks for debug information on a path unless that is NULL. */
static uint32_t make_owner(const Dwfl_Callbacks *finders, const char *debug_path, dwexpr_libdw_target **target)
{
    const size_t size = debug_path ? strlen(debug_path) + 1 : 0;
    const uint32_t code = make_target(target);
    dwexpr_libdw_target *made = *target;
    if (code)
        return code;
    made->finders = *finders;
    made->finders.debuginfo_path = &made->debug_path;
    made->debug_path = size ? (char *)malloc(size) : NULL;
    if (made->debug_path)
        memcpy(made->debug_path, debug_path, size);
    made->owned = made->debug_path || !size ? dwfl_begin(&made->finders) : NULL;
    return ended(made->owned ? 0 : DWEXPR_LIBDW_NO_MEMORY, target);
}

/* Reads the header of the first module whose file can be read. */
static void read_header(Dwfl *dwfl, GElf_Ehdr *header)
{
    Dwfl_Module *module;
    Dwarf_Addr bias;
    ptrdiff_t at = 0;
    /* GCOVR_EXCL_BR_START: libdwfl has found one */
    while ((at = dwexpr_libdw_next_module(dwfl, at, &module)) > 0)
    /* GCOVR_EXCL_BR_STOP */
        if (gelf_getehdr(dwfl_module_getelf(module, &bias), header))
            return;
}

static uint32_t begin_target(dwexpr_libdw_target *target, Dwfl *dwfl, Elf *core)
{
    GElf_Ehdr header = {.e_machine = EM_NONE};
    int failed;
    target->dwfl = dwfl;
    target->core = core;
    if (core) {
        gelf_getehdr(core, &header);
    } else if (target->reader.read_register) {
        read_header(dwfl, &header);
    } else {
        /* its words are in the order of this machine, and the first fields are the same for words of 32 bits */
        dwexpr_libdw_read_proc(target, "exe", &header, sizeof header);
        target->file = open_proc(target, "mem");
    }
    target->big_endian = header.e_ident[EI_DATA] == ELFDATA2MSB;
    target->word = header.e_ident[EI_CLASS] == ELFCLASS32 ? 4 : 8;
    target->machine = header.e_machine;
    failed = dwfl_getthreads(dwfl, on_thread, target);
    if (failed == DWARF_CB_ABORT)
        return DWEXPR_LIBDW_NO_MEMORY;
    if (!failed && !target->threads.length)
        dwexpr_libdw_error = "it has no threads";
    return has_failed(failed) || !target->threads.length ? DWEXPR_LIBDW_NO_TARGET : 0;
}

uint32_t dwexpr_libdw_attach(Dwfl *dwfl, Elf *core, dwexpr_libdw_target **target)
{
    const uint32_t code = make_target(target);
    return code ? code : ended(begin_target(*target, dwfl, core), target); /* GCOVR_EXCL_BR_LINE: no memory */
}

uint32_t dwexpr_libdw_open_reader(Dwfl *dwfl, const dwexpr_libdw_reader *reader, dwexpr_libdw_target **target)
{
    const pid_t process = reader->threads_length ? reader->threads[0] : 0;
    const uint32_t code = make_target(target);
    if (code) /* GCOVR_EXCL_BR_LINE: no memory */
        return code; /* GCOVR_EXCL_LINE: no memory */
    (*target)->reader = *reader;
    if (has_failed(-!dwfl_attach_state(dwfl, NULL, process, &dwexpr_libdw_of_reader, *target)))
        return ended(DWEXPR_LIBDW_NO_TARGET, target);
    return ended(begin_target(*target, dwfl, NULL), target);
}

uint32_t dwexpr_libdw_open_process(pid_t process, const char *debug_path, dwexpr_libdw_target **target)
{
    static const Dwfl_Callbacks finders = {dwfl_linux_proc_find_elf, dwfl_standard_find_debuginfo, NULL, NULL};
    const uint32_t code = make_owner(&finders, debug_path, target);
    Dwfl *dwfl;
    if (code) /* GCOVR_EXCL_BR_LINE: no memory */
        return code; /* GCOVR_EXCL_LINE: no memory */
    dwfl = (*target)->owned;
    if (has_failed(dwfl_linux_proc_report(dwfl, process)))
        return ended(DWEXPR_LIBDW_NO_TARGET, target);
    dwfl_report_end(dwfl, NULL, NULL);
    if (has_failed(dwfl_linux_proc_attach(dwfl, process, false))) /* GCOVR_EXCL_BR_LINE: it ends after the report */
        return ended(DWEXPR_LIBDW_NO_TARGET, target); /* GCOVR_EXCL_LINE: likewise */
    return ended(begin_target(*target, dwfl, NULL), target);
}

uint32_t dwexpr_libdw_open_core(const char *file, const char *program, const char *debug_path,
                                dwexpr_libdw_target **target)
{
    static const Dwfl_Callbacks finders = {dwfl_build_id_find_elf, dwfl_standard_find_debuginfo, NULL, NULL};
    const uint32_t code = make_owner(&finders, debug_path, target);
    Dwfl *dwfl;
    Elf *core;
    if (code)
        return code;
    dwfl = (*target)->owned;
    elf_version(EV_CURRENT);
    (*target)->file = open(file, O_RDONLY | O_CLOEXEC);
    if (has_failed((*target)->file < 0 ? errno : 0))
        return ended(DWEXPR_LIBDW_NO_TARGET, target);
    core = (*target)->opened = elf_begin((*target)->file, ELF_C_READ_MMAP, NULL);
    if (!core)
        dwexpr_libdw_error = elf_errmsg(-1);
    if (!core || has_failed(-(dwfl_core_file_report(dwfl, core, program) <= 0)))
        return ended(DWEXPR_LIBDW_NO_TARGET, target);
    dwfl_report_end(dwfl, NULL, NULL);
    if (has_failed(-(dwfl_core_file_attach(dwfl, core) < 0)))
        return ended(DWEXPR_LIBDW_NO_TARGET, target);
    return ended(begin_target(*target, dwfl, core), target);
}

void dwexpr_libdw_close(dwexpr_libdw_target *target)
{
    if (!target)
        return;
    free(target->threads.items);
    dwexpr_libdw_free_names(target->names);
    dwfl_end(target->owned);
    free(target->debug_path);
    elf_end(target->opened);
    if (target->file >= 0)
        close(target->file);
    free(target);
}

Dwfl *dwexpr_libdw_dwfl(const dwexpr_libdw_target *target)
{
    return target->dwfl;
}

size_t dwexpr_libdw_threads(const dwexpr_libdw_target *target, const pid_t **threads)
{
    *threads = (const pid_t *)target->threads.items;
    return target->threads.length;
}

#endif
