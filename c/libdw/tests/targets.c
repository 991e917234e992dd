/* What is no target: files that are no core dumps or have no threads, and no processes; and why.
 *
 *     targets FOLDER    with the files that dumps.py writes */
#include <fcntl.h>
#include <unistd.h>

#include "check.h"
#include "dwexpr_libdw.h"

static const Dwfl_Callbacks finders = {dwfl_build_id_find_elf, dwfl_standard_find_debuginfo, NULL, NULL};
static const char *folder;
static dwexpr_libdw_target *target;

static const char *path_of(const char *name)
{
    static char path[4096];
    snprintf(path, sizeof path, "%s/%s", folder, name);
    return path;
}

/* A core dump without threads. */
static void check_empty(void)
{
    Dwfl *dwfl = dwfl_begin(&finders);
    const int file = open(path_of("empty.core"), O_RDONLY);
    Elf *core = elf_begin(file, ELF_C_READ_MMAP, NULL);
    check(dwfl_report_elf(dwfl, "program", path_of("empty.program"), -1, 0, 0) != NULL, "no threads", "its program");
    dwfl_report_end(dwfl, NULL, NULL);
    check(dwfl_core_file_attach(dwfl, core) > 0, "no threads", dwfl_errmsg(-1));
    check(dwexpr_libdw_attach(dwfl, core, &target) == DWEXPR_LIBDW_NO_TARGET && !target, "no threads", "no target");
    check(!strcmp(dwexpr_libdw_target_error(), "it has no threads"), "no threads", dwexpr_libdw_target_error());
    dwfl_end(dwfl);
    elf_end(core);
    close(file);
}

/* Files that are no core dumps, a process that doesn't exist, and no thread. */
static void check_errors(void)
{
    Dwfl *dwfl = dwfl_begin(&finders);
    const char *path = path_of("x86_64.program");
    dwexpr_libdw_stack *stack;
    check(dwexpr_libdw_open_core("/nowhere/core", NULL, NULL, &target) == DWEXPR_LIBDW_NO_TARGET, "no file", "");
    check(!target, "no file", "no target");
    check(!strcmp(dwexpr_libdw_target_error(), "No such file or directory"), "no file", dwexpr_libdw_target_error());
    check(dwexpr_libdw_open_core("/dev/null", NULL, NULL, &target) == DWEXPR_LIBDW_NO_TARGET, "no ELF file", "");
    check(dwexpr_libdw_target_error() != NULL, "no ELF file", "why");
    check(dwexpr_libdw_open_core(path, NULL, NULL, &target) == DWEXPR_LIBDW_NO_TARGET, "no core dump", "");
    check(strlen(dwexpr_libdw_target_error()) > 0, "no core dump", "why");
    check(dwexpr_libdw_open_process(4194305, NULL, &target) == DWEXPR_LIBDW_NO_TARGET, "no process", "");
    check(!strcmp(dwexpr_libdw_target_error(), "No such file or directory") ||
              !strcmp(dwexpr_libdw_target_error(), "No such process"),
          "no process", dwexpr_libdw_target_error());
    check(dwexpr_libdw_open_core("/", NULL, NULL, &target) == DWEXPR_LIBDW_NO_TARGET && !target, "a folder", "");
    check(dwexpr_libdw_attach(dwfl, NULL, &target) == DWEXPR_LIBDW_NO_TARGET && !target, "no process", "");
    check(!dwexpr_libdw_open_process(getpid(), NULL, &target) ||
              !strcmp(dwexpr_libdw_target_error(), "it has no threads") || strlen(dwexpr_libdw_target_error()) > 0,
          "this process", "why");
    if (target)
        check(dwexpr_libdw_unwind(target, 1, 10, &stack) == DWEXPR_LIBDW_NO_TARGET, "no such thread", "");
    dwexpr_libdw_close(target);
    dwexpr_libdw_close(NULL);
    dwexpr_libdw_free_stack(NULL);
    check(!dwexpr_libdw_frame_at(NULL, 0), "no stack", "no frame");
    dwfl_end(dwfl);
}

int main(int argc, char **argv)
{
    if (argc < 2)
        return 2;
    elf_version(EV_CURRENT);
    folder = argv[1];
    check(!strcmp(dwexpr_libdw_target_error(), "nothing failed"), "no error", "at first");
    check_empty();
    check_errors();
    return finish();
}
