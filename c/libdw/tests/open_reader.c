/* Targets that callbacks read: programs that dumps.py wrote, with registers and memory of here, and a stopped process,
 * whose frames are those of a target that reads it by itself.
 *
 *     open_reader FOLDER    has the programs
 *     open_reader PID       is the process, on x86-64 */
#include "check.h"
#include "dwexpr_libdw.h"
#include <dwarf.h>
#include <stdlib.h>

static Dwfl *dwfl;
static dwexpr_libdw_target *target;
static dwexpr_libdw_reader reader;

static void begin(void)
{
    static const Dwfl_Callbacks finders = {dwfl_linux_proc_find_elf, dwfl_standard_find_debuginfo, NULL, NULL};
    dwfl = dwfl_begin(&finders);
}

static void end(void)
{
    dwexpr_libdw_close(target);
    target = NULL;
    dwfl_end(dwfl);
}

/* ---- made-up programs */

/* The first thread stands in the program, the second one where no code is, after a call, and the third nowhere. */
static const pid_t threads[] = {11, 12, 13};

static const struct machine {
    const char *name;
    uint8_t word, stack;
} machines[] = {{"x86_64", 8, 7}, {"i386", 4, 4}}, *machine;

static int has_code; /* whether the second thread's address has memory */

static int read_register(void *context, pid_t thread, uint32_t number, uint8_t *bytes, size_t *size)
{
    const uint32_t places[] = {0x401010, 0x10}, tops[] = {0x500008, 0x504000};
    const int at = thread - threads[0];
    uint64_t content = 0x100 + number;
    size_t i;
    check(context == &machine, "a register", "the context");
    if (number == 51)
        return 0; /* and nothing is written */
    *size = number == 17 ? 16 : number == 50 ? DWEXPR_LIBDW_REGISTER_SIZE + 1 : machine->word;
    if ((number > 17 && number != 50 && number != DWEXPR_LIBDW_PC) || at > 1)
        return 1;
    if (number == DWEXPR_LIBDW_PC || number == machine->stack)
        content = number == machine->stack ? tops[at] : places[at];
    for (i = 0; i < *size && i < 16; i++)
        bytes[i] = (uint8_t)(i < 8 ? content >> (8 * i) : i);
    return 0;
}

/* Each byte of the program's code and of the stack is the lowest one of its address, but for a return address. */
static int read_memory(void *context, uint64_t address, uint8_t *bytes, size_t size)
{
    const uint32_t returns = 0x4010ed;
    size_t i;
    check(context == &machine, "memory", "the context");
    for (i = 0; i < size; i++, address++) {
        if ((address < 0x401000 || address >= 0x401200) && (address < 0x500000 || address >= 0x504008) &&
            !(has_code && address == 0x10))
            return 1;
        bytes[i] = (uint8_t)(address >= 0x504000 ? address < 0x504004 ? returns >> (8 * (address % 4)) : 0 : address);
    }
    return 0;
}

static int find_tls(void *context, pid_t thread, Dwfl_Module *module, uint64_t offset, uint64_t *address)
{
    check(context == &machine && module, "thread-local storage", "the context");
    *address = 0x700000 + 0x100 * (uint64_t)thread + offset;
    return offset > 4;
}

/* Opens a program, unless it is NULL, after a module whose file isn't there, with some of the callbacks. */
static uint32_t open_program(const char *folder, size_t count, int (*memory)(void *, uint64_t, uint8_t *, size_t),
                             int (*tls)(void *, pid_t, Dwfl_Module *, uint64_t, uint64_t *))
{
    char path[4096];
    begin();
    dwfl_report_module(dwfl, "nowhere", 0x10000, 0x11000);
    if (folder) {
        snprintf(path, sizeof path, "%s/%s.program", folder, machine->name);
        dwfl_report_elf(dwfl, "program", path, -1, 0, 0);
    }
    dwfl_report_end(dwfl, NULL, NULL);
    reader = (dwexpr_libdw_reader){threads, count, read_register, memory, tls, &machine};
    return dwexpr_libdw_open_reader(dwfl, &reader, &target);
}

/* Unwinds a thread, and checks how many frames it has. */
static dwexpr_libdw_stack *unwind(pid_t thread, uint32_t wanted, size_t frames)
{
    dwexpr_libdw_stack *stack;
    const uint32_t code = dwexpr_libdw_unwind(target, thread, 10, &stack);
    size_t count = 0;
    while (dwexpr_libdw_frame_at(stack, count))
        count++;
    check(code == wanted && count == frames, machine->name, dwexpr_libdw_code_name(code));
    return stack;
}

static void check_value(dwexpr_libdw_frame *frame, const char *bytes, uint32_t wanted, uint64_t number)
{
    uint8_t content[8];
    dwexpr_libdw_text text = {.text = {content, bytes_of(bytes, content)}, .encoding = LE8};
    dwexpr_libdw_value *value;
    const uint32_t code = dwexpr_libdw_evaluate(frame, &text, NULL, NULL, &value);
    check(code == wanted && (code || value->pieces[0].number == number), bytes, dwexpr_libdw_code_name(code));
    dwexpr_libdw_release(value);
}

static void check_program(const char *folder)
{
    static const uint8_t xmm[16] = {0x11, 1, 0, 0, 0, 0, 0, 0, 8, 9, 10, 11, 12, 13, 14, 15};
    static const uint8_t first[8] = {0, 1}, memory[4] = {8, 9, 10, 11};
    uint8_t got[DWEXPR_LIBDW_REGISTER_SIZE];
    dwexpr_libdw_target *again;
    dwexpr_libdw_stack *stack;
    dwexpr_libdw_frame *frame;
    const pid_t *found;
    size_t size;
    const uint32_t code = open_program(folder, COUNT(threads), read_memory, find_tls);
    check(!code, machine->name, dwexpr_libdw_code_name(code));
    check(dwexpr_libdw_threads(target, &found) == COUNT(threads) && !memcmp(found, threads, sizeof threads),
          machine->name, "its threads");
    check(dwexpr_libdw_open_reader(dwfl, &reader, &again) == DWEXPR_LIBDW_NO_TARGET && !again, machine->name, "twice");
    check(strlen(dwexpr_libdw_target_error()) > 0, machine->name, "why not twice");
    stack = unwind(threads[0], 0, 1);
    frame = dwexpr_libdw_frame_at(stack, 0);
    check(!dwexpr_libdw_register(frame, 0, got, &size) && size == machine->word && !memcmp(got, first, size), "0",
          "it");
    check(!dwexpr_libdw_register(frame, 17, got, &size) && size == 16 && !memcmp(got, xmm, 16), "xmm0", "it");
    check(dwexpr_libdw_register(frame, 18, got, &size) == DWEXPR_LIBDW_NOT_READABLE, "18", "it isn't known");
    check(dwexpr_libdw_register(frame, 51, got, &size) == DWEXPR_LIBDW_NOT_READABLE, "51", "nothing is written");
    check(dwexpr_libdw_register(frame, 50, got, &size) == DWEXPR_LIBDW_BAD_REGISTER, "50", "it is too long");
    check(!dwexpr_libdw_memory(frame, 0x500008, got, 4) && !memcmp(got, memory, 4), "memory", "it is the callback's");
    check(dwexpr_libdw_memory(frame, 0x10, got, 1) == DWEXPR_LIBDW_NOT_READABLE, "memory", "it isn't there");
    check_value(frame, "9c", 0, 0x500008 + machine->word);
    check_value(frame, "0804 9b", 0, 0x700000 + 0x100 * 11 + 4);
    check_value(frame, "0805 9b", DWEXPR_LIBDW_WANTS + DWEXPR_WANTS_TLS, 0);
    dwexpr_libdw_free_stack(stack);
    dwexpr_libdw_free_stack(unwind(threads[1], 0, 2));
    has_code = 1; /* perhaps: nothing says that it can't be executed */
    dwexpr_libdw_free_stack(unwind(threads[1], DWEXPR_LIBDW_CUT_OFF, 1));
    has_code = 0;
    check(!unwind(threads[2], DWEXPR_LIBDW_NO_TARGET, 0), "a thread without registers", "no stack");
    check(!strcmp(dwexpr_libdw_target_error(), "the thread's registers can't be read"), "a thread without registers",
          dwexpr_libdw_target_error());
    check(!unwind(99, DWEXPR_LIBDW_NO_TARGET, 0), machine->name, "no such thread");
    end();
}

/* Without modules, without threads, and without some of the callbacks. */
static void check_missing(const char *folder)
{
    uint8_t bytes[DWEXPR_LIBDW_REGISTER_SIZE];
    dwexpr_libdw_stack *stack;
    dwexpr_libdw_frame *frame;
    size_t size;
    check(open_program(NULL, 1, read_memory, find_tls) == DWEXPR_LIBDW_NO_TARGET && !target, "no module", "no target");
    end();
    check(open_program(folder, 0, read_memory, find_tls) == DWEXPR_LIBDW_NO_TARGET, "no threads", "no target");
    check(!strcmp(dwexpr_libdw_target_error(), "it has no threads"), "no threads", dwexpr_libdw_target_error());
    end();
    check(!open_program(folder, 1, NULL, NULL), "few callbacks", "they are enough");
    stack = unwind(threads[0], 0, 1);
    frame = dwexpr_libdw_frame_at(stack, 0);
    check(!dwexpr_libdw_register(frame, 0, bytes, &size), "few callbacks", "a register");
    check(dwexpr_libdw_memory(frame, 0x500008, bytes, 1) == DWEXPR_LIBDW_NOT_READABLE, "few callbacks", "no memory");
    check_value(frame, "0804 9b", DWEXPR_LIBDW_WANTS + DWEXPR_WANTS_TLS, 0);
    dwexpr_libdw_free_stack(stack);
    end();
}

/* ---- a process */

enum { MOST = 64, REGISTERS = 60, RIP = 16 };

/* The innermost frames of the process's threads, as a target has them that reads it by itself. */
static struct process {
    dwexpr_libdw_target *target;
    const pid_t *threads;
    size_t length;
    dwexpr_libdw_stack *stacks[MOST];
    uint32_t codes[MOST];
} process;

static dwexpr_libdw_frame *innermost(pid_t thread)
{
    size_t i = 0;
    while (i < process.length && process.threads[i] != thread)
        i++;
    return i < process.length ? dwexpr_libdw_frame_at(process.stacks[i], 0) : NULL;
}

static int lend_register(void *context, pid_t thread, uint32_t number, uint8_t *bytes, size_t *size)
{
    uint8_t content[DWEXPR_LIBDW_REGISTER_SIZE];
    dwexpr_libdw_frame *frame = innermost(thread);
    (void)context;
    if (!frame || dwexpr_libdw_register(frame, number == DWEXPR_LIBDW_PC ? RIP : number, content, size))
        return 1;
    memcpy(bytes, content, *size);
    return 0;
}

static int lend_memory(void *context, uint64_t address, uint8_t *bytes, size_t size)
{
    (void)context;
    return dwexpr_libdw_memory(dwexpr_libdw_frame_at(process.stacks[0], 0), address, bytes, size) != 0;
}

/* Whether two frames stand at one place and have the same registers. */
static int are_same(dwexpr_libdw_frame *frame, dwexpr_libdw_frame *wanted)
{
    uint8_t bytes[2][DWEXPR_LIBDW_REGISTER_SIZE];
    dwexpr_libdw_place places[2];
    size_t sizes[2];
    uint32_t number;
    if (!frame || !wanted)
        return !frame && !wanted;
    dwexpr_libdw_locate(frame, &places[0]);
    dwexpr_libdw_locate(wanted, &places[1]);
    if (places[0].pc != places[1].pc || places[0].is_activation != places[1].is_activation)
        return 0;
    for (number = 0; number < REGISTERS; number++)
        if (dwexpr_libdw_register(frame, number, bytes[0], &sizes[0]) !=
                dwexpr_libdw_register(wanted, number, bytes[1], &sizes[1]) ||
            sizes[0] != sizes[1] || memcmp(bytes[0], bytes[1], sizes[0]))
            return 0;
    return 1;
}

static void check_process(pid_t number)
{
    size_t i, j, frames = 0;
    check(!dwexpr_libdw_open_process(number, NULL, &process.target), "the process", dwexpr_libdw_target_error());
    if (!process.target)
        return;
    process.length = dwexpr_libdw_threads(process.target, &process.threads);
    process.length = process.length < MOST ? process.length : MOST;
    for (i = 0; i < process.length; i++)
        process.codes[i] = dwexpr_libdw_unwind(process.target, process.threads[i], 100, &process.stacks[i]);
    begin();
    dwfl_linux_proc_report(dwfl, number);
    dwfl_report_end(dwfl, NULL, NULL);
    reader = (dwexpr_libdw_reader){process.threads, process.length, lend_register, lend_memory, NULL, NULL};
    check(!dwexpr_libdw_open_reader(dwfl, &reader, &target), "a reader", dwexpr_libdw_target_error());
    for (i = 0; i < process.length; i++) {
        dwexpr_libdw_stack *stack;
        const uint32_t code = dwexpr_libdw_unwind(target, process.threads[i], 100, &stack);
        check(code == process.codes[i], "a thread", dwexpr_libdw_code_name(code));
        for (j = 0; dwexpr_libdw_frame_at(stack, j) || dwexpr_libdw_frame_at(process.stacks[i], j); j++, frames++)
            check(are_same(dwexpr_libdw_frame_at(stack, j), dwexpr_libdw_frame_at(process.stacks[i], j)), "a frame",
                  "it is the same");
        dwexpr_libdw_free_stack(stack);
    }
    for (i = 0; i < process.length; i++)
        dwexpr_libdw_free_stack(process.stacks[i]);
    check(frames > 1, "frames", "there are some");
    end();
    dwexpr_libdw_close(process.target);
}

int main(int argc, char **argv)
{
    size_t i;
    if (argc != 2)
        return 2;
    if (atol(argv[1])) {
        check_process((pid_t)atol(argv[1]));
        return finish();
    }
    for (i = 0; i < COUNT(machines); i++) {
        machine = &machines[i];
        check_program(argv[1]);
        check_missing(argv[1]);
    }
    return finish();
}
