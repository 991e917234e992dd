/* What libdwfl asks of a target that callbacks read. */
#include "targets.h"

#if _ELFUTILS_PREREQ(0, 188) /* dwfl_frame_reg */

/* libdwfl begins with no state at the first thread. */
static pid_t next_thread(Dwfl *dwfl, void *given, void **state)
{
    dwexpr_libdw_target *target = (dwexpr_libdw_target *)given;
    (void)dwfl;
    if (!*state)
        target->next_thread = 0;
    *state = target;
    return target->next_thread < target->reader.threads_length ? target->reader.threads[target->next_thread++] : 0;
}

/* The content of a register, of which libdwfl takes no more than 64 bits. */
static uint32_t read_register(const dwexpr_libdw_target *target, pid_t thread, uint32_t number, Dwarf_Word *content)
{
    uint8_t bytes[DWEXPR_LIBDW_REGISTER_SIZE] = {0};
    size_t size = 0;
    if (target->reader.read_register(target->reader.context, thread, number, bytes, &size) || !size ||
        size > sizeof bytes)
        return DWEXPR_LIBDW_NOT_READABLE;
    *content = dwexpr_libdw_number_of(bytes, size, target->big_endian);
    return 0;
}

static bool set_registers(Dwfl_Thread *thread, void *given)
{
    const dwexpr_libdw_target *target = (const dwexpr_libdw_target *)given;
    const pid_t number = dwfl_thread_tid(thread);
    Dwarf_Word content;
    uint32_t i;
    if (read_register(target, number, DWEXPR_LIBDW_PC, &content))
        return false;
    dwfl_thread_state_register_pc(thread, content);
    for (i = 0; i < ASKED_REGISTERS; i++)
        if (!read_register(target, number, i, &content))
            dwfl_thread_state_registers(thread, (int)i, 1, &content);
    return true;
}

static bool read_word(Dwfl *dwfl, Dwarf_Addr address, Dwarf_Word *word, void *given)
{
    (void)dwfl;
    return !dwexpr_libdw_read_word((const dwexpr_libdw_target *)given, address, word);
}

const Dwfl_Thread_Callbacks dwexpr_libdw_of_reader = {.next_thread = next_thread, .memory_read = read_word,
                                                      .set_initial_registers = set_registers};

#endif
