/* The registers of a thread's frames, and what they tell of its thread-local storage. */
#include "targets.h"

#if _ELFUTILS_PREREQ(0, 188) /* dwfl_frame_reg */

/* ---- from the kernel's sets */

/* The x87 registers are left out. They have 80 bits, and a variable of 64 bits in one isn't its lowest 64. */
static const struct row {
    uint16_t machine, first, count, set, offset, size;
} rows[] = {
    {EM_X86_64, 17, 16, FLOATING, 160, 16}, /* xmm0 to xmm15 */
    {EM_X86_64, 58, 2, GENERAL, 168, 8},    /* fs.base and gs.base */
    {EM_386, 21, 8, FXSAVE, 160, 16},       /* xmm0 to xmm7 */
};

enum { RAX = 0, RBX = 3, XMM0 = 17, FS_BASE = 58 };

/* The upper half of a ymm register, which has the number of the xmm register that is its lower half. XSAVE has a mask
 * of what it may have at 464, of what isn't zero at 512, and the upper halves at 576. */
static void read_upper_half(const struct dwexpr_libdw_sets *sets, uint32_t number, uint8_t *bytes, size_t *size)
{
    const uint8_t *set = sets->bytes[XSAVE];
    const size_t at = 576 + 16 * (size_t)(number - XMM0);
    if (!set || at + 16 > sets->lengths[XSAVE] || !(set[464] & 4))
        return;
    if (set[512] & 4)
        memcpy(bytes + 16, set + at, 16);
    else
        memset(bytes + 16, 0, 16);
    *size = 32;
}

/* A register of the innermost frame. */
static uint32_t read_set(const dwexpr_libdw_stack *stack, uint32_t number, uint8_t *bytes, size_t *size)
{
    size_t i;
    for (i = 0; i < sizeof rows / sizeof *rows; i++) {
        const struct row *row = &rows[i];
        const size_t at = row->offset + (size_t)row->size * (number - row->first);
        if (stack->target->machine != row->machine || number < row->first || number - row->first >= row->count ||
            at + row->size > stack->sets.lengths[row->set])
            continue;
        *size = row->size;
        memcpy(bytes, stack->sets.bytes[row->set] + at, row->size);
        if (row->set == FLOATING)
            read_upper_half(&stack->sets, number, bytes, size);
        return 0;
    }
    return DWEXPR_LIBDW_NOT_READABLE;
}

/* ---- of callers */

/* Whether a call kept a register of its caller, though call frame information doesn't say so. GCC only names a register
 * that calls may change if it knows that this call doesn't. */
static int is_kept(dwexpr_libdw_frame *caller, unsigned machine, uint32_t number)
{
    Dwarf_Attribute attribute;
    const char *producer;
    if (machine == EM_X86_64 && (number == RBX || number == FS_BASE))
        return 1;
    if (dwexpr_libdw_find_place(caller))
        return 0;
    producer = dwarf_formstring(dwarf_attr(&caller->place.unit, DW_AT_producer, &attribute));
    return producer && !strncmp(producer, "GNU ", 4);
}

/* Whether libdwfl tells a register. Of x86-64 it mixes up two: in a caller's frame it takes rax, which a call may
 * change, for rbx, which a call keeps (elfutils 0.188). */
static int is_known(const struct dwexpr_libdw_stack_frame *frame, uint32_t number)
{
    const dwexpr_libdw_stack *stack = frame->stack;
    if (frame != dwexpr_libdw_frames_of(stack) && stack->target->machine == EM_X86_64 && number == RAX &&
        !frame->is_interrupted)
        return 0;
    return number < ASKED_REGISTERS && frame->is_told[number];
}

static int read_register(void *context, uint32_t number, uint8_t *bytes, size_t *size)
{
    struct dwexpr_libdw_stack_frame *first = (struct dwexpr_libdw_stack_frame *)context, *frame;
    const dwexpr_libdw_target *target = first->stack->target;
    const dwexpr_libdw_reader *reader = &target->reader;
    for (frame = first;; frame--) {
        if (frame->frame.place.has_left) /* it has none of its own, and kept those of others */
            continue;
        if (frame == dwexpr_libdw_frames_of(frame->stack) && reader->read_register)
            return reader->read_register(reader->context, frame->stack->thread, number, bytes, size);
        if (is_known(frame, number)) {
            *size = target->word;
            dwexpr_libdw_bytes_of(frame->registers[number], *size, target->big_endian, bytes);
            return 0;
        }
        if (frame == dwexpr_libdw_frames_of(frame->stack))
            return read_set(frame->stack, number, bytes, size) != 0;
        /* a signal's handler keeps nothing */
        if (frame->frame.source.is_activation || frame->is_guessed ||
            (frame == first && !is_kept(&frame->frame, target->machine, number)))
            return 1;
    }
}

static int read_memory(void *context, uint64_t address, uint8_t *bytes, size_t size)
{
    const struct dwexpr_libdw_stack_frame *frame = (const struct dwexpr_libdw_stack_frame *)context;
    return dwexpr_libdw_read_memory(frame->stack->target, address, bytes, size) != 0;
}

/* ---- thread-local storage */

/* The base of the segment that gs selects on i386. Register 10 of the general ones is gs; the kernel keeps a list of
 * segments for each thread, with their numbers and bases. */
static uint32_t find_segment(const dwexpr_libdw_stack *stack, uint64_t *base)
{
    const uint8_t *general = stack->sets.bytes[GENERAL], *entries = stack->sets.bytes[SEGMENTS];
    size_t i;
    if (stack->sets.lengths[GENERAL] < 44) /* GCOVR_EXCL_BR_LINE: a thread has them */
        return DWEXPR_LIBDW_NOT_READABLE; /* GCOVR_EXCL_LINE: likewise */
    for (i = 0; i + 16 <= stack->sets.lengths[SEGMENTS]; i += 16)
        if (dwexpr_libdw_number_of(entries + i, 4, 0) == dwexpr_libdw_number_of(general + 40, 4, 0) >> 3) {
            *base = dwexpr_libdw_number_of(entries + i + 4, 4, 0);
            return 0;
        }
    return DWEXPR_LIBDW_NOT_READABLE;
}

static uint32_t find_thread_pointer(const dwexpr_libdw_stack *stack, uint64_t *pointer)
{
    uint8_t bytes[DWEXPR_LIBDW_REGISTER_SIZE];
    size_t size = 0;
    uint32_t code;
    if (stack->target->machine == EM_386)
        return find_segment(stack, pointer);
    code = read_set(stack, FS_BASE, bytes, &size);
    *pointer = dwexpr_libdw_number_of(bytes, size, 0);
    return code;
}

/* An address in the program itself: that of its headers, by the auxiliary vector. 0 if it isn't known. */
static Dwarf_Addr find_program(const dwexpr_libdw_stack *stack)
{
    const struct dwexpr_libdw_sets *sets = &stack->sets;
    const size_t word = stack->target->word;
    size_t at;
    for (at = 0; at + 2 * word <= sets->lengths[VECTOR]; at += 2 * word)
        if (dwexpr_libdw_number_of(sets->bytes[VECTOR] + at, word, 0) == AT_PHDR)
            return dwexpr_libdw_number_of(sets->bytes[VECTOR] + at + word, word, 0);
    return 0;
}

static int find_tls(void *context, Dwfl_Module *module, uint64_t offset, uint64_t *address)
{
    const struct dwexpr_libdw_stack_frame *frame = (const struct dwexpr_libdw_stack_frame *)context;
    const dwexpr_libdw_reader *reader = &frame->stack->target->reader;
    uint64_t pointer;
    if (reader->read_register)
        return !reader->find_tls ||
               reader->find_tls(reader->context, frame->stack->thread, module, offset, address);
    return find_thread_pointer(frame->stack, &pointer) ||
           dwexpr_libdw_find_block(&frame->frame, find_program(frame->stack), module, pointer, offset, address);
}

const dwexpr_libdw_source dwexpr_libdw_of_stack = {.read_register = read_register, .read_memory = read_memory,
                                              .find_tls = find_tls};

#endif
