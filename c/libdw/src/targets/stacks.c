/* The frames of a thread. */
#include "targets.h"

#if _ELFUTILS_PREREQ(0, 188) /* dwfl_frame_reg */

struct dwexpr_libdw_stack_frame *dwexpr_libdw_frames_of(const dwexpr_libdw_stack *stack)
{
    return (struct dwexpr_libdw_stack_frame *)stack->frames.items;
}

/* ---- the walk through the frames */

/* Adds a frame that stands at an address. */
static int add_frame(dwexpr_libdw_stack *stack, struct dwexpr_libdw_stack_frame *frame, Dwarf_Addr pc,
                     int is_activation)
{
    dwexpr_libdw_source source = dwexpr_libdw_of_stack;
    source.dwfl = stack->target->dwfl;
    source.names = stack->target->names;
    source.pc = pc;
    source.is_activation = is_activation;
    frame->stack = stack;
    dwexpr_libdw_begin_frame(&frame->frame, &source);
    stack->code = dwexpr_libdw_add(&stack->frames, frame, sizeof *frame);
    return stack->code != 0;
}

static struct dwexpr_libdw_stack_frame *last_of(const dwexpr_libdw_stack *stack)
{
    return dwexpr_libdw_frames_of(stack) + stack->frames.length - 1;
}

/* Why frames may be missing. */
static void cut_off(dwexpr_libdw_stack *stack, const char *why)
{
    dwexpr_libdw_error = why;
    stack->is_cut_off = 1;
}

static int has_rules(const struct dwexpr_libdw_stack_frame *frame)
{
    Dwarf_Frame *rules = NULL;
    Elf *elf;
    const uint32_t code = dwexpr_libdw_find_state(&frame->frame, &rules, &elf);
    free(rules);
    return !code;
}

/* Whether a frame stands where no code can be, on x86: it, or what the signal interrupted, called a bad pointer. */
static int is_bad_call(const struct dwexpr_libdw_stack_frame *frame)
{
    const dwexpr_libdw_target *target = frame->stack->target;
    return frame->frame.source.is_activation && (target->machine == EM_X86_64 || target->machine == EM_386) &&
           !has_rules(frame) && !dwexpr_libdw_may_be_code(target, frame->frame.source.pc);
}

static int on_frame(Dwfl_Frame *state, void *given)
{
    dwexpr_libdw_stack *stack = (dwexpr_libdw_stack *)given;
    struct dwexpr_libdw_stack_frame frame = {.stack = stack};
    Dwarf_Frame *rules = NULL;
    Dwarf_Addr pc;
    Elf *elf;
    bool is_activation = false;
    unsigned i;
    if (stack->frames.length && is_bad_call(last_of(stack)))
        return DWARF_CB_ABORT;
    if (stack->frames.length == stack->most) {
        stack->code = DWEXPR_LIBDW_TOO_MANY_FRAMES;
        return DWARF_CB_ABORT;
    }
    dwfl_frame_pc(state, &pc, &is_activation);
    if (stack->frames.length) {
        frame.is_guessed = dwexpr_libdw_find_state(&last_of(stack)->frame, &rules, &elf) != 0;
        dwarf_frame_info(rules, NULL, NULL, &frame.is_interrupted);
        free(rules);
    } else {
        dwexpr_libdw_read_sets(stack->target, stack->thread, &stack->sets);
    }
    if (frame.is_guessed)
        cut_off(stack, "a frame has no call frame information");
    for (i = 0; i < ASKED_REGISTERS; i++)
        frame.is_told[i] = !dwfl_frame_reg(state, i, &frame.registers[i]);
    return add_frame(stack, &frame, pc, is_activation) ? DWARF_CB_ABORT : DWARF_CB_OK;
}

/* ---- frames that libdwfl doesn't find */

/* Gives the frames from one on their callers, or all if they have moved. */
static void link_frames(dwexpr_libdw_stack *stack, size_t from)
{
    struct dwexpr_libdw_stack_frame *frames = dwexpr_libdw_frames_of(stack);
    size_t i = stack->frames.length && frames[0].frame.source.context == frames ? from : 0;
    for (; i < stack->frames.length; i++) {
        frames[i].frame.source.context = &frames[i];
        frames[i].frame.source.caller = dwexpr_libdw_frame_at(stack, i + 1);
    }
}

/* Whether a call of an address that a register or memory has, or of a stub, ends at an address. */
static int follows_call(const struct dwexpr_libdw_stack_frame *frame, uint64_t address)
{
    uint8_t bytes[7];
    int size;
    if (dwexpr_libdw_read_memory(frame->stack->target, address - sizeof bytes, bytes, sizeof bytes))
        return 0;
    for (size = 2; size <= 7; size++)
        if (bytes[7 - size] == 0xff && (bytes[8 - size] & 0x38) == 0x10)
            return 1;
    return bytes[2] == 0xe8;
}

/* Adds the frame that called a bad pointer: the return address is on top of the stack. After a return to a bad pointer
 * that is still below the top. */
static void add_caller_of_bad(dwexpr_libdw_stack *stack)
{
    struct dwexpr_libdw_stack_frame *last = last_of(stack), frame = *last;
    const dwexpr_libdw_target *target = stack->target;
    const unsigned number = target->machine == EM_386 ? 4 : 7;
    const size_t word = target->word;
    const uint64_t pc = last->frame.source.pc;
    uint64_t top = last->registers[number], returns = 0, below = 0;
    if (dwexpr_libdw_read_word(target, top, &returns) || !follows_call(last, returns) ||
        (pc && (dwexpr_libdw_read_word(target, top - word, &below) || below == pc))) {
        cut_off(stack, "a frame stands at no code, and none has called it");
        return;
    }
    frame.registers[number] = top + word;
    frame.is_interrupted = 0;
    add_frame(stack, &frame, returns, 0);
}

/* The content of a caller's register, by its rule. Gives back whether it is known. */
static int has_caller_register(struct dwexpr_libdw_stack_frame *frame, Dwarf_Frame *rules, Elf *elf, unsigned number,
                               uint64_t *content)
{
    const dwexpr_libdw_target *target = frame->stack->target;
    uint8_t bytes[DWEXPR_LIBDW_REGISTER_SIZE];
    dwexpr_libdw_text rule;
    dwexpr_libdw_value *value = NULL;
    uint32_t code = dwexpr_libdw_rule(rules, elf, (int)number, &rule);
    if (code == DWEXPR_LIBDW_SAME_VALUE) {
        *content = frame->registers[number];
        return frame->is_told[number];
    }
    if (!code)
        code = dwexpr_libdw_evaluate(&frame->frame, &rule, NULL, NULL, &value);
    if (!code && rule.is_value)
        *content = value->outcome.value;
    else if (!code && !(code = dwexpr_libdw_read(&frame->frame, value, 8 * target->word, bytes, NULL)))
        *content = dwexpr_libdw_number_of(bytes, target->word, target->big_endian);
    dwexpr_libdw_release(value);
    dwexpr_libdw_free_text(&rule);
    return !code;
}

/* Whether the code to which a frame's function returns ends the thread with its result, as that of glibc does, or is
 * the first of its file. */
static int begins_thread(const struct dwexpr_libdw_stack_frame *frame)
{
    static const uint8_t exits[] = {0x48, 0x89, 0xc7, 0xb8, 60, 0, 0, 0, 0x0f, 0x05}; /* exit(rax) */
    static const uint8_t exits_32[] = {0x89, 0xc3, 0xb8, 1, 0, 0, 0}; /* exit(eax) */
    const dwexpr_libdw_target *target = frame->stack->target;
    const Dwarf_Addr pc = frame->frame.source.pc;
    const int is_wide = target->machine == EM_X86_64;
    uint8_t bytes[sizeof exits];
    GElf_Ehdr header = {.e_entry = 0};
    GElf_Sym symbol;
    GElf_Off offset = pc - 1;
    Dwarf_Addr bias = 0;
    Dwfl_Module *module = dwfl_addrmodule(target->dwfl, pc - 1);
    if (!dwexpr_libdw_read_memory(target, pc, bytes, sizeof bytes) &&
        !memcmp(bytes, is_wide ? exits : exits_32, is_wide ? sizeof exits : sizeof exits_32))
        return 1;
    gelf_getehdr(dwfl_module_getelf(module, &bias), &header);
    dwfl_module_addrinfo(module, pc - 1, &offset, &symbol, NULL, NULL, NULL);
    return header.e_entry && pc - 1 - offset == header.e_entry + bias;
}

/* Adds the caller of the last frame by its rules, unless they say that there is none. */
static void add_caller(dwexpr_libdw_stack *stack)
{
    struct dwexpr_libdw_stack_frame *last = last_of(stack), frame = {.stack = stack};
    Dwarf_Frame *rules;
    Dwarf_Op kept[3], *operations = NULL;
    Elf *elf;
    size_t count = 0;
    unsigned i, returns;
    if (dwexpr_libdw_find_state(&last->frame, &rules, &elf)) {
        if (!begins_thread(last))
            cut_off(stack, "a frame has no call frame information");
        return;
    }
    returns = (unsigned)dwarf_frame_info(rules, NULL, NULL, &frame.is_interrupted);
    dwarf_frame_register(rules, (int)returns, kept, &operations, &count);
    if (count || operations != kept) {
        for (i = 0; i < ASKED_REGISTERS; i++)
            frame.is_told[i] = (uint8_t)has_caller_register(last, rules, elf, i, &frame.registers[i]);
        if (returns >= ASKED_REGISTERS || !frame.is_told[returns] ||
            (!frame.registers[returns] && !frame.is_interrupted))
            cut_off(stack, "a frame has no return address");
        else
            add_frame(stack, &frame, frame.registers[returns], frame.is_interrupted);
    }
    free(rules);
}

uint32_t dwexpr_libdw_unwind(dwexpr_libdw_target *target, pid_t thread, size_t most, dwexpr_libdw_stack **stack)
{
    dwexpr_libdw_stack *found = (dwexpr_libdw_stack *)calloc(1, sizeof *found);
    const char *why;
    uint32_t code;
    size_t length = 0;
    *stack = NULL;
    if (!found)
        return DWEXPR_LIBDW_NO_MEMORY;
    found->target = target;
    found->thread = thread;
    found->most = most;
    if (dwfl_getthread_frames(target->dwfl, thread, on_frame, found) < 0 &&
        !(found->frames.length && (is_bad_call(last_of(found)) || begins_thread(last_of(found))))) {
        why = dwfl_errmsg(0); /* NULL if a reader's callback failed */
        cut_off(found, why ? why : "the thread's registers can't be read");
    }
    link_frames(found, 0);
    /* libdwfl ends at the address 0, whatever follows */
    while (!found->code && !found->is_cut_off && length < found->frames.length) {
        length = found->frames.length;
        if (is_bad_call(last_of(found)))
            add_caller_of_bad(found);
        else
            add_caller(found);
        if (found->frames.length > most) {
            found->frames.length = most;
            found->code = DWEXPR_LIBDW_TOO_MANY_FRAMES;
        }
        link_frames(found, length - 1);
    }
    code = found->code;
    if (!code && !found->frames.length)
        code = DWEXPR_LIBDW_NO_TARGET;
    else if (!code && found->is_cut_off)
        code = DWEXPR_LIBDW_CUT_OFF;
    if (code == DWEXPR_LIBDW_NO_MEMORY || code == DWEXPR_LIBDW_NO_TARGET)
        dwexpr_libdw_free_stack(found);
    else
        *stack = found;
    return code;
}

/* Adds a frame to a list, and then those of functions that left after its caller's call. */
static uint32_t add_with_left(struct dwexpr_libdw_list *all, struct dwexpr_libdw_stack_frame *frame)
{
    struct dwexpr_libdw_list left = {.items = NULL};
    const uint32_t unknown = dwexpr_libdw_find_left(&frame->frame, &left);
    struct dwexpr_libdw_stack_frame added = {.stack = frame->stack};
    size_t i = unknown ? 0 : left.length;
    uint32_t code = unknown == DWEXPR_LIBDW_NO_MEMORY ? unknown : dwexpr_libdw_add(all, frame, sizeof *frame);
    while (i-- > 0 && !code) { /* GCOVR_EXCL_BR_LINE: no memory */
        added.frame = ((dwexpr_libdw_frame *)left.items)[i];
        code = dwexpr_libdw_add(all, &added, sizeof added);
    }
    free(left.items);
    return code;
}

uint32_t dwexpr_libdw_add_tail_calls(dwexpr_libdw_stack *stack)
{
    struct dwexpr_libdw_list all = {.items = NULL};
    uint32_t code = 0;
    size_t i;
    for (i = 0; i < stack->frames.length && !code; i++)
        code = add_with_left(&all, dwexpr_libdw_frames_of(stack) + i);
    if (code) {
        free(all.items);
        return code;
    }
    free(stack->frames.items);
    stack->frames = all;
    link_frames(stack, 0);
    return 0;
}

void dwexpr_libdw_free_stack(dwexpr_libdw_stack *stack)
{
    if (!stack)
        return;
    free(stack->frames.items);
    free(stack);
}

dwexpr_libdw_frame *dwexpr_libdw_frame_at(dwexpr_libdw_stack *stack, size_t index)
{
    return stack && index < stack->frames.length ? &dwexpr_libdw_frames_of(stack)[index].frame : NULL;
}

#endif
