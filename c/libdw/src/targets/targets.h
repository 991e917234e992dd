/* What the sources share that make frames of processes, of core dumps, and of what callbacks read. */
#ifndef DWEXPR_LIBDW_TARGETS_H
#define DWEXPR_LIBDW_TARGETS_H

#include "../values/values.h"

#pragma GCC visibility push(hidden)

/* The kernel's sets of registers: general, floating point, FXSAVE's on i386, XSAVE's, and segments on i386; and the
 * auxiliary vector, which is that of all threads. */
enum set { GENERAL, FLOATING, FXSAVE, XSAVE, SEGMENTS, VECTOR, SETS };

struct dwexpr_libdw_target {
    Dwfl *dwfl;
    Dwfl *owned;  /* `dwfl` if it was opened here */
    Dwfl_Callbacks finders; /* of `owned` */
    char *debug_path;       /* where these look, or NULL */
    dwexpr_libdw_reader reader; /* without callbacks for a process or a core dump */
    size_t next_thread;         /* of the reader's, for libdwfl */
    Elf *core;    /* NULL if it is none */
    Elf *opened;  /* `core` if it was opened here */
    int file;     /* the memory of a process, or the core dump if it was opened here; -1 if there is none */
    struct dwexpr_libdw_list threads; /* of pid_t */
    int big_endian;
    size_t word;  /* the bytes of an address */
    unsigned machine;
    dwexpr_libdw_names *names; /* for its frames */
};

/* What dwexpr_libdw_target_error says. */
extern _Thread_local const char *dwexpr_libdw_error;

/* The sets of a thread, as bytes. */
struct dwexpr_libdw_sets {
    const uint8_t *bytes[SETS];
    size_t lengths[SETS];
    uint8_t traced[65536]; /* those of a process */
};

/* ---- targets.c */

/* The path of a file that /proc has of the process. */
struct dwexpr_libdw_path {
    char text[64];
};

struct dwexpr_libdw_path dwexpr_libdw_path_of(const dwexpr_libdw_target *target, const char *name);
/* Reads the start of such a file. Returns how many bytes there are. */
size_t dwexpr_libdw_read_proc(const dwexpr_libdw_target *target, const char *name, void *bytes, size_t size);

/* ---- memory.c */

uint32_t dwexpr_libdw_read_memory(const dwexpr_libdw_target *target, uint64_t address, uint8_t *bytes, size_t size);
/* Reads as many bytes as an address has. */
uint32_t dwexpr_libdw_read_word(const dwexpr_libdw_target *target, uint64_t address, uint64_t *word);
/* Whether there may be code at an address: not if no memory is there, or if it is known that it can't be executed. */
int dwexpr_libdw_may_be_code(const dwexpr_libdw_target *target, uint64_t address);

/* ---- sets.c */

/* Reads the sets of a thread that libdwfl keeps stopped, or that a core dump has. */
void dwexpr_libdw_read_sets(const dwexpr_libdw_target *target, pid_t thread, struct dwexpr_libdw_sets *sets);

/* ---- readers.c */

extern const Dwfl_Thread_Callbacks dwexpr_libdw_of_reader;

/* ---- registers.c */

/* How many registers of a frame libdwfl is asked for, from number 0. */
#define ASKED_REGISTERS 128

struct dwexpr_libdw_stack_frame {
    dwexpr_libdw_frame frame;
    dwexpr_libdw_stack *stack;
    Dwarf_Word registers[ASKED_REGISTERS]; /* as libdwfl tells them */
    uint8_t is_told[ASKED_REGISTERS]; /* or are found here */
    int is_guessed; /* the one that it called has no call frame information: libdwfl takes its frame pointer */
    bool is_interrupted; /* by a signal: the one that it called is the kernel's, whose call frame information says so */
};

struct dwexpr_libdw_stack {
    dwexpr_libdw_target *target;
    pid_t thread;
    size_t most;
    struct dwexpr_libdw_list frames; /* of dwexpr_libdw_stack_frame */
    struct dwexpr_libdw_sets sets; /* of the innermost frame */
    int is_cut_off;
    uint32_t code;
};

struct dwexpr_libdw_stack_frame *dwexpr_libdw_frames_of(const dwexpr_libdw_stack *stack);
/* What reads a stack's frame, whose context is itself. */
extern const dwexpr_libdw_source dwexpr_libdw_of_stack;

#pragma GCC visibility pop

#endif
