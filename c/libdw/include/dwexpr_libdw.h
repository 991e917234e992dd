/* Finds values of variables by libdw: plain C over dwexpr.h and libdw 0.186 or later, not proved. Link with
 * libdwexpr_libdw.a, libdwexpr.a, libdw and libelf: `pkg-config --cflags --libs dwexpr-libdw`, or the CMake target
 * dwexpr::libdw. Targets need libdw 0.188.
 *
 * An expression is evaluated in a frame. For a process, a core dump, or what your callbacks read, open a target and
 * unwind one of its threads to a stack of frames. With an unwinder of your own, make frames by dwexpr_libdw_make_frame.
 *
 * A call that returns a uint32_t returns 0 or a code: of dwexpr.h, one below, or DWEXPR_LIBDW_WANTS plus the request
 * that can't be answered. With a code, a result that is a pointer is set to NULL, unless the call says otherwise. Each
 * result needs what it was made from: free values first, then frames, stacks, and at last the target.
 *
 * libdw isn't thread-safe: only one thread at a time may make calls on a target, or on the debug information that it
 * reads. Only dwexpr_libdw_read may be called by several threads at once, on values in memory of a process.
 *
 * Whatever is in the debug information, the process or the core dump, each call returns and stays within bounds, as far
 * as libdw does. It needs little stack, and takes other memory by malloc. */
#ifndef DWEXPR_LIBDW_H
#define DWEXPR_LIBDW_H

#include <elfutils/libdw.h>
#include <elfutils/libdwfl.h>
#include <sys/types.h>

#include "dwexpr.h"

#ifdef __cplusplus
extern "C" {
#endif

/* ---------------------------------------------------------------- codes */

enum dwexpr_libdw_code {
    DWEXPR_LIBDW_FAILED = 128,           /* libdw refuses the debug information: dwarf_errmsg(-1) says why */
    DWEXPR_LIBDW_NO_TARGET = 129,        /* the process or the core dump can't be read, or has no such thread */
    DWEXPR_LIBDW_NO_MEMORY = 130,        /* malloc failed */
    DWEXPR_LIBDW_NO_UNIT = 131,          /* there is no debug information for the frame's address */
    DWEXPR_LIBDW_NOT_ENCODABLE = 132,    /* an operation of libdw's has no bytes, or more than one form */
    DWEXPR_LIBDW_OPTIMIZED_AWAY = 133,   /* there is no expression at the address, or bits have no piece */
    DWEXPR_LIBDW_SAME_VALUE = 134,       /* the register has the caller's value */
    DWEXPR_LIBDW_IMPLICIT_POINTER = 135, /* a piece is a pointer to an object that has no address */
    DWEXPR_LIBDW_NOT_READABLE = 136,     /* memory or a register of a piece can't be read */
    DWEXPR_LIBDW_TOO_SMALL = 137,        /* a register, a value or a block has fewer bits than its piece */
    DWEXPR_LIBDW_TOO_MANY_EXPRESSIONS = 138, /* see dwexpr_libdw_set_limit */
    DWEXPR_LIBDW_TOO_MANY_FRAMES = 139,  /* a thread has more frames than were asked for */
    DWEXPR_LIBDW_BAD_REGISTER = 140,     /* a callback gave a register of too many bytes */
    DWEXPR_LIBDW_NO_NUMBER = 141,        /* an attribute is no number, or an expression gives none */
    DWEXPR_LIBDW_OTHER_FUNCTION = 142,   /* this frame doesn't lead to the frame of the variable's function */
    DWEXPR_LIBDW_NOT_DEFINED = 143,      /* the variable is only declared, and no module has it */
    DWEXPR_LIBDW_CUT_OFF = 144,          /* the stack has no known end: frames after the last one may be missing */
    DWEXPR_LIBDW_AMBIGUOUS = 145,        /* there are several definitions, and nothing says which one is meant */
    DWEXPR_LIBDW_NO_PART = 146,          /* an object has no such member, element or variant, or is no pointer */
    DWEXPR_LIBDW_WANTS = 192             /* plus a request: + DWEXPR_WANTS_MEMORY if memory can't be read */
};

/* What a code says, in a few words. Any thread may ask. */
const char *dwexpr_libdw_code_name(uint32_t code);

/* ---------------------------------------------------------------- expressions */

/* An expression with all that its evaluation needs. */
typedef struct dwexpr_libdw_text {
    dwexpr_text text;
    dwexpr_encoding encoding;
    Dwarf_CU *unit; /* the unit of the entries that it names; NULL in call frame information */
    int on_cfa;     /* 1: it begins with the CFA on its stack (DW_CFA_expression, DW_CFA_val_expression) */
    int is_value;   /* 1: the register has this value (DW_CFA_val_expression); 0: it is at this address */
    void *memory;   /* of bytes that libdw doesn't have, or NULL */
} dwexpr_libdw_text;

/* Frees the bytes of an expression, whatever the call that wrote it returned. */
void dwexpr_libdw_free_text(dwexpr_libdw_text *expression);

/* How to read a unit's expressions. Returns 0 or DWEXPR_LIBDW_FAILED. */
uint32_t dwexpr_libdw_encoding(Dwarf_CU *unit, dwexpr_encoding *encoding);

/* Encodes libdw's operations as an expression. An operation's size is the distance from its offset to the next one's.
 * libdw doesn't tell the size of the last one: it gets as few bytes as it needs or, if `size` isn't 0, as many as are
 * left of the expression's `size` bytes. libdw reads the offset of an implicit pointer without its sign: 127 stands for
 * -1 if it has one byte, and for 127 if it has two.
 *
 * Returns 0 or DWEXPR_LIBDW_NOT_ENCODABLE: an opcode is unknown, a number doesn't fit its operand, or an operation of
 * two LEB128 numbers isn't in its shortest form. `length` is 0 then. No more than `room` bytes are written. libdw cuts
 * LEB128 numbers off at 64 bits: further bits are lost. */
uint32_t dwexpr_libdw_encode(const Dwarf_Op *operations, size_t count, size_t size, dwexpr_encoding encoding,
                             uint8_t *bytes, size_t room, size_t *length);

/* The expression of an attribute, at an address in the debug information if it is a list of locations. The bytes are
 * those of the file.
 *
 * Returns 0; DWEXPR_LIBDW_OPTIMIZED_AWAY if there is no expression at the address, or an empty one;
 * DWEXPR_LIBDW_FAILED; DWEXPR_LIBDW_NOT_ENCODABLE; or DWEXPR_LIBDW_NO_MEMORY. `expression` is written in each case:
 * free it by dwexpr_libdw_free_text. */
uint32_t dwexpr_libdw_expression(Dwarf_Attribute *attribute, Dwarf_Addr address, dwexpr_libdw_text *expression);

/* The expression of a rule in a state of the call frame information of `elf`: of the CFA, the canonical frame address,
 * if the register is DWEXPR_LIBDW_CFA, else of this register of the caller. DW_CFA_expression and
 * DW_CFA_val_expression have their bytes. Each other rule is an expression with the same meaning: offset(N) is
 * DW_OP_plus_uconst N on the CFA, register(N) is DW_OP_regx N, and a CFA of a register and an offset is DW_OP_bregx.
 *
 * Returns 0; DWEXPR_LIBDW_SAME_VALUE; DWEXPR_LIBDW_OPTIMIZED_AWAY if the value is lost; DWEXPR_LIBDW_FAILED;
 * DWEXPR_LIBDW_NOT_ENCODABLE; or DWEXPR_LIBDW_NO_MEMORY. Free it by dwexpr_libdw_free_text in each case. */
uint32_t dwexpr_libdw_rule(Dwarf_Frame *state, Elf *elf, int register_number, dwexpr_libdw_text *expression);

#define DWEXPR_LIBDW_CFA (-1)

/* ---------------------------------------------------------------- targets, threads and frames */

typedef struct dwexpr_libdw_target dwexpr_libdw_target; /* a stopped process, a core dump, or what callbacks read */
typedef struct dwexpr_libdw_stack dwexpr_libdw_stack;   /* the frames of a thread, innermost first */
typedef struct dwexpr_libdw_frame dwexpr_libdw_frame;

/* Opens a process that is stopped, and stays so as long as the target is open. It uses ptrace, which only one debugger
 * can. `debug_path` names the folders with debug information that isn't in the programs and libraries, separated by
 * colons, as dwfl_standard_find_debuginfo reads them; NULL stands for ":.debug:/usr/lib/debug". Returns 0,
 * DWEXPR_LIBDW_NO_TARGET or DWEXPR_LIBDW_NO_MEMORY. */
uint32_t dwexpr_libdw_open_process(pid_t process, const char *debug_path, dwexpr_libdw_target **target);

/* Opens a core dump. `program` is the program's file; if it is NULL, the dump says which it was. The path is as above.
 * Returns as above. */
uint32_t dwexpr_libdw_open_core(const char *file, const char *program, const char *debug_path,
                                dwexpr_libdw_target **target);

/* Makes a target of a Dwfl of the caller's, which has its modules, and was attached to a process or to the core dump
 * `core`, which is NULL for a process. Both have to outlive the target. Returns as above. */
uint32_t dwexpr_libdw_attach(Dwfl *dwfl, Elf *core, dwexpr_libdw_target **target);

/* The number of no register: a reader's callback gives the address at which a thread stands. */
#define DWEXPR_LIBDW_PC UINT32_MAX

/* What reads a target that is neither a process of this machine nor a core dump: of a debugger's stub, a profiler's
 * record, or another form of dump. Callbacks answer as those of dwexpr_libdw_source do, for the thread of a number. */
typedef struct dwexpr_libdw_reader {
    const pid_t *threads; /* their numbers, which are positive */
    size_t threads_length;
    /* also for DWEXPR_LIBDW_PC; it must be there */
    int (*read_register)(void *context, pid_t thread, uint32_t number, uint8_t *bytes, size_t *size);
    int (*read_memory)(void *context, uint64_t address, uint8_t *bytes, size_t size);
    int (*find_tls)(void *context, pid_t thread, Dwfl_Module *module, uint64_t offset, uint64_t *address);
    void *context;
} dwexpr_libdw_reader;

/* Makes a target of a Dwfl of the caller's, whose modules are what is loaded: dwfl_report_elf takes a file and its
 * address. The Dwfl mustn't be attached to anything. It has to outlive the target, and so has what the reader points
 * to. After the target is closed, or after a code, it can only be ended. Returns as above. */
uint32_t dwexpr_libdw_open_reader(Dwfl *dwfl, const dwexpr_libdw_reader *reader, dwexpr_libdw_target **target);

/* The system's or libdw's message on why the last of these calls gave no target, or dwexpr_libdw_unwind cut frames off.
 * It stays valid until the thread's next such call. */
const char *dwexpr_libdw_target_error(void);

/* The Dwfl with a target's debug information. It belongs to the target. */
Dwfl *dwexpr_libdw_dwfl(const dwexpr_libdw_target *target);

/* Frees a target, and with it the Dwfl that was opened here. NULL is allowed. */
void dwexpr_libdw_close(dwexpr_libdw_target *target);

/* The threads of a target, and how many there are. The first one is the thread that crashed in a core dump, and the
 * first thread of a process. They belong to the target. */
size_t dwexpr_libdw_threads(const dwexpr_libdw_target *target, const pid_t **threads);

/* Finds the frames of a thread, at most `most` of them. On x86, a frame at an address where no code can be was called
 * by a bad pointer, and its return address is on top of the stack.
 *
 * Returns 0 if the last frame's return address is undefined by its call frame information, or the thread's first
 * function is reached; DWEXPR_LIBDW_TOO_MANY_FRAMES if there are more, and gives the innermost ones;
 * DWEXPR_LIBDW_CUT_OFF if frames may be missing, as one has no call frame information or no return address, and gives
 * those that it found; DWEXPR_LIBDW_NO_TARGET; or DWEXPR_LIBDW_NO_MEMORY. Free the stack by dwexpr_libdw_free_stack. */
uint32_t dwexpr_libdw_unwind(dwexpr_libdw_target *target, pid_t thread, size_t most, dwexpr_libdw_stack **stack);
void dwexpr_libdw_free_stack(dwexpr_libdw_stack *stack);

/* Adds the frames of functions that left by tail calls: what they called returns to their callers. They are known if,
 * by the call sites, each has one tail call only, and the last function can't have called itself by tail calls. Such a
 * frame stands at its tail call. It has no registers and no CFA, so its values are known only if they need neither.
 *
 * The debug information of each frame is read. Frames that were taken from the stack before aren't valid any more.
 * Returns 0; or DWEXPR_LIBDW_NO_MEMORY, and the stack is as it was. */
uint32_t dwexpr_libdw_add_tail_calls(dwexpr_libdw_stack *stack);

/* A frame of a stack, 0 for the innermost; NULL if there is none. It belongs to the stack. */
dwexpr_libdw_frame *dwexpr_libdw_frame_at(dwexpr_libdw_stack *stack, size_t index);

/* A table of the variables outside of functions, by their names. Those of a module are read when it is searched first.
 * The frames of a target share one. Frames of the caller's own may, if the modules of their Dwfl stay. */
typedef struct dwexpr_libdw_names dwexpr_libdw_names;

/* Makes a table. Returns 0 or DWEXPR_LIBDW_NO_MEMORY. Free it after the frames. */
uint32_t dwexpr_libdw_make_names(dwexpr_libdw_names **names);
void dwexpr_libdw_free_names(dwexpr_libdw_names *names);

/* The most bytes of a register. */
#define DWEXPR_LIBDW_REGISTER_SIZE 64

/* What the caller's own frame is made from. Set what isn't known to 0. A callback returns 0, or another number if the
 * answer isn't known. If it returns 0 and writes nothing, memory and addresses are 0, and a register isn't known. */
typedef struct dwexpr_libdw_source {
    Dwfl *dwfl;        /* NULL: addresses are those of the debug information */
    Dwarf_Addr pc;     /* where it stands, as dwfl_frame_pc tells it */
    int is_activation; /* 1 if the instruction at pc is the next one, 0 if the one before it is a call */
    dwexpr_libdw_frame *caller;
    Dwarf_Die *unit;   /* the unit of the address, if it isn't to be looked for in `dwfl` .. */
    Dwarf_Addr bias;   /* .. and what is added to its addresses */
    const uint64_t *frame_base, *cfa; /* if they are known; else they are evaluated */
    /* the bytes of a register, and how many there are, from 1 to DWEXPR_LIBDW_REGISTER_SIZE */
    int (*read_register)(void *context, uint32_t number, uint8_t *bytes, size_t *size);
    int (*read_memory)(void *context, uint64_t address, uint8_t *bytes, size_t size);
    /* the address of an offset in a module's thread-local storage */
    int (*find_tls)(void *context, Dwfl_Module *module, uint64_t offset, uint64_t *address);
    void *context;
    dwexpr_libdw_names *names; /* NULL: each search for a variable by its name reads all entries */
} dwexpr_libdw_source;

/* Makes a frame. Returns 0 or DWEXPR_LIBDW_NO_MEMORY. Free it by dwexpr_libdw_free_frame. */
uint32_t dwexpr_libdw_make_frame(const dwexpr_libdw_source *source, dwexpr_libdw_frame **frame);
void dwexpr_libdw_free_frame(dwexpr_libdw_frame *frame);

/* Sets how many expressions may be evaluated to answer the requests of one; it is 1,000 at first. Each value on entry
 * takes one or two, and 9 KiB while it waits for the next one. */
void dwexpr_libdw_set_limit(dwexpr_libdw_frame *frame, uint32_t expressions);

/* Where a frame stands. */
typedef struct dwexpr_libdw_place {
    Dwarf_Addr pc;
    int is_activation;
    int has_left;        /* 1 if its function left by a tail call: see dwexpr_libdw_add_tail_calls */
    Dwfl_Module *module; /* NULL if there is none */
    Dwarf_Addr bias;     /* from addresses in the debug information to those of the process */
    Dwarf_Addr address;  /* in the debug information: of the instruction where it stands, or of its call */
    Dwarf_Die unit;      /* of split debug information, if the unit is split */
    Dwarf_Die function;  /* its entry, into which others may be inlined; `addr` is NULL if there is none */
} dwexpr_libdw_place;

/* Returns 0; DWEXPR_LIBDW_NO_UNIT; or DWEXPR_LIBDW_NO_MEMORY. `place` is written in each case. */
uint32_t dwexpr_libdw_locate(dwexpr_libdw_frame *frame, dwexpr_libdw_place *place);

/* The scopes at a frame's address, from the innermost to the unit, through inlined functions and the functions around
 * them. Returns what dwexpr_libdw_locate does. Free `scopes`. */
uint32_t dwexpr_libdw_scopes(dwexpr_libdw_frame *frame, Dwarf_Die **scopes, size_t *count);

/* An entry of a function, or of one of its variables or parameters that are in scope. */
typedef struct dwexpr_libdw_entry {
    Dwarf_Die entry;
    unsigned level;   /* 0 for the innermost function, 1 for the one into which it is inlined or nested, .. */
    int is_enclosing; /* 1 if the frame's function is nested in this one, as in Ada: this one may have its own frame */
} dwexpr_libdw_entry;

/* The functions and variables at a frame's address: for each level the function, and then its variables, those of inner
 * blocks first. Constants are among them, variables of common blocks, and variables that are optimized away or only
 * declared. Returns what dwexpr_libdw_locate does. Free `entries`. */
uint32_t dwexpr_libdw_variables(dwexpr_libdw_frame *frame, dwexpr_libdw_entry **entries, size_t *count);

/* The variables and constants outside of functions, in this module or, if it is NULL, in all: those of the frame's unit
 * first, and then of its module. If `name` isn't NULL, only those with this name in the source or for the linker.
 * dwexpr_libdw_variable has their values in any frame. Returns 0 or DWEXPR_LIBDW_NO_MEMORY. Free `globals`. */
uint32_t dwexpr_libdw_globals(dwexpr_libdw_frame *frame, Dwfl_Module *module, const char *name, Dwarf_Die **globals,
                              size_t *count);

/* A register of a frame, in the order of the target: of at most DWEXPR_LIBDW_REGISTER_SIZE bytes. Returns 0,
 * DWEXPR_LIBDW_NOT_READABLE or DWEXPR_LIBDW_BAD_REGISTER. */
uint32_t dwexpr_libdw_register(const dwexpr_libdw_frame *frame, uint32_t number, uint8_t *bytes, size_t *size);

/* Memory that a frame can read. Returns 0 or DWEXPR_LIBDW_NOT_READABLE. */
uint32_t dwexpr_libdw_memory(const dwexpr_libdw_frame *frame, uint64_t address, uint8_t *bytes, size_t size);

/* ---------------------------------------------------------------- values */

/* The value of an expression. It is made by the calls below, and only read. Free it by dwexpr_libdw_release. */
typedef struct dwexpr_libdw_value {
    dwexpr_outcome outcome;
    dwexpr_piece pieces[DWEXPR_MAX_PIECES]; /* outcome.pieces of them */
    dwexpr_text texts[64];                  /* for dwexpr_piece_block */
    size_t texts_length;
    dwexpr_encoding encoding;
    Dwarf_CU *unit; /* of the entries that pieces point into */
    const dwexpr_libdw_frame *frame; /* the frame of the variable's function; pieces name its registers */
    void *memory;   /* private */
} dwexpr_libdw_value;

void dwexpr_libdw_release(dwexpr_libdw_value *value);

/* Evaluates an expression in a frame. Its requests are answered by the frame's registers and memory, and by libdw: the
 * frame base, the CFA, calls, entries of .debug_addr and base types; parameters and entry values by the call site in
 * the caller; thread-local storage by the frame. `object` is the address for DW_OP_push_object_address, and `initial`
 * the value on the stack at the start; either may be NULL. At most 100,000 operations are done.
 *
 * Returns 0; a fault; DWEXPR_TOO_MANY_TEXTS; DWEXPR_LIBDW_OPTIMIZED_AWAY if the expression is empty;
 * DWEXPR_LIBDW_TOO_MANY_EXPRESSIONS; DWEXPR_LIBDW_NO_MEMORY; or DWEXPR_LIBDW_WANTS plus the request. Unless memory was
 * lacking, there is a value. It uses the expression's bytes: free them after the value. */
uint32_t dwexpr_libdw_evaluate(dwexpr_libdw_frame *frame, const dwexpr_libdw_text *expression, const uint64_t *object,
                               const uint64_t *initial, dwexpr_libdw_value **value);

/* The value of a variable, a parameter or a constant in a frame, by its DW_AT_const_value or DW_AT_location. A location
 * is evaluated in the frame of the variable's function: this one or, if that function encloses this one's, a caller's.
 * Addresses are relocated as the variable's module is. A variable of several modules, or one that is only declared, is
 * where the dynamic linker bound the name in the variable's module. The process's memory tells: the module's relocation
 * for the name has the address there. A module without such a relocation has its own variable.
 *
 * Returns what dwexpr_libdw_expression or dwexpr_libdw_evaluate does; DWEXPR_LIBDW_OTHER_FUNCTION;
 * DWEXPR_LIBDW_NOT_DEFINED; or DWEXPR_LIBDW_AMBIGUOUS if the relocation can't be read and several modules have it. */
uint32_t dwexpr_libdw_variable(dwexpr_libdw_frame *frame, Dwarf_Die *variable, dwexpr_libdw_value **value);

/* The value that a parameter had on entry of the function, if the caller's call site says it. Returns as above. */
uint32_t dwexpr_libdw_on_entry(dwexpr_libdw_frame *frame, Dwarf_Die *parameter, dwexpr_libdw_value **value);

/* The number of an attribute, as a bound, a size, a count or a member's place: a constant, the value of an expression,
 * or of the variable or the object's member that it names. `object` is the address of the object, or NULL.
 *
 * Returns 0; DWEXPR_LIBDW_NO_NUMBER; or what dwexpr_libdw_variable does. */
uint32_t dwexpr_libdw_number(dwexpr_libdw_frame *frame, Dwarf_Attribute *attribute, const uint64_t *object,
                             uint64_t *number);

/* The entry that a piece of the kind DWEXPR_POINTS_INTO points into: a variable, whose value dwexpr_libdw_variable has.
 * The piece's byte_offset is the place within it. Returns 0 or DWEXPR_LIBDW_FAILED. */
uint32_t dwexpr_libdw_points_into(const dwexpr_libdw_value *value, const dwexpr_piece *piece, Dwarf_Die *variable);

/* Reads the bytes of a value with this many bits, as they would be in memory; `frame` is the one that the value names.
 * Its pieces follow each other from the lowest bit of each byte in little endian, and from the highest in big endian.
 * The last byte is padded with zeros.
 *
 * Returns 0 if every bit is known. Else the code says why the first unknown bit isn't: DWEXPR_LIBDW_OPTIMIZED_AWAY,
 * _IMPLICIT_POINTER, _NOT_READABLE, _TOO_SMALL or _BAD_REGISTER. Unknown bits are zeros in `bytes` and ones in
 * `unknown`, which may be NULL. Both have room for the bits; known bits are zeros in `unknown`. */
uint32_t dwexpr_libdw_read(const dwexpr_libdw_frame *frame, const dwexpr_libdw_value *value, uint64_t size_in_bits,
                           uint8_t *bytes, uint8_t *unknown);

/* ---------------------------------------------------------------- types */

/* The type of a variable, a parameter or a member without its typedefs and qualifiers, from its type unit if it has
 * one. Returns 0 or DWEXPR_LIBDW_FAILED if it has none. */
uint32_t dwexpr_libdw_type(Dwarf_Die *variable, Dwarf_Die *type);

/* The definition of a type that its unit only declares. It is found by its name, in the unit, then in the unit's
 * module, and then in all. Objects have it by themselves. Returns 0; DWEXPR_LIBDW_NOT_DEFINED; DWEXPR_LIBDW_AMBIGUOUS
 * if several units define it in different ways; or DWEXPR_LIBDW_NO_MEMORY. */
uint32_t dwexpr_libdw_definition(dwexpr_libdw_frame *frame, Dwarf_Die *type, Dwarf_Die *definition);

/* ---------------------------------------------------------------- objects */

/* A variable, or a part of one, in a frame: its type, and where its bits are, which is memory or a value. What its type
 * computes, as bounds in Fortran and Ada, is read from it once. A part needs the object that it is a part of: free the
 * part first. Unless a call says otherwise, it returns 0 or what dwexpr_libdw_number does. */
typedef struct dwexpr_libdw_object dwexpr_libdw_object;

/* The object of a variable, a parameter or a constant. Returns what dwexpr_libdw_variable does, or DWEXPR_LIBDW_FAILED
 * if it has no type. */
uint32_t dwexpr_libdw_object_of_variable(dwexpr_libdw_frame *frame, Dwarf_Die *variable, dwexpr_libdw_object **object);

/* The first of dwexpr_libdw_globals of all modules with a name that has a value. Returns as above;
 * DWEXPR_LIBDW_NOT_DEFINED if there is none with the name. */
uint32_t dwexpr_libdw_object_global(dwexpr_libdw_frame *frame, const char *name, dwexpr_libdw_object **object);

/* An object of a type at an address. Returns 0 or DWEXPR_LIBDW_NO_MEMORY. */
uint32_t dwexpr_libdw_object_at(dwexpr_libdw_frame *frame, const Dwarf_Die *type, uint64_t address,
                                dwexpr_libdw_object **object);

/* Frees an object. NULL is allowed. */
void dwexpr_libdw_object_free(dwexpr_libdw_object *object);

/* Its type, without typedefs and qualifiers, and not a declaration if the type is defined anywhere. */
Dwarf_Die dwexpr_libdw_object_type(const dwexpr_libdw_object *object);

/* How many bits it has. An array has them if its elements follow each other. */
uint32_t dwexpr_libdw_object_size(const dwexpr_libdw_object *object, uint64_t *bits);

/* Where its data is: an address, and the number of its first bit there, counted as dwexpr_libdw_read places them. It is
 * where DW_AT_data_location says, as for arrays in Fortran, or else where the object is. Returns DWEXPR_LIBDW_NO_NUMBER
 * if it is in a value, and DWEXPR_LIBDW_OPTIMIZED_AWAY if it isn't allocated or associated. */
uint32_t dwexpr_libdw_object_address(dwexpr_libdw_object *object, uint64_t *address, uint64_t *bit);

/* Its part by the entry of a member or a base class. */
uint32_t dwexpr_libdw_object_member(dwexpr_libdw_object *object, Dwarf_Die *member, dwexpr_libdw_object **part);

/* Its member with a name, also in members without names, in base classes, and in the variants that are there. Returns
 * DWEXPR_LIBDW_NO_PART if there is none. */
uint32_t dwexpr_libdw_object_named(dwexpr_libdw_object *object, const char *name, dwexpr_libdw_object **part);

/* Which variant of an entry DW_TAG_variant_part is there, as the discriminant says. Its children are members of the
 * object. Returns DWEXPR_LIBDW_NO_PART if there is none. */
uint32_t dwexpr_libdw_object_variant(dwexpr_libdw_object *object, Dwarf_Die *part, Dwarf_Die *variant);

/* A dimension of an array. */
typedef struct dwexpr_libdw_dimension {
    int64_t lower;   /* the lowest index */
    uint64_t count;  /* of indexes */
    int has_count;   /* 0: the array has no bound, as some in C */
    int64_t stride;  /* bits from an element to that of the next index */
    Dwarf_Die index; /* the type of the indexes: of an enumeration, only its values are some */
} dwexpr_libdw_dimension;

/* The dimensions of an array, in the order in which the source writes them. They belong to the object. Returns
 * DWEXPR_LIBDW_NO_PART if it is no array. */
uint32_t dwexpr_libdw_object_shape(dwexpr_libdw_object *object, const dwexpr_libdw_dimension **dimensions,
                                   size_t *rank);

/* The index at a place of a dimension, counted from 0. */
int64_t dwexpr_libdw_index(const dwexpr_libdw_dimension *dimension, uint64_t place);

/* The element of an array with an index for each dimension. Returns DWEXPR_LIBDW_NO_PART if there is none. */
uint32_t dwexpr_libdw_object_element(dwexpr_libdw_object *object, const int64_t *indexes, size_t count,
                                     dwexpr_libdw_object **element);

/* What a pointer or a reference points to, also if it is a variable without an address. Returns DWEXPR_LIBDW_NO_PART if
 * the object is neither; DWEXPR_LIBDW_FAILED if it points to no type; or what dwexpr_libdw_variable does. */
uint32_t dwexpr_libdw_object_follow(dwexpr_libdw_object *pointer, dwexpr_libdw_object **target);

/* Reads the first bits of an object's data as dwexpr_libdw_read does. DW_AT_endianity says in which order the bits of a
 * number follow each other. Returns what both do; DWEXPR_LIBDW_TOO_SMALL if it has fewer. */
uint32_t dwexpr_libdw_object_read(dwexpr_libdw_object *object, uint64_t size_in_bits, uint8_t *bytes, uint8_t *unknown);

/* The number of an integer, a character, a truth value, an enumeration, a pointer or a reference: of its bits, extended
 * to 64 by the sign if its type has one. Returns DWEXPR_LIBDW_NO_NUMBER if it is none, or has more than 64 bits. */
uint32_t dwexpr_libdw_object_number(dwexpr_libdw_object *object, uint64_t *number);

/* The same, or another number or a string, as text: true or false, an enumerator's name, a decimal number, or a string
 * in quotes with a question mark for each byte that isn't printable. It is hexadecimal, after 0x, for a pointer and for
 * numbers that are no integers or floating-point numbers of 64 bits or fewer. Returns as above; DWEXPR_LIBDW_TOO_SMALL
 * if it doesn't fit into `room` bytes with the 0 at its end. */
uint32_t dwexpr_libdw_object_text(dwexpr_libdw_object *object, char *text, size_t room);

#ifdef __cplusplus
}
#endif

#endif
