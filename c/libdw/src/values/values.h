/* What the sources share that find values from a frame over callbacks. Those of processes and core dumps, whose frames
 * are such frames, share targets.h. What may fail returns 0 or a code, as the calls do. An int that is given back is an
 * answer: 1 for yes. */
#ifndef DWEXPR_LIBDW_VALUES_H
#define DWEXPR_LIBDW_VALUES_H

#include <dwarf.h>
#include <elfutils/version.h>
#include <gelf.h>
#include <stdlib.h>
#include <string.h>

#include "dwexpr_libdw.h"

#pragma GCC visibility push(hidden)

struct dwexpr_libdw_frame {
    dwexpr_libdw_source source;
    uint32_t limit; /* of expressions */
    /* what dwexpr_libdw_find_place finds */
    int is_located;
    uint32_t code;
    dwexpr_libdw_place place;
    /* what is given, or has been evaluated */
    int has_base, has_cfa;
    uint64_t base, cfa;
    int is_checked, may_call_itself; /* by tail calls */
};

/* ---- encoding.c */

/* Bytes as a number, and a number as bytes, in a byte order. Of more than 8 bytes only the lowest 8 count. */
uint64_t dwexpr_libdw_number_of(const uint8_t *bytes, size_t size, int big_endian);
void dwexpr_libdw_bytes_of(uint64_t number, size_t size, int big_endian, uint8_t *bytes);

/* ---- lists.c */

/* Items of one size, in memory that grows. */
struct dwexpr_libdw_list {
    void *items;
    size_t length, room;
};

/* Adds a copy of an item to a list. Returns 0 or DWEXPR_LIBDW_NO_MEMORY. */
uint32_t dwexpr_libdw_add(struct dwexpr_libdw_list *list, const void *item, size_t size);
/* The items for a client, who frees them, and how many there are. If there is a code, NULL and 0, and frees them. */
void *dwexpr_libdw_give(uint32_t code, const struct dwexpr_libdw_list *list, size_t *count);

/* Takes so many bytes of memory, and puts them to a list. Gives back NULL if there is none. */
uint8_t *dwexpr_libdw_take(void **list, size_t size);
void dwexpr_libdw_free_memory(void *first);
/* Puts the memory of an expression to a list. */
void dwexpr_libdw_keep(dwexpr_libdw_text *expression, void **list);

/* ---- expressions.c */

/* The expression of an attribute on entry of a function: GCC's lists may have a range there that has no addresses (a
 * location view), for the time before the first instruction. Returns what dwexpr_libdw_expression does. */
uint32_t dwexpr_libdw_entry_expression(Dwarf_Attribute *attribute, Dwarf_Addr entry, dwexpr_libdw_text *expression);

/* ---- entries.c */

/* A walk through entries, each before its children, without recursion. It ends, since libdw goes to no entry that
 * stands before. Free `path.items` after it. */
struct dwexpr_libdw_walk {
    struct dwexpr_libdw_list path; /* the entries from where it began to where it is */
    size_t floor; /* the walk ends when it would leave the first so many entries of the path */
};

/* Begins a walk. Returns 0 or DWEXPR_LIBDW_NO_MEMORY. */
uint32_t dwexpr_libdw_begin_walk(struct dwexpr_libdw_walk *walk, const Dwarf_Die *first);
/* Begins a walk at an entry and goes to another one below it. Returns what dwexpr_libdw_next_entry does. */
uint32_t dwexpr_libdw_walk_to(struct dwexpr_libdw_walk *walk, const Dwarf_Die *first, const Dwarf_Die *entry);
/* The entry where a walk is. */
Dwarf_Die *dwexpr_libdw_here(const struct dwexpr_libdw_walk *walk);
/* Goes to the next entry, into the children if `enters`. Returns 0; DWEXPR_LIBDW_NO_PART if there is none; or
 * DWEXPR_LIBDW_NO_MEMORY. */
uint32_t dwexpr_libdw_next_entry(struct dwexpr_libdw_walk *walk, int enters);
/* The innermost function in which an entry stands, of `first` and those in it. Its `addr` is NULL if there is none. */
Dwarf_Die dwexpr_libdw_function_around(const Dwarf_Die *first, const Dwarf_Die *entry);

/* ---- types.c */

/* Whether types of a tag lay out nothing: typedefs and qualifiers. */
int dwexpr_libdw_is_left_out(int tag);
/* The type of which a type is a range, or the type itself. */
Dwarf_Die dwexpr_libdw_base(Dwarf_Die *type);
/* Finds an attribute of a type or, if it is a range or an enumeration, of its base type. Gives back whether it is
 * there. */
int dwexpr_libdw_has_in_base(Dwarf_Die *type, unsigned name, Dwarf_Attribute *attribute);
/* Finds the bytes of a number and its encoding, as a type says them, or that of which it is a range. Gives back whether
 * both are known. */
int dwexpr_libdw_is_scalar(Dwarf_Die *type, Dwarf_Word *size, Dwarf_Word *encoding);
/* Whether types of a tag are pointers or references, which `dwexpr_libdw_object_follow` follows. */
int dwexpr_libdw_is_pointer(int tag);

/* ---- evaluation.c */

/* What an expression is for. A frame base's can't ask for the frame base; a CFA's can only ask for registers and
 * memory. */
enum dwexpr_libdw_purpose { FOR_VALUE, FOR_BASE, FOR_CFA };

/* What an expression, or an attribute's number, is computed with: a frame and, unless they are NULL, the object's
 * address and the value that is on the stack at first. */
struct dwexpr_libdw_given {
    dwexpr_libdw_frame *frame;
    const uint64_t *object, *initial;
    const dwexpr_libdw_object *holder; /* that may have the member of which it is the number, or NULL */
    unsigned arrays; /* how many arrays are within each other */
    enum dwexpr_libdw_purpose purpose;
    uint32_t *left; /* how many more expressions may be evaluated; NULL for as many as the frame's limit says */
};

/* Evaluates an expression, and all for which it waits. Its memory goes to the value, or is freed. */
uint32_t dwexpr_libdw_evaluate_with(const struct dwexpr_libdw_given *given, dwexpr_libdw_text *expression,
                                    dwexpr_libdw_value **value);

/* ---- answers.c */

uint32_t dwexpr_libdw_register_number(const dwexpr_libdw_value *value, uint32_t number, uint64_t *content);
/* The number in memory for which a value's evaluation asks. */
uint32_t dwexpr_libdw_memory_number(const dwexpr_libdw_value *value, uint64_t *content);
/* Frees the value that an evaluation with this code gave, if any, and gives its number: of one that has a number, or
 * that is in a register. */
uint32_t dwexpr_libdw_take_number(uint32_t code, dwexpr_libdw_value *value, uint64_t *number);
/* The expression of an attribute at a frame's address, in the addresses of the attribute's module. */
uint32_t dwexpr_libdw_expression_in(dwexpr_libdw_frame *frame, Dwarf_Attribute *attribute,
                                    dwexpr_libdw_text *expression);
/* The value that an attribute's expression comes to, and its number. */
uint32_t dwexpr_libdw_attribute_value(const struct dwexpr_libdw_given *given, Dwarf_Attribute *attribute,
                                      dwexpr_libdw_value **value);
uint32_t dwexpr_libdw_attribute_number(const struct dwexpr_libdw_given *given, Dwarf_Attribute *attribute,
                                       uint64_t *number);
uint32_t dwexpr_libdw_find_base(dwexpr_libdw_frame *frame, uint32_t *left);
uint32_t dwexpr_libdw_find_cfa(dwexpr_libdw_frame *frame, uint32_t *left);
/* Finds the entry that an operation names. Gives back whether there is one. */
int dwexpr_libdw_find_entry(Dwarf_CU *unit, uint8_t opcode, uint64_t offset, Dwarf_Die *entry);
/* The text of the entry that a value's evaluation calls, by its index in the table. */
uint32_t dwexpr_libdw_find_location(dwexpr_libdw_frame *frame, dwexpr_libdw_value *value, size_t *index);
uint32_t dwexpr_libdw_find_tls(const dwexpr_libdw_frame *frame, Dwfl_Module *module, uint64_t offset,
                               uint64_t *address);
/* The address or the constant that a value's evaluation names by its index. */
uint32_t dwexpr_libdw_find_indexed(const dwexpr_libdw_value *value, uint64_t *address);
/* Whether an expression has no operations but of these kinds. */
int dwexpr_libdw_has_only(dwexpr_text text, dwexpr_encoding encoding, const uint8_t *kinds, size_t count);
/* Finds the integer type that stands for a base type in the evaluation of a value. */
uint32_t dwexpr_libdw_find_base_type(const dwexpr_libdw_value *value, uint64_t offset, uint32_t *value_type);

/* ---- constants.c */

/* Makes a value of one piece, at an address. */
uint32_t dwexpr_libdw_make_value(const dwexpr_libdw_frame *frame, Dwarf_CU *unit, uint64_t address,
                                 dwexpr_libdw_value **value);
/* Makes the one piece of a value what DW_AT_const_value says: a string, a block, or a number, which has more than 64
 * bits if its type has more. */
uint32_t dwexpr_libdw_hold_constant(dwexpr_libdw_value *value, Dwarf_Die *variable, Dwarf_Attribute *attribute);

/* ---- names.c */

/* The name that an entry has for the linker, or else in its source. */
const char *dwexpr_libdw_linkage_name(Dwarf_Die *entry);
/* The value of a variable that has no location: if it is declared, that of its definition, and else of another name of
 * a variable, that of its symbol. */
uint32_t dwexpr_libdw_named(dwexpr_libdw_frame *frame, Dwarf_Die *variable, dwexpr_libdw_value **value);
/* Replaces the value that a variable has at its own place if the dynamic linker bound its name to another one, as when
 * the program has a copy of it. `code` is that of its own value. */
uint32_t dwexpr_libdw_replaced(dwexpr_libdw_frame *frame, Dwarf_Die *variable, uint32_t code,
                               dwexpr_libdw_value **value);

/* ---- numbers.c */

uint32_t dwexpr_libdw_number_with(const struct dwexpr_libdw_given *given, Dwarf_Attribute *attribute, uint64_t *number);
/* The number of an attribute, or `other` if the entry has none. */
uint32_t dwexpr_libdw_number_or(const struct dwexpr_libdw_given *given, Dwarf_Die *entry, unsigned name, uint64_t other,
                                uint64_t *number);
/* The bytes of a string, by DW_AT_string_length, which is the place of a number. */
uint32_t dwexpr_libdw_string_length(const struct dwexpr_libdw_given *given, Dwarf_Die *type,
                                    Dwarf_Attribute *attribute, uint64_t *bytes);

/* ---- layouts.c */

uint64_t dwexpr_libdw_whole_bytes(uint64_t bits);
/* Goes from a type to the one that says how it is laid out: without typedefs and qualifiers, and not a declaration. */
uint32_t dwexpr_libdw_find_layout(dwexpr_libdw_frame *frame, Dwarf_Die *type);
/* Goes from an entry to the first enumerator among it and those after it, unless `more` isn't 0, and gives its number.
 * Gives back whether there is one. */
int dwexpr_libdw_find_enumerator(int more, Dwarf_Die *entry, Dwarf_Word *number);

/* How an array lays out its elements. */
struct dwexpr_libdw_shape {
    struct dwexpr_libdw_list dimensions;
    Dwarf_Die element;
    uint64_t bits;     /* of an element */
    uint64_t total;    /* of all elements */
    int is_contiguous; /* each bound is known, and they follow each other */
};

/* Free its dimensions, whatever it returns. */
uint32_t dwexpr_libdw_read_shape(const struct dwexpr_libdw_given *given, Dwarf_Die *array,
                                 struct dwexpr_libdw_shape *shape);
/* How many indexes are below a number, and not below a lower one. */
uint64_t dwexpr_libdw_indexes(Dwarf_Die *type, int64_t lower, int64_t number);
/* The bits of a type. Those of an array are known if its elements follow each other. */
uint32_t dwexpr_libdw_size_of(const struct dwexpr_libdw_given *given, Dwarf_Die *type, uint64_t *bits);
/* The bit at which a member begins and, if the member says it, how many bits it has; else 0. */
uint32_t dwexpr_libdw_member_begin(const struct dwexpr_libdw_given *given, Dwarf_Die *member, Dwarf_Die *type,
                                   uint64_t *begin, uint64_t *bits);

/* ---- objects.c */

/* Where bits are: in a value, or at an address if that is NULL. */
struct dwexpr_libdw_bit_place {
    const dwexpr_libdw_value *value;
    uint64_t address, begin; /* the first bit there: at an address, below 8 */
};

struct dwexpr_libdw_object {
    dwexpr_libdw_frame *frame;
    const dwexpr_libdw_object *whole; /* which has it as a part, or NULL */
    dwexpr_libdw_object *owned;       /* the whole, if it is freed with this part */
    dwexpr_libdw_value *value;        /* that is freed with it */
    Dwarf_Die type;
    struct dwexpr_libdw_bit_place place, data;
    uint64_t bits; /* if the member or the array says them; else 0, and the type does */
    struct dwexpr_libdw_shape shape;
    int has_data, has_shape; /* they are read once */
};

/* What numbers are computed with for an object: it, and its address if it begins at one. */
struct dwexpr_libdw_given dwexpr_libdw_given_of(const dwexpr_libdw_object *object);
void dwexpr_libdw_move(struct dwexpr_libdw_bit_place *place, int64_t bits);
/* Makes an object of a type, at a place that is a number of bits away from another one. */
uint32_t dwexpr_libdw_make_object(dwexpr_libdw_frame *frame, const Dwarf_Die *type,
                                  const struct dwexpr_libdw_bit_place *from, int64_t bits,
                                  dwexpr_libdw_object **object);
/* Makes an object with a value, which it keeps or frees. */
uint32_t dwexpr_libdw_make_with(dwexpr_libdw_frame *frame, const Dwarf_Die *type, dwexpr_libdw_value *value,
                                dwexpr_libdw_object **object);
/* Finds where the data of an object is: at it, or where DW_AT_data_location says. */
uint32_t dwexpr_libdw_find_data(dwexpr_libdw_object *object);

/* How many bits an object has, and whether they are in big endian: as its unit's are, unless DW_AT_endianity says
 * otherwise of a number. */
struct dwexpr_libdw_bits {
    uint64_t count;
    int of_unit, of_number;
};

uint32_t dwexpr_libdw_find_bits(dwexpr_libdw_object *object, struct dwexpr_libdw_bits *bits);

/* ---- texts.c */

/* What the numbers of a type are, DW_ATE_*; 0 if it has none. */
Dwarf_Word dwexpr_libdw_kind_of(Dwarf_Die *type);
/* Whether numbers of a kind have a sign. */
int dwexpr_libdw_is_signed(Dwarf_Word kind);
/* The number of a member, in whole bytes at a place that is a number, of an object or of one that has it as a part: a
 * discriminant in Ada. */
uint32_t dwexpr_libdw_discriminant(const dwexpr_libdw_object *object, Dwarf_Die *member, uint64_t *number);

/* ---- reading.c */

/* Reads bits of a value that has `size` bits, from one on, as dwexpr_libdw_read does. */
uint32_t dwexpr_libdw_read_part(const dwexpr_libdw_frame *frame, const dwexpr_libdw_value *value, uint64_t size,
                                uint64_t begin, uint64_t count, uint8_t *bytes, uint8_t *unknown);
/* Reads bits of memory likewise. */
uint32_t dwexpr_libdw_read_at(const dwexpr_libdw_frame *frame, uint64_t address, uint64_t begin, uint64_t count,
                              int big_endian, uint8_t *bytes, uint8_t *unknown);
/* Copies bits from one on, in an order. */
void dwexpr_libdw_take_bits(uint8_t *to, const uint8_t *from, uint64_t begin, uint64_t count, int big_endian);

/* ---- frames.c */

/* The unit with the entries: that of the split debug information if the unit is split. */
Dwarf_Die dwexpr_libdw_entries(Dwarf_Die *unit);
/* Finds the module, the unit and the function of a frame, the same each time. */
uint32_t dwexpr_libdw_find_place(dwexpr_libdw_frame *frame);
void dwexpr_libdw_begin_frame(dwexpr_libdw_frame *frame, const dwexpr_libdw_source *source);
/* The address where a function is entered: the begin of its first range. Gives back whether there is one. */
int dwexpr_libdw_has_entry(Dwarf_Die *function, Dwarf_Addr *address);
/* The same for a frame's function, as an address in the process; 0 if there is none. */
uint64_t dwexpr_libdw_entry_of(const dwexpr_libdw_frame *frame);

/* Finds the call frame information at a frame's address, of .eh_frame or else of .debug_frame. Returns 0, and then
 * `state` is to be freed, or DWEXPR_LIBDW_NO_UNIT. */
uint32_t dwexpr_libdw_find_state(const dwexpr_libdw_frame *frame, Dwarf_Frame **state, Elf **elf);

/* ---- scopes.c */

/* The scopes at an address, from the unit to the innermost: a walk that has gone there. It has one scope if no function
 * has the address. Most functions stand in namespaces and classes; the second time those are found too that stand in
 * functions which don't have the address. */
uint32_t dwexpr_libdw_find_scopes(Dwarf_Die *unit, Dwarf_Addr address, struct dwexpr_libdw_walk *walk);

/* ---- modules.c */

/* The module at a place, 0 for the first one. Gives back the next place; 0 or less at the end, and then no module. */
ptrdiff_t dwexpr_libdw_next_module(Dwfl *dwfl, ptrdiff_t at, Dwfl_Module **module);
/* Calls a function with each module, a frame's module first, or with each unit of a module, until it returns a code.
 * Returns that. */
uint32_t dwexpr_libdw_visit_modules(dwexpr_libdw_frame *frame,
                                    uint32_t (*visit)(void *context, Dwfl_Module *module), void *context);
uint32_t dwexpr_libdw_visit_units(Dwfl_Module *module, uint32_t (*visit)(void *context, const Dwarf_Die *unit),
                                  void *context);
/* Finds the module of a unit, and what is added to its addresses: those of the frame if the unit is NULL. Returns 0 or
 * DWEXPR_LIBDW_FAILED. */
uint32_t dwexpr_libdw_find_module(dwexpr_libdw_frame *frame, Dwarf_CU *unit, Dwfl_Module **module, Dwarf_Addr *bias);
/* The first segment of a type that a module has, and the bias of its address. Gives back whether there is one. */
int dwexpr_libdw_find_segment(Dwfl_Module *module, unsigned type, GElf_Phdr *segment, Dwarf_Addr *bias);

/* ---- symbols.c */

/* A symbol: its name, and where it is found. */
struct dwexpr_libdw_symbol {
    const char *name;
    Dwfl_Module *module;
    GElf_Sym symbol;
    Dwarf_Addr address; /* unless it is in thread-local storage */
};

/* What the dynamic linker writes for a symbol: its address, or that and a number; a copy of it; or, if it is in
 * thread-local storage, its module's number, its distance from the thread pointer, or either after a function. */
enum dwexpr_libdw_relocation_kind {
    IS_OTHER, IS_COPY, HAS_ADDRESS, HAS_SUM, HAS_MODULE, HAS_DISTANCE, HAS_DESCRIPTOR
};

struct dwexpr_libdw_relocation {
    enum dwexpr_libdw_relocation_kind kind;
    Dwfl_Module *module;
    uint64_t place; /* in the process */
    int64_t addend;
};

/* Finds a symbol of a module by its name: at an address if that isn't 0, as a function may have several, and else that
 * of a function, or of a variable that isn't local. Gives back whether there is one. */
int dwexpr_libdw_find_symbol(Dwfl_Module *module, Dwarf_Addr address, struct dwexpr_libdw_symbol *symbol);
/* Finds the first module that exports a symbol. Gives back whether there is one. */
int dwexpr_libdw_find_exported(Dwfl *dwfl, struct dwexpr_libdw_symbol *symbol);
/* Finds what a name stands for in the code of a module: what the dynamic linker wrote for the module's relocation or,
 * if it has none, the module's own symbol. `own` is the address of its own variable, or NULL if that isn't known.
 * Returns 0; DWEXPR_LIBDW_AMBIGUOUS; DWEXPR_LIBDW_NOT_DEFINED if the name was bound to nothing; or DWEXPR_LIBDW_FAILED
 * if it has neither a relocation nor a symbol. */
uint32_t dwexpr_libdw_resolve(dwexpr_libdw_frame *frame, Dwfl_Module *module, const uint64_t *own,
                              struct dwexpr_libdw_symbol *symbol);
/* Finds what a name stands for in a module that doesn't have it: the program's copy, the symbol to which the relocation
 * is bound unless it is NULL, or that of the only module which exports it. Returns 0; DWEXPR_LIBDW_AMBIGUOUS; or
 * DWEXPR_LIBDW_NOT_DEFINED. */
uint32_t dwexpr_libdw_look_up(dwexpr_libdw_frame *frame, const struct dwexpr_libdw_relocation *relocation,
                              struct dwexpr_libdw_symbol *symbol);

/* ---- thread_local.c */

/* Whether the dynamic linker bound a relocation to this symbol in thread-local storage. */
int dwexpr_libdw_is_bound(const dwexpr_libdw_frame *frame, const struct dwexpr_libdw_relocation *relocation,
                          const struct dwexpr_libdw_symbol *symbol);
/* The address of an offset in a module's thread-local storage, of the thread with this pointer. `program` is an address
 * in the program, or 0 if it isn't known. */
uint32_t dwexpr_libdw_find_block(const dwexpr_libdw_frame *frame, Dwarf_Addr program, Dwfl_Module *module,
                                 uint64_t pointer, uint64_t offset, uint64_t *address);

/* ---- globals.c */

/* The variables outside of functions, by their names, of each module that was searched. */
struct dwexpr_libdw_names {
    struct dwexpr_libdw_list tables;
};

/* ---- calls.c */

/* A question for what the caller passed to a frame's function. */
struct dwexpr_libdw_question {
    dwexpr_libdw_frame *frame;
    Dwarf_Die entry;          /* the parameter for which it was passed; or its `addr` is NULL, */
    dwexpr_text place;        /* and it was passed in this place, on entry of the function */
    dwexpr_encoding encoding;
    /* what is found: the call site, and the frame that it is in: the caller's, or that of a function which left by a
     * tail call */
    Dwarf_Die site;
    dwexpr_libdw_frame *asked, between;
    int waits_for_target; /* whether the call site called this function has to be known first */
};

/* Finds the attribute whose number, in the frame that is asked, is the answer: or what the call site called, if it
 * `waits_for_target`. Returns 0; DWEXPR_LIBDW_NO_PART if there is none; or DWEXPR_LIBDW_NO_MEMORY. */
uint32_t dwexpr_libdw_ask(struct dwexpr_libdw_question *question, Dwarf_Attribute *value);
/* Goes on if that is known. Returns as above. */
uint32_t dwexpr_libdw_ask_target(struct dwexpr_libdw_question *question, uint64_t address, Dwarf_Attribute *value);
/* Adds the frames of functions that left by tail calls before a frame's function was entered, the outermost one first.
 * Returns 0, or why they aren't known: then they may not all be there. */
uint32_t dwexpr_libdw_find_left(dwexpr_libdw_frame *frame, struct dwexpr_libdw_list *left);

#pragma GCC visibility pop

#endif
