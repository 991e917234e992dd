/* Claims, which say what has to be. Each is a line of a file, beside the program that it is about. Or a script makes a
 * file whose variables have claims as their names, with semicolons between them, after what they are about:
 *
 *     401003 401010!: CLAIMS      in a program: frames that stand there, the innermost first; with `!` after it, a
 *                                 signal stopped the frame there. If none is said, there is one frame without modules.
 *     101: CLAIMS                 in a core dump: this thread
 *     CLAIMS                      in another file: a frame without modules, and the variable
 *
 * Of the variable's type, and of its object at 0x1010:
 *
 *     size N                      its bytes
 *     at I,J B N                  where the element begins in bits, and how many it has
 *     member PATH B N             the same for a member
 *     data N                      the address of the data; `memory` if it is read there
 *     vtable N                    where its virtual function is
 *     type none                   it has no type
 *     PATH is TEXT                the text of a part: .NAME is a member, [I,J] an element, * what a pointer points to
 *
 * Of the variable where its location says:
 *
 *     value VALUE                 its value
 *     =PATH is TEXT               its text, or that of a part of it
 *     without                     its size isn't known, as it has no address
 *     nowhere                     it has no address
 *
 * Of values. ` in FRAME` is the number of a frame, 0 for the innermost, which it is if it isn't said:
 *
 *     NAME in FRAME is VALUE      the value of a variable of the frame
 *     NAMEPATH in FRAME = TEXT    its text, or that of a part of it
 *     NAME of FUNCTION is VALUE   the value of a variable of any function of the file, or of the `unit`;
 *                                 with `beside GLOBAL`, of a function of the unit that has a global variable
 *     NAME from FUNCTION is VALUE the same if the file is in no module
 *     entry of NAME in FRAME is VALUE    the value of a parameter on entry
 *     target of NAME in FRAME is VALUE   the value of the variable into which a pointer points
 *     first of NAME is TEXT       the text of the first global with the name that has a value
 *     each NAME in FRAME = TEXT   the text of each global with the name
 *     BYTES on FRAME is VALUE     the value of an expression; with `with N`, that is on its stack at first, and with
 *                                 `with N N`, the second one is the object's address
 *     register N in FRAME is VALUE
 *     memory ADDRESS SIZE in FRAME is VALUE    `pc` is where the frame stands
 *     rule N in FRAME is RULE     the rule of a register, or of the CFA if N is -1: BYTES, on the CFA, a value, CODE
 *     by rule N in FRAME is VALUE the value of that expression; also `with N`
 *     limit N in FRAME            so many expressions may be evaluated for one
 *
 * Of frames:
 *
 *     function in FRAME is NAME   or CODE
 *     address in FRAME is ADDRESS of the next instruction; with `, a call`, of the call before it
 *     count in FRAME is N         how many functions and variables there are, or CODE
 *     all of NAME in FRAME is N   how many globals have the name
 *     all in FRAME is N           how many globals the frame's module has
 *     frames MOST is N, CODE      how many frames the thread has, if at most so many are looked for; `all` for 0
 *     functions is NAME NAME..    of the frames up to main, with a star after one that left by a tail call
 *     tail calls                  the frames that left are added, and the caller's registers are as before
 *     threads FIRST is N          how many threads there are
 *     seen                        each local NAME_is of a function has what NAME has there, and NAME_isnt hasn't
 *
 * A claim on the frames or the registers `0 to 5`, or `0 to last`, has to hold for each, and a number `9 down to 4`
 * counts with them. A VALUE is bytes: `??` is an unknown one, 0a?f0 has a mask of its unknown bits, and `4 bits 0a` are
 * fewer. After them, or alone, is CODE, the name of a code. Or it is `known`; `at ADDRESS`; `in register N`; or
 * `into NAME`, which is that variable. `none` is no number, `missing` no such variable, and `nameless` one that has no
 * name. A TEXT may have several with `, or ` between them. */
#ifndef CLAIMS_H
#define CLAIMS_H

#include "check.h"
#include "dwexpr_libdw.h"

/* Where claims are checked. Only claims.c counts checks. */
struct subject {
    int may_refuse;        /* whether a call of malloc fails; then a value isn't known, or is as said */
    Dwarf_Die unit;        /* of the file, */
    Dwarf_Die foreign;     /* and the same unit of a file that is in no module */
    dwexpr_encoding encoding;
    Dwarf_Die variable;    /* of the row */
    dwexpr_libdw_target *target; /* a process or a core dump, or NULL; */
    pid_t thread;          /* its thread, */
    dwexpr_libdw_stack *stack; /* and its frames */
    dwexpr_libdw_frame *frames[8]; /* if there is no target */
};

extern struct subject subject;

/* The address of the object. */
extern const uint64_t object_address;

dwexpr_libdw_frame *frame_number(size_t number);
/* Whether a number is the word's, or is missing if the word is `none`. */
int is_said(const char *word, uint32_t code, uint64_t number);
/* Whether a claim is one on a type, and if so, whether it holds. */
int is_of_type(const char *claim);
int is_type(const char *claim);
/* Whether a part of an object has a text. A call with this code gave the object, which is freed. */
int has_text(uint32_t code, dwexpr_libdw_object *object, const char *path, const char *said);
/* Whether a claim on values or frames holds. */
int is_found(const char *claim);

#endif
