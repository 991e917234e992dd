/* What callbacks answer, refuse or leave out; values that no expression gives; and frames of which nothing is known. */
#include "check.h"
#include "frame.h"

static uint8_t got[64], unknown[64];

/* Evaluates an expression in a frame, which it frees, and reads 64 bits of the value. Returns the code. */
static uint32_t read_value(dwexpr_libdw_frame *frame, const char *expression)
{
    uint8_t bytes[64];
    const dwexpr_libdw_text text = {.text = {bytes, bytes_of(expression, bytes)}, .encoding = LE8};
    dwexpr_libdw_value *value;
    uint32_t code = dwexpr_libdw_evaluate(frame, &text, NULL, NULL, &value);
    if (!code)
        code = dwexpr_libdw_read(frame, value, 64, got, unknown);
    dwexpr_libdw_release(value);
    dwexpr_libdw_free_frame(frame);
    return code;
}

/* ---- values */

/* A value that names no frame is read in the one that is given. */
static void check_no_frame(void)
{
    const dwexpr_libdw_value value = {.outcome = {.pieces = 1}, .encoding = LE8,
                                      .pieces = {{.kind = DWEXPR_AT_ADDRESS, .number = 0x1010}}};
    int big_endian = 0;
    uint8_t content = 0;
    dwexpr_libdw_frame *frame = make_frame(&big_endian);
    check(!dwexpr_libdw_read(frame, &value, 8, &content, NULL) && content == 0x10, "no frame", "its memory");
    dwexpr_libdw_free_frame(frame);
}

static size_t reads;

static int count_reads(void *context, uint64_t address, uint8_t *content, size_t size)
{
    reads++;
    return read_memory(context, address, content, size);
}

/* An object whose first 2 KiB of 12 can be read: once as a whole, once for each of 4 pages, and once for each byte that
 * can't be read. */
static void check_unreadable(void)
{
    static uint8_t content[0x3000], lost[sizeof content];
    const dwexpr_libdw_value value = {.outcome = {.pieces = 1}, .encoding = LE8,
                                      .pieces = {{.kind = DWEXPR_AT_ADDRESS, .number = 0x1800}}};
    int big_endian = 0, wrong = 0;
    unsigned i;
    dwexpr_libdw_frame *frame = frame_of(read_register, count_reads, &big_endian);
    const uint32_t code = dwexpr_libdw_read(frame, &value, 8 * sizeof content, content, lost);
    check(code == DWEXPR_LIBDW_NOT_READABLE, "unreadable memory", dwexpr_libdw_code_name(code));
    check(reads == 1 + 4 + 0x2800, "unreadable memory", "how often it is read");
    for (i = 0; i < sizeof content; i++)
        wrong += i < 0x800 ? content[i] != (uint8_t)i || lost[i] : content[i] || lost[i] != 0xff;
    check(!wrong, "unreadable memory", "its bytes");
    dwexpr_libdw_free_frame(frame);
}

/* An attribute of no unit, and so of no file. */
static void check_no_unit(void)
{
    Dwarf_Attribute attribute = {.cu = NULL};
    const dwexpr_libdw_value value = {.unit = NULL};
    const dwexpr_piece piece = {.kind = DWEXPR_AT_ADDRESS}, pointer = {.kind = DWEXPR_POINTS_INTO};
    dwexpr_libdw_text text;
    Dwarf_Die variable;
    check(dwexpr_libdw_expression(&attribute, 0, &text) == DWEXPR_LIBDW_FAILED, "no unit", "no expression");
    check(dwexpr_libdw_points_into(&value, &piece, &variable) == DWEXPR_LIBDW_FAILED, "no pointer", "no variable");
    check(dwexpr_libdw_points_into(&value, &pointer, &variable) == DWEXPR_LIBDW_FAILED, "no unit", "no variable");
}

/* ---- frames */

/* A frame of which nothing is known, and one whose base and CFA are given. */
static void check_frames(void)
{
    static const uint8_t base[] = {DW_OP_fbreg, 0}, cfa[] = {DW_OP_call_frame_cfa};
    const dwexpr_libdw_text texts[] = {{.text = {base, 2}, .encoding = LE8}, {.text = {cfa, 1}, .encoding = LE8},
                                       {.text = {base, 2}, .encoding = LE8, .on_cfa = 1}};
    const uint64_t given = 0x1100;
    const dwexpr_libdw_source known = {.frame_base = &given, .cfa = &given};
    dwexpr_libdw_frame *frame = frame_of(NULL, NULL, NULL);
    dwexpr_libdw_value *value;
    Dwarf_Die *scopes;
    uint8_t bytes[DWEXPR_LIBDW_REGISTER_SIZE];
    size_t count, i;
    check(dwexpr_libdw_scopes(frame, &scopes, &count) == DWEXPR_LIBDW_NO_UNIT && !scopes, "nothing", "no scopes");
    check(dwexpr_libdw_memory(frame, 0, bytes, 1) == DWEXPR_LIBDW_NOT_READABLE, "nothing", "no memory");
    check(dwexpr_libdw_register(frame, 0, bytes, &count) == DWEXPR_LIBDW_NOT_READABLE, "nothing", "no register");
    check(dwexpr_libdw_evaluate(frame, &texts[2], NULL, NULL, &value) == DWEXPR_LIBDW_WANTS + DWEXPR_WANTS_CFA,
          "nothing", "no CFA");
    dwexpr_libdw_release(value);
    dwexpr_libdw_free_frame(frame);
    dwexpr_libdw_make_frame(&known, &frame);
    for (i = 0; i < 2; i++) {
        check(!dwexpr_libdw_evaluate(frame, &texts[i], NULL, NULL, &value) && value->pieces[0].number == given, "given",
              "it is known");
        dwexpr_libdw_release(value);
    }
    dwexpr_libdw_free_frame(frame);
}

/* ---- callbacks */

/* A callback that gives `*context` bytes. */
static int read_bytes(void *context, uint32_t number, uint8_t *content, size_t *size)
{
    (void)number;
    (void)content;
    *size = *(size_t *)context;
    return 0;
}

static void check_callbacks(void)
{
    static const char *const expressions[] = {"50", "70 00"};
    static const size_t sizes[] = {65, SIZE_MAX};
    size_t size, i;
    for (i = 0; i < 4; i++) {
        size = sizes[i % 2];
        check(read_value(frame_of(read_bytes, NULL, &size), expressions[i / 2]) == DWEXPR_LIBDW_BAD_REGISTER,
              "a register of a wrong size", expressions[i / 2]);
    }
}

/* Memory that no callback reads. */
static void check_no_memory(void)
{
    int big_endian = 0;
    const uint32_t code = read_value(frame_of(read_register, NULL, &big_endian), "0c 00100000");
    check(code == DWEXPR_LIBDW_NOT_READABLE && unknown[0] == 0xff && unknown[7] == 0xff, "no callback for memory",
          dwexpr_libdw_code_name(code));
}

/* The first one of these callbacks writes; all return 0. */
static int read_one_register(void *context, uint32_t number, uint8_t *content, size_t *size)
{
    (void)number;
    if (*(int *)context) {
        memset(content, 0xff, 8);
        *size = 8;
    }
    *(int *)context = 0;
    return 0;
}

static int read_memory_once(void *context, uint64_t address, uint8_t *content, size_t size)
{
    (void)address;
    memset(content, 0xff, *(int *)context ? size : 0);
    *(int *)context = 0;
    return 0;
}

static void check_unwritten(void)
{
    static const struct {
        const char *name, *expression;
        uint32_t code;
    } unwritten[] = {
        {"memory that isn't written", "30 06 13 30 06 9f", 0},
        {"a place in memory that isn't written", "30 06 13 08 10", 0},
        {"a register that isn't written", "70 00 13 70 00 9f", DWEXPR_LIBDW_WANTS + DWEXPR_WANTS_REGISTER},
        {"a piece in a register that isn't written", "70 00 13 50", DWEXPR_LIBDW_NOT_READABLE},
    };
    static const uint8_t zeros[8];
    size_t i;
    for (i = 0; i < COUNT(unwritten); i++) {
        int writes = 1;
        const uint32_t code = read_value(frame_of(read_one_register, read_memory_once, &writes),
                                         unwritten[i].expression);
        check(code == unwritten[i].code, unwritten[i].name, dwexpr_libdw_code_name(code));
        check(code || !memcmp(got, zeros, sizeof zeros), unwritten[i].name, "zeros");
    }
}

int main(void)
{
    check_no_frame();
    check_unreadable();
    check_no_unit();
    check_frames();
    check_callbacks();
    check_no_memory();
    check_unwritten();
    return finish();
}
