/* The names of codes, requests, pieces and opcodes, and the lines of vectors: names DWEXPR.H VECTORS FILE [DWARF.H].
 * The last files have the opcodes by name; libdw's dwarf.h has most. */
#include "dwexpr_names.h"
#include "rows.h"

/* ---- names */

/* The name of each number. */
static const char *const codes[] = {
    [DWEXPR_OK] = "no fault",
    [DWEXPR_UNEXPECTED_EOF] = "an operation is cut off",
    [DWEXPR_BAD_UNSIGNED_LEB128] = "an unsigned LEB128 number is too large",
    [DWEXPR_BAD_SIGNED_LEB128] = "a signed LEB128 number is too large",
    [DWEXPR_UNSUPPORTED_ADDRESS_SIZE] = "no address has this size",
    [DWEXPR_UNSUPPORTED_OFFSET] = "an offset is too large",
    [DWEXPR_UNSUPPORTED_REGISTER] = "no register has this number",
    [DWEXPR_INVALID_EXPRESSION] = "no operation has this opcode",
    [DWEXPR_INVALID_PIECE_SIZE] = "a piece is too large",
    [DWEXPR_UNSUPPORTED_TYPE_OPERATION] = "the operation has no meaning for values of this type",
    [DWEXPR_TYPE_MISMATCH] = "two values have different types",
    [DWEXPR_DIVISION_BY_ZERO] = "a division by zero",
    [DWEXPR_INVALID_SHIFT_EXPRESSION] = "a shift by a negative number",
    [DWEXPR_NOT_ENOUGH_STACK_ITEMS] = "a value is missing on the stack",
    [DWEXPR_INVALID_DEREF_SIZE] = "more bytes are read than an address has",
    [DWEXPR_INVALID_PUSH_OBJECT_ADDRESS] = "no object's address was set",
    [DWEXPR_UNSUPPORTED_EVALUATION] = "the operation can't be evaluated",
    [DWEXPR_BAD_BRANCH_TARGET] = "a branch leaves the expression",
    [DWEXPR_TOO_MANY_ITERATIONS] = "too many operations",
    [DWEXPR_INVALID_PIECE] = "the last piece is missing",
    [DWEXPR_INVALID_EXPRESSION_TERMINATOR] = "a location is followed by another operation than a piece",
    [DWEXPR_STACK_FULL] = "a list is full",
    [DWEXPR_BAD_ENCODING] = "no such encoding",
    [DWEXPR_BAD_OFFSET] = "no byte is at this offset",
    [DWEXPR_BAD_TEXT] = "no such text",
    [DWEXPR_BAD_ANSWER] = "no such answer",
    [DWEXPR_MISPLACED] = "the answer isn't allowed here",
    [DWEXPR_LOST_TEXT] = "a text of before isn't there",
    [DWEXPR_TOO_MANY_TEXTS] = "too many texts are called",
    [DWEXPR_BAD_VALUE] = "no such operation, type or mask",
    [DWEXPR_REFUSED] = "a callback refused",
};

static const char *const requests[] = {
    [DWEXPR_NOTHING] = "nothing",
    [DWEXPR_COMPLETE] = "complete",
    [DWEXPR_WANTS_MEMORY] = "memory",
    [DWEXPR_WANTS_REGISTER] = "a register",
    [DWEXPR_WANTS_FRAME_BASE] = "the frame base",
    [DWEXPR_WANTS_TLS] = "thread-local storage",
    [DWEXPR_WANTS_CFA] = "the canonical frame address",
    [DWEXPR_WANTS_LOCATION] = "an entry's location",
    [DWEXPR_WANTS_ENTRY_VALUE] = "an entry value",
    [DWEXPR_WANTS_PARAMETER] = "a parameter",
    [DWEXPR_WANTS_RELOCATED] = "a relocated address",
    [DWEXPR_WANTS_INDEXED] = "an entry of .debug_addr",
    [DWEXPR_WANTS_BASE_TYPE] = "a base type",
    [DWEXPR_WANTS_WASM_LOCAL] = "a WebAssembly local",
    [DWEXPR_WANTS_WASM_GLOBAL] = "a WebAssembly global",
    [DWEXPR_WANTS_WASM_STACK] = "a WebAssembly stack value",
};

static const char *const pieces[] = {
    [DWEXPR_EMPTY] = "optimized away",
    [DWEXPR_IN_REGISTER] = "in a register",
    [DWEXPR_AT_ADDRESS] = "in memory",
    [DWEXPR_HOLDS_VALUE] = "a value",
    [DWEXPR_HOLDS_BYTES] = "literal bytes",
    [DWEXPR_POINTS_INTO] = "an implicit pointer",
};

/* Each number of an enum in the header has its name, and no other number has a name. */
static void check_names(const char *header, const char *of_enum, const char *(*name_of)(uint32_t),
                        const char *const *names, uint32_t count)
{
    static struct name entries[NAMES];
    memset(entries, 0, sizeof entries);
    read_names(header, of_enum, "DWEXPR_", entries);
    for (uint32_t number = 0; number < 1000; number++) {
        const char *name = name_of(number), *wanted = number < count ? names[number] : NULL;
        check(!name == !wanted && (!wanted || !strcmp(name, wanted)), of_enum, wanted ? wanted : "there is no such");
        check(number >= NAMES || !entries[number].text[0] || name, of_enum, "each number has a name");
    }
}

/* Each opcode in a file has its name; the lines are as `DW_OP_addr = 0x03` or `DW_OP_addr: DwOp = DwOp(0x03)`. If
 * `is_all`, the file names all opcodes and no others; else it may name more. */
static void check_opcodes(const char *path, int is_all)
{
    FILE *file = opened(path);
    char line[400], name[80];
    uint32_t given = 0, named = 0;
    while (fgets(line, sizeof line, file)) {
        const char *at = strstr(line, "DW_OP_"), *digits = at ? strstr(at, "0x") : NULL, *got;
        if (!digits || sscanf(at, "%79[A-Za-z0-9_]", name) != 1 || strstr(name, "_user"))
            continue;
        got = dwexpr_opcode_name((uint32_t)strtoul(digits, NULL, 16));
        if (!got && !is_all)
            continue;
        check(got && !strcmp(got, name), name, got ? got : "no name");
        given++;
    }
    fclose(file);
    for (uint32_t number = 0; number < 1000; number++) {
        const int has_name = dwexpr_opcode_name(number) != NULL;
        check((strchr("-aBHIQbhiqusRVOPKDETLkwxrpW", dwexpr_operand_form(number)) != NULL) == has_name, "an opcode",
              "the form of its operands");
        named += (uint32_t)has_name;
    }
    check(given > 150 && (!is_all || named == given), "opcodes", "no others have names");
}

/* ---- lines */

/* The operands in the lines of operations that have some; these are named without DW_OP_ and GNU_. A capital stands for
 * a field of a vector, as add_field has it. */
static const struct {
    const char *operands, *names;
} forms[] = {
    {" N", " const1u const2u const4u const8u constu pick plus_uconst addrx constx addr_index const_index "},
    {" S", " const1s const2s const4s const8s consts bra skip fbreg breg "},
    {" H", " addr "},
    {" R", " regx "},
    {" R, S", " bregx "},
    {" P", " piece "},
    {" N, D", " bit_piece "},
    {" Z", " deref_size xderef_size "},
    {" <H>", " call2 call4 call_ref parameter_ref variable_value "},
    {" <H>, S", " implicit_pointer "},
    {" <T>", " convert reinterpret "},
    {" R, <T>", " regval_type "},
    {" Z, <T>", " deref_type xderef_type "},
    {" <T>, K", " const_type "},
    {" K", " implicit_value entry_value "},
    {" W, N", " WASM_location "},
};

/* The operands of an operation with this name; none if it has none. */
static const char *operands_of(const char *name)
{
    char word[40] = " ";
    name += strlen("DW_OP_");
    name += strncmp(name, "GNU_", 4) ? 0 : 4;
    strncat(word, name, !strncmp(name, "breg", 4) && name[4] != 'x' ? 4 : 30);
    strcat(word, " ");
    for (size_t i = 0; i < COUNT(forms); i++)
        if (strstr(forms[i].names, word))
            return forms[i].operands;
    return "";
}

/* Adds a field of a vector to a line, or a sign that stands for itself. */
static void add_field(char *line, char sign, const char *row, const char *digits)
{
    const char *kind = field(row, "kind"), *block = field(row, "block");
    size_t offset = 0, length = 0;
    line += strlen(line);
    switch (sign) {
    case 'N': sprintf(line, "%" PRIu64, number_of(row, "number")); break;
    case 'S': sprintf(line, "%" PRId64, (int64_t)number_of(row, "signed_number")); break;
    case 'H': sprintf(line, "0x%" PRIx64, number_of(row, "number")); break;
    case 'P': sprintf(line, "%" PRIu64, number_of(row, "number") / 8); break;
    case 'R': sprintf(line, "%" PRIu64, number_of(row, "register_number")); break;
    case 'T': sprintf(line, "0x%" PRIx64, number_of(row, "base_type")); break;
    case 'Z': sprintf(line, "%" PRIu64, number_of(row, "deref_size")); break;
    case 'D': sprintf(line, "%" PRIu64, number_of(row, "detail")); break;
    case 'W': strcpy(line, strstr(kind, "LOCAL") ? "local" : strstr(kind, "GLOBAL") ? "global" : "stack"); break;
    case 'K':
        sscanf(block, "[%zu, %zu", &offset, &length);
        line += sprintf(line, "%zu byte block:", length);
        for (const char *at = digits + 2 * offset; length--; at += 2)
            line += sprintf(line, " %.2s", at);
        break;
    default: *line++ = sign, *line = 0;
    }
}

/* Whether an operation has this line, whole or cut off. */
static void check_line(dwexpr_encoding encoding, const uint8_t *bytes, size_t length, const char *wanted,
                       size_t least_room)
{
    static char line[220000];
    const size_t whole = strlen(wanted);
    dwexpr_operation operation;
    dwexpr_decode(bytes, length, encoding, 0, &operation);
    for (size_t room = least_room; room <= whole + 1; room++) {
        line[room] = '#';
        check(dwexpr_operation_line(line, room, bytes, &operation) == whole && line[room] == '#' &&
                  (!room || (strlen(line) == room - 1 && !strncmp(line, wanted, room - 1))),
              wanted, line);
    }
}

/* Checks the line of a vector. Returns whether the row is one. */
static size_t check_vector(const char *row)
{
    char digits[80], wanted[200];
    uint8_t bytes[40];
    dwexpr_encoding encoding;
    const char *name;
    size_t length;
    if (!read_expression(row, &encoding, digits) || is_for_other_offsets(row))
        return 0;
    length = bytes_of(digits, bytes);
    name = dwexpr_opcode_name(bytes[0]);
    strcpy(wanted, name ? name : "fault");
    for (const char *at = field(row, "code") || !name ? "" : operands_of(name); *at; at++)
        add_field(wanted, *at, row, digits);
    check_line(encoding, bytes, length, wanted, 0);
    return 1;
}

static void put_number(uint8_t bytes[3], uint32_t number)
{
    bytes[0] = (uint8_t)(number | 0x80);
    bytes[1] = (uint8_t)(number >> 7 | 0x80);
    bytes[2] = (uint8_t)(number >> 14);
}

/* Each register, and blocks of many lengths, are shown whole. */
static void check_long_lines(void)
{
    static uint8_t bytes[70010];
    static char wanted[3 * sizeof bytes + 100];
    size_t end;
    memset(bytes, 0xab, sizeof bytes);
    for (uint32_t number = 0; number <= 0xffff; number++) {
        bytes[0] = 0x90; /* DW_OP_regx */
        put_number(bytes + 1, number);
        end = (size_t)snprintf(wanted, sizeof wanted, "DW_OP_regx %u", (unsigned)number);
        check_line(LE8, bytes, 4, wanted, end + 1);
    }
    for (uint32_t length = 0; length < 70000; length += 1 + length / 16) {
        end = (size_t)snprintf(wanted, sizeof wanted, "DW_OP_implicit_value %u byte block:", (unsigned)length);
        for (uint32_t i = 0; i < length; i++, end += 3)
            strcpy(wanted + end, " ab");
        bytes[0] = 0x9e; /* DW_OP_implicit_value */
        put_number(bytes + 1, length);
        check_line(LE8, bytes, 4 + length, wanted, end + 1);
    }
}

int main(int argc, char **argv)
{
    static char row[1 << 12];
    size_t count = 0;
    if (argc < 4)
        return 2;
    check_line(LE8, (const uint8_t[]){0x06}, 1, "DW_OP_dup", sizeof "DW_OP_dup"); /* which is DW_OP_deref */
    expect_failure(0);
    check_names(argv[1], "dwexpr_code", dwexpr_code_name, codes, COUNT(codes));
    check_names(argv[1], "dwexpr_request", dwexpr_request_name, requests, COUNT(requests));
    check_names(argv[1], "dwexpr_piece_kind", dwexpr_piece_name, pieces, COUNT(pieces));
    for (FILE *file = opened(argv[2]); fgets(row, sizeof row, file);)
        count += check_vector(row);
    check(count > 1500, "vectors", "there are many");
    for (int i = 3; i < argc; i++)
        check_opcodes(argv[i], i == 3);
    check_long_lines();
    return finish();
}
