/* The calls on values and on types give what vectors say, and what evaluations give, and refuse all arguments that
 * aren't allowed: values DWEXPR.H COUNTS VALUES CALLS. */
#include "rows.h"

enum { ROUNDS = 20000, TYPES = DWEXPR_U64 + 1 };

static struct name codes[NAMES], kinds[NAMES];

/* What a call writes its result to. */
static const dwexpr_value garbage = {0xa5a5a5a5, 0xa5a5a5a5a5a5a5a5};
static dwexpr_value got;

/* The value that an expression leaves. It asks for the values in turn, and for the type. */
static uint32_t evaluate(const uint8_t *bytes, size_t length, dwexpr_encoding encoding, const dwexpr_value *values,
                         uint32_t value_type, dwexpr_value *result)
{
    static uint64_t memory[DWEXPR_EVALUATION_SIZE / 8];
    static const dwexpr_settings settings = {.max_iterations = 9};
    const dwexpr_text text = {bytes, length};
    dwexpr_evaluation evaluation = {memory};
    dwexpr_outcome outcome;
    dwexpr_piece piece = {0};
    uint32_t code;
    dwexpr_evaluation_begin(&evaluation);
    code = dwexpr_evaluation_evaluate(&evaluation, &text, 1, encoding, &settings, &outcome, &piece, 1);
    while (code == DWEXPR_OK && outcome.request != DWEXPR_COMPLETE) {
        dwexpr_answer answer = {DWEXPR_ANSWER_BASE_TYPE, value_type, 0, 0};
        if (outcome.request == DWEXPR_WANTS_ENTRY_VALUE) {
            answer.kind = DWEXPR_ANSWER_ENTRY_VALUE;
            answer.value_type = values->value_type;
            answer.number = values++->content;
        }
        code = dwexpr_evaluation_resume(&evaluation, &text, 1, answer, &outcome, &piece, 1);
    }
    result->value_type = piece.value_type;
    result->content = piece.number;
    return code;
}

static void compare(uint32_t code, uint32_t wanted_code, dwexpr_value wanted, const char *name)
{
    check(code == wanted_code && got.value_type == wanted.value_type && got.content == wanted.content, name,
          "the code and the value");
    got = garbage;
}

static uint32_t kind_of(uint8_t opcode)
{
    const uint8_t bytes[9] = {opcode};
    dwexpr_operation operation;
    dwexpr_decode(bytes, sizeof bytes, LE8, 0, &operation);
    return operation.kind;
}

static int is_unary(uint32_t kind)
{
    return kind == DWEXPR_OP_ABS || kind == DWEXPR_OP_NEG || kind == DWEXPR_OP_NOT;
}

static int is_binary(uint32_t kind)
{
    return (kind >= DWEXPR_OP_AND && kind <= DWEXPR_OP_MUL) || kind == DWEXPR_OP_OR || kind == DWEXPR_OP_PLUS ||
           (kind >= DWEXPR_OP_SHL && kind <= DWEXPR_OP_XOR) || (kind >= DWEXPR_OP_EQ && kind <= DWEXPR_OP_NE);
}

/* Made-up content: small, or near the ends of a type's range, with any bits above it. */
static uint64_t any_content(void)
{
    const uint64_t small = any() % 80 - 40, top = any() % 4 ? 0 : (uint64_t)0x80 << 8 * (any() % 8);
    return any() % 3 ? small + top : any();
}

/* Operations on made-up values of any types, with each size of an address. */
static void operations(void)
{
    for (int round = 0; round < ROUNDS; round++) {
        const int size = 1 + (int)(any() % 8), length = (int)(any() % 9);
        const dwexpr_encoding encoding = encoding_of(size, 4, 5, any() % 2);
        const uint64_t mask = UINT64_MAX >> (64 - 8 * size);
        const uint32_t type = 1 + (uint32_t)(any() % (TYPES - 1)), other = 1 + (uint32_t)(any() % (TYPES - 1));
        const dwexpr_value values[] = {{type, any_content()}, {any() % 4 ? type : other, any_content()}};
        const uint8_t opcode = (uint8_t)(0x19 + any() % 22), converts = (uint8_t)(0xa8 + any() % 2);
        const uint8_t binary[] = {0xa3, 0, 0xa3, 0, opcode, 0x9f}, conversion[] = {0xa3, 0, converts, 42, 0x9f};
        uint8_t literal[12] = {0xa4, 42, (uint8_t)length};
        dwexpr_value wanted;
        uint32_t code;
        if (is_unary(kind_of(opcode))) {
            code = evaluate(binary + 2, 4, encoding, values, 0, &wanted);
            compare(dwexpr_value_unary(kind_of(opcode), values[0], mask, &got), code, wanted, "one value");
        } else if (is_binary(kind_of(opcode))) {
            code = evaluate(binary, 6, encoding, values, 0, &wanted);
            compare(dwexpr_value_binary(kind_of(opcode), values[0], values[1], mask, &got), code, wanted,
                    "two values");
        }
        code = evaluate(conversion, 5, encoding, values, other, &wanted);
        compare(dwexpr_value_convert(kind_of(converts), values[0], other, mask, &got), code, wanted, "conversion");
        for (int i = 0; i < length; i++)
            literal[3 + i] = (uint8_t)any();
        literal[3 + length] = 0x9f;
        code = evaluate(literal, 4 + (size_t)length, encoding, NULL, other, &wanted);
        compare(dwexpr_value_parse(other, length ? literal + 3 : NULL, (size_t)length, encoding.big_endian, &got),
                code, wanted, "bytes");
    }
}

/* ---- vectors */

/* A member's value; of no type without the member. */
static dwexpr_value value_in(const char *row, const char *member)
{
    const char *at = field(row, member);
    dwexpr_value value = {0};
    if (at) {
        value.value_type = type_at(at + 1);
        value.content = strtoull(strchr(at, ':') + 1, NULL, 10);
    }
    return value;
}

/* Makes the call on values that a vector has the arguments of. */
static void try_values(const char *row)
{
    const dwexpr_value left = value_in(row, "left");
    const uint32_t kind = numbered(row, "kind", kinds), type = field(row, "type") ? type_at(field(row, "type") + 1) : 0;
    const uint64_t mask = number_of(row, "mask");
    uint8_t bytes[8];
    uint32_t code;
    if (field(row, "bytes"))
        code = dwexpr_value_parse(type, bytes, bytes_of(field(row, "bytes") + 1, bytes), 0, &got);
    else if (type)
        code = dwexpr_value_convert(kind, left, type, mask, &got);
    else if (field(row, "right"))
        code = dwexpr_value_binary(kind, left, value_in(row, "right"), mask, &got);
    else
        code = dwexpr_value_unary(kind, left, mask, &got);
    compare(code, numbered(row, "code", codes), value_in(row, "value"), row);
}

/* Makes another call, if the library has it. */
static void try_call(const char *row)
{
    char call[40], wanted[40];
    const char *answer = wanted;
    read_text(field(row, "call"), call);
    read_text(field(row, "answer"), wanted);
    if (!strcmp(call, "is_addr_mask"))
        answer = dwexpr_type_bit_size(DWEXPR_I8, number_of(row, "mask")) ? "true" : "false";
    if (!strcmp(call, "from_encoding"))
        answer = type_word(dwexpr_type_from_encoding((uint8_t)number_of(row, "encoding"), number_of(row, "size")));
    check(!strcmp(answer, wanted), row, "the answer");
}

static void vectors(char **paths)
{
    static const struct {
        const char *kind;
        void (*attempt)(const char *row);
    } all[] = {{"values", try_values}, {"calls", try_call}};
    char row[400];
    for (size_t i = 0; i < COUNT(all); i++) {
        FILE *file = opened(paths[3 + i]);
        size_t count = 0;
        while (fgets(row, sizeof row, file))
            if (row[0] == '{') {
                all[i].attempt(row);
                count++;
            }
        fclose(file);
        check_count(paths[2], all[i].kind, count);
    }
}

static void is_refused(int is_bad, uint32_t code, const char *name)
{
    check((code == DWEXPR_BAD_VALUE) == is_bad, name, "whether it is refused");
    check(!is_bad || (got.value_type == DWEXPR_NO_TYPE && got.content == 0), name, "no value");
    got = garbage;
}

/* Each call with a number that isn't allowed, and with those that are. */
static void refusals(void)
{
    static const dwexpr_value value = {DWEXPR_U8, 1};
    static const uint8_t bytes[8] = {0};
    for (int i = 0; i < 132; i++) {
        const uint32_t number = i < 100 ? (uint32_t)i : (uint32_t)1 << (i - 100);
        const int is_type = number >= DWEXPR_GENERIC && number <= DWEXPR_U64;
        const dwexpr_value of_type = {number, 1};
        is_refused(!is_unary(number), dwexpr_value_unary(number, value, 1, &got), "a kind for one value");
        is_refused(!is_binary(number), dwexpr_value_binary(number, value, value, 1, &got), "a kind for two values");
        is_refused(number != DWEXPR_OP_CONVERT && number != DWEXPR_OP_REINTERPRET,
                   dwexpr_value_convert(number, value, DWEXPR_I8, 1, &got), "a kind for a conversion");
        is_refused(!is_type, dwexpr_value_unary(DWEXPR_OP_NOT, of_type, 1, &got), "a type");
        is_refused(!is_type, dwexpr_value_binary(DWEXPR_OP_OR, of_type, value, 1, &got), "the left type");
        is_refused(!is_type, dwexpr_value_binary(DWEXPR_OP_OR, value, of_type, 1, &got), "the right type");
        is_refused(!is_type, dwexpr_value_convert(DWEXPR_OP_CONVERT, of_type, DWEXPR_I8, 1, &got), "the type before");
        is_refused(!is_type, dwexpr_value_convert(DWEXPR_OP_CONVERT, value, number, 1, &got), "the type after");
        is_refused(!is_type, dwexpr_value_parse(number, bytes, 8, 0, &got), "the type of bytes");
        if (number < 256)
            is_refused(number > 1, dwexpr_value_parse(DWEXPR_U8, bytes, 8, (uint8_t)number, &got), "a byte order");
    }
}

/* The masks of each number of bits, and others. */
static void masks(void)
{
    for (uint32_t bits = 0; bits <= 64; bits++) {
        const uint64_t good = bits ? UINT64_MAX >> (64 - bits) : 0, others[] = {good << 1, good ^ 2, good | 1};
        for (size_t i = 0; i < COUNT(others); i++) {
            const uint64_t mask = others[i];
            const int is_bad = !mask || (mask & (mask + 1)) != 0;
            const dwexpr_value value = {DWEXPR_GENERIC, 5};
            is_refused(is_bad, dwexpr_value_unary(DWEXPR_OP_NOT, value, mask, &got), "a mask for one value");
            is_refused(is_bad, dwexpr_value_binary(DWEXPR_OP_OR, value, value, mask, &got), "a mask for two values");
            is_refused(is_bad, dwexpr_value_convert(DWEXPR_OP_CONVERT, value, DWEXPR_I8, mask, &got),
                       "a mask for a conversion");
            check((dwexpr_type_bit_size(DWEXPR_I8, mask) == 0) == is_bad, "a mask for a size", "it");
        }
        check(dwexpr_type_bit_size(DWEXPR_GENERIC, good) == bits, "the size of the generic type", "it");
    }
}

static void types(void)
{
    for (uint32_t type = 0; type < 100; type++)
        check(dwexpr_type_bit_size(type, 1) == (type == DWEXPR_GENERIC ? 1
                                                : type == DWEXPR_NO_TYPE || type > DWEXPR_U64 ? 0
                                                                                             : 4u << type / 2),
              "the size of a type", "it");
}

int main(int argc, char **argv)
{
    if (argc < 5)
        return 2;
    got = garbage;
    read_names(argv[1], "dwexpr_code", "DWEXPR_", codes);
    read_names(argv[1], "dwexpr_operation_kind", "DWEXPR_OP_", kinds);
    vectors(argv);
    operations();
    refusals();
    masks();
    types();
    return finish();
}
