/* Prints the operations of an expression, each with its DW_OP_ name and its operands, much as readelf does.
 *
 *     cc decode.c $(pkg-config --cflags --libs dwexpr) -o decode
 *     ./decode 8 4 5 le 916c0623109f
 *
 * The words are the size of an address, the size of an offset, the version of DWARF, le or be, and the bytes. */
#include <stdlib.h>
#include <string.h>

#include "dwexpr_names.h"

/* Returns 0, or the code of the first fault. The depth counts the entry values around the expression. */
static uint32_t print_expression(const uint8_t *bytes, size_t length, dwexpr_encoding encoding, int depth)
{
    dwexpr_operation op;
    size_t at;
    for (at = 0; at < length; at += op.size) {
        uint32_t code = dwexpr_decode(bytes, length, encoding, at, &op);
        char *line;
        size_t size;
        if (code) {
            const char *name = dwexpr_code_name(code);
            printf("%*s%zu fault: %s (%" PRIu64 ")\n", 2 * depth, "", at, name ? name : "?", op.detail);
            return code;
        }
        size = dwexpr_operation_line(NULL, 0, bytes, &op) + 1;
        line = malloc(size);
        if (!line)
            abort();
        dwexpr_operation_line(line, size, bytes, &op);
        printf("%*s%zu %s\n", 2 * depth, "", at, line);
        free(line);
        if (op.kind == DWEXPR_OP_ENTRY_VALUE) {
            dwexpr_text block = dwexpr_operation_block(&op, bytes);
            code = print_expression(block.bytes, block.length, encoding, depth + 1);
            if (code)
                return code;
        }
    }
    return DWEXPR_OK;
}

int main(int argc, char **argv)
{
    static uint8_t bytes[1 << 16];
    size_t length = 0;
    const char *digits;
    dwexpr_encoding encoding;
    if (argc != 6 || (strcmp(argv[4], "le") && strcmp(argv[4], "be"))) {
        fprintf(stderr, "usage: %s ADDRESS_SIZE OFFSET_SIZE VERSION le|be HEX\n", argv[0]);
        return 2;
    }
    encoding = (dwexpr_encoding){(uint8_t)atoi(argv[1]), (uint8_t)atoi(argv[2]), !strcmp(argv[4], "be"),
                                 (uint8_t)atoi(argv[3])};
    for (digits = argv[5]; digits[0] && digits[1] && length < sizeof bytes; digits += 2) {
        char two[3] = {digits[0], digits[1], 0};
        bytes[length++] = (uint8_t)strtoul(two, NULL, 16);
    }
    return print_expression(bytes, length, encoding, 0) != DWEXPR_OK;
}
