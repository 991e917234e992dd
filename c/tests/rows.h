/* Rows of the repository's JSON files, each of which is a line, and the names of the header's numbers. */
#ifndef ROWS_H
#define ROWS_H

#include "check.h"

/* Opens a file, which has to exist. */
static inline FILE *opened(const char *path)
{
    FILE *file = path ? fopen(path, "r") : NULL;
    if (!file) {
        perror(path ? path : "a path is missing");
        exit(2);
    }
    return file;
}

/* The value of a member of a row; NULL if the row doesn't have the member. */
static inline const char *field(const char *row, const char *name)
{
    char quoted[40];
    const char *at;
    snprintf(quoted, sizeof quoted, "\"%s\": ", name);
    at = strstr(row, quoted);
    return at ? at + strlen(quoted) : NULL;
}

/* The number of a member, or 0 without it. */
static inline uint64_t number_of(const char *row, const char *name)
{
    const char *at = field(row, name);
    return at ? strtoull(at, NULL, 10) : 0;
}

/* Compares how many rows of a kind there are with the number in tests/counts.json, so that none gets lost. */
static inline void check_count(const char *path, const char *kind, size_t count)
{
    char counts[400];
    FILE *file = opened(path);
    counts[fread(counts, 1, sizeof counts - 1, file)] = 0;
    fclose(file);
    check(count == number_of(counts, kind), kind, "as many as tests/counts.json says");
}

enum { LONGEST_TEXT = 1 << 19 };

/* Reads a string up to its end, and returns the place after it. */
static inline const char *read_string(const char *at, char **to)
{
    for (at++; *at != '"'; at++) {
        const char escaped = *at == '\\' ? *++at : 0;
        *(*to)++ = escaped == 'n' ? '\n' : escaped == 'r' ? '\r' : escaped == 't' ? '\t' : *at;
    }
    **to = 0;
    return at + 1;
}

/* Reads a text: a string, or a list of strings and of pairs of a string and how often it stands. Returns the place
 * after it; an empty string for anything else. */
static inline const char *read_text(const char *at, char *text)
{
    char *end = text, *after;
    *text = 0;
    if (*at == '"')
        return read_string(at, &end);
    if (*at != '[')
        return ""; /* bytes, as digits */
    for (at++; *at != ']'; at += strspn(at, ", ")) {
        const char *part = end;
        if (*at == '"') {
            at = read_string(at, &end);
            continue;
        }
        at = read_string(at + 1, &end) + strlen(", ");
        for (unsigned long times = strtoul(at, &after, 10), size = (unsigned long)(end - part); times > 1; times--) {
            memcpy(end, part, size);
            end += size;
        }
        *end = 0;
        at = after + 1;
    }
    return at + 1;
}

/* Whether a vector is about offsets of another width than this machine's. */
static inline int is_for_other_offsets(const char *row)
{
    return field(row, "bits") && number_of(row, "bits") != 8 * sizeof(size_t);
}

/* Reads the encoding and the digits of a row's words or of a vector. Returns whether it has such. */
static inline int read_expression(const char *row, dwexpr_encoding *encoding, char *digits)
{
    const char *at = field(row, "words");
    int address_size, offset_size, version;
    char spaced[40] = "", order[3];
    at += at != NULL;
    for (int i = 0; at && i < 5; i++) {
        at = read_text(at, digits);
        if (i)
            snprintf(spaced + strlen(spaced), sizeof spaced - strlen(spaced), "%.7s ", digits);
        at = *at == ',' ? at + 2 : NULL;
    }
    if (field(row, "in")) {
        read_text(field(row, "in"), spaced);
        at = field(row, "bytes");
    }
    if (!at || sscanf(spaced, "%1d %1d %1d %2s", &address_size, &offset_size, &version, order) != 4)
        return 0;
    read_text(at, digits);
    *encoding = encoding_of(address_size, offset_size, version, !strcmp(order, "be"));
    return 1;
}

/* The names that an enum of the header gives to its numbers, without a prefix. */
struct name {
    char text[40];
};

enum { NAMES = 100 };

static inline void read_names(const char *header, const char *of_enum, const char *prefix, struct name names[NAMES])
{
    FILE *file = opened(header);
    char line[200], entry[80];
    unsigned number;
    int is_within = 0;
    while (fgets(line, sizeof line, file)) {
        is_within = (is_within && line[0] != '}') || (!strncmp(line, "enum ", 5) && strstr(line, of_enum));
        if (!is_within || sscanf(line, "    %79[A-Z_0-9] = %u,", entry, &number) != 2 || number >= NAMES)
            continue;
        snprintf(names[number].text, sizeof names->text, "%.39s", entry + strlen(prefix));
    }
    fclose(file);
}

/* The word for a type. */
static inline const char *type_word(unsigned long long type)
{
    static const char *const words[] = {"none", "generic", "i8", "u8", "i16", "u16", "i32", "u32", "i64", "u64"};
    return words[type < COUNT(words) ? type : 0];
}

/* The type whose word stands at a place, up to a colon, a quotation mark or the end of a line; 0 if there is none. */
static inline uint32_t type_at(const char *at)
{
    const size_t length = strcspn(at, ":\"\r\n");
    uint32_t type = DWEXPR_U64;
    while (type && (strlen(type_word(type)) != length || strncmp(at, type_word(type), length)))
        type--;
    return type;
}

/* The number of the name that a member of a row has; 0 without the member. */
static inline uint32_t numbered(const char *row, const char *member, const struct name *names)
{
    const char *at = field(row, member);
    for (uint32_t number = 0; at && number < NAMES; number++) {
        const size_t length = strlen(names[number].text);
        if (length && !strncmp(at + 1, names[number].text, length) && at[1 + length] == '"')
            return number;
    }
    check(!at, member, "the header has it");
    return 0;
}

#endif
