/* Checks that each block of a request or a piece is shown where it was read, though the same bytes are elsewhere too:
 * at each place, in each text and after each branch up to 70,000, and then near each power of two. made_up.c has texts
 * that call each other. */
#define _DEFAULT_SOURCE
#include <sys/mman.h>

#include "check.h"

/* The size of a text, and of a table of texts. Their bytes are zero, and nearly all of them are never touched. */
#define ROOM ((size_t)1 << (sizeof(size_t) == 8 ? 32 : 28))
static uint8_t *room;
static dwexpr_text *table;
static uint64_t memory[DWEXPR_EVALUATION_SIZE / 8];
static dwexpr_evaluation held = {memory};

/* The place of a block whose length takes five bytes. */
enum { FRONT = 6 };

static void *reserved(void)
{
    void *zeros = mmap(NULL, ROOM + 8, PROT_READ | PROT_WRITE, MAP_PRIVATE | MAP_ANONYMOUS | MAP_NORESERVE, -1, 0);
    if (zeros == MAP_FAILED) {
        perror("blocks");
        exit(2);
    }
    return zeros;
}

/* The number to try after this one. */
static size_t after(size_t number)
{
    size_t power = 1;
    while (power < number)
        power *= 2;
    return number < 70000 || number + 1 >= power ? number + 1 : power - 1;
}

/* Writes an operation with a block of this many zero bytes, and then more bytes. Returns where the block ends. */
static size_t put_front(uint8_t opcode, size_t length, const char *digits)
{
    room[0] = opcode;
    for (size_t i = 0; i < 5; i++)
        room[1 + i] = (uint8_t)((length >> (7 * i) & 0x7f) | (i < 4 ? 0x80 : 0));
    bytes_of(digits, room + FRONT + length);
    return FRONT + length;
}

/* Whether table[0] asks for this block or, once it is complete, has it in its last piece. It may call a text. */
static int is_shown(size_t called, size_t offset, size_t length)
{
    static dwexpr_piece pieces[2];
    const dwexpr_answer location = {DWEXPR_ANSWER_LOCATION, 0, 0, called};
    const dwexpr_settings settings = {.max_iterations = UINT32_MAX};
    dwexpr_outcome outcome;
    const dwexpr_piece *last;
    dwexpr_evaluation_evaluate(&held, table, called + 1, LE8, &settings, &outcome, pieces, 2);
    if (called)
        dwexpr_evaluation_resume(&held, table, called + 1, location, &outcome, pieces, 2);
    if (outcome.request == DWEXPR_WANTS_ENTRY_VALUE)
        return outcome.block_text == called && outcome.block_offset == offset && outcome.block_length == length;
    last = &pieces[outcome.pieces > 1];
    return outcome.request == DWEXPR_COMPLETE && outcome.pieces && last->block_text == called &&
           last->block_offset == offset && last->block_length == length;
}

/* A block at the end of a text, and one that is nearly all of it. A piece's bytes are compared one by one, so there are
 * fewer long ones. */
static size_t try_places(void)
{
    size_t wrong = 0;
    for (size_t length = 16; length < ROOM; length = after(length)) {
        const size_t front = length - FRONT - 6, end = put_front(0x9e, front, "9301a302");
        table[0].length = length;
        wrong += !is_shown(0, length - 2, 2);
        if (length < 10000 || (length < ROOM / 32 && (length % 10 == 0 || length > 70000))) {
            bytes_of("93019e0200009301", room + end);
            table[0].length = length + 2;
            wrong += !is_shown(0, length - 2, 2);
            table[0].length = end + 2;
            wrong += !is_shown(0, FRONT, front);
            table[0].length = put_front(0xa3, front, "");
            wrong += !is_shown(0, FRONT, front);
        }
        memset(room + end, 0, 8);
    }
    return wrong;
}

/* A block after a branch that doesn't lead into itself. */
static size_t try_branches(void)
{
    size_t wrong = 0;
    for (int distance = INT16_MIN; distance <= INT16_MAX; distance += distance == -12 ? 12 : 1)
        for (int is_conditional = 0; is_conditional < 2; is_conditional++) {
            size_t at = distance < 0 ? put_front(0x9e, 40000, "9301") + 2 : 0, target;
            at += bytes_of(is_conditional ? "3128" : "2f", room + at);
            room[at++] = (uint8_t)distance;
            room[at++] = (uint8_t)((unsigned)distance >> 8);
            target = at + (size_t)distance;
            bytes_of("a302", room + target);
            table[0].length = target + 4 > at ? target + 4 : at;
            wrong += !is_shown(0, target + 2, 2);
            memset(room + target, 0, 2);
        }
    memset(room, 0, 80000);
    return wrong;
}

/* A block at each of many offsets in each of many called texts, which have the same bytes elsewhere. */
static size_t try_offsets(void)
{
    static uint8_t bytes[100100];
    size_t wrong = 0;
    memset(bytes, 0x96, sizeof bytes);
    for (size_t index = 1; index < 200; index += 1 + index / 40)
        for (size_t offset = 3; offset < 100000; offset += 1 + offset / 16 + index % 3) {
            bytes_of("a302", bytes + offset - 2);
            table[index].bytes = bytes, table[index].length = offset + 2;
            wrong += !is_shown(index, offset, 2);
            bytes_of("9696", bytes + offset - 2);
        }
    return wrong;
}

/* A block in a text that is called. */
static size_t try_texts(void)
{
    static const uint8_t piece[] = {0x9e, 2, 0, 0, 0x93, 1};
    const size_t end = put_front(0x9e, 100000, "9301a302") + 4;
    size_t wrong = 0;
    for (size_t index = 1; index < ROOM / sizeof *table; index = after(index)) {
        table[index].bytes = piece, table[index].length = sizeof piece;
        wrong += !is_shown(index, 2, 2);
        table[index].bytes = room, table[index].length = end + 2;
        wrong += !is_shown(index, end, 2);
    }
    return wrong;
}

int main(void)
{
    static const uint8_t call[] = {0x99, 0, 0, 0, 0};
    dwexpr_evaluation_begin(&held);
    room = reserved(), table = reserved();
    table[0].bytes = room;
    check(!try_places(), "places", "each block is where it was read");
    check(!try_branches(), "branches", "each block is where it was read");
    table[0].bytes = call, table[0].length = sizeof call;
    check(!try_offsets(), "offsets in called texts", "each block is where it was read");
    check(!try_texts(), "called texts", "each block is where it was read");
    return finish();
}
