/* Structures and arrays of C, as examples/where.c has to print them. */
#include "stop.h"

#ifdef __clang__ /* which has no other order */
#define SWAPPED
#else
#define SWAPPED __attribute__((scalar_storage_order("big-endian")))
#endif

struct SWAPPED swapped {
    unsigned a : 4, b : 12;
    int c;
};

struct held {
    union {
        int whole;
        float real;
    };
    int low : 3, high : 5;
    short table[2][3];
    struct held *next;
    enum { RED, BLUE = 200 } color;
    _Bool is_set;
};

int main(void)
{
    struct swapped swapped = {9, 11, -5};
    struct held held = {.real = 1.5f, .low = -2, .high = 7, .table = {{1, 2, 3}, {4, 5, -6}}, .color = BLUE,
                        .is_set = 1};
    __asm__ volatile("ud2");
    USE(&swapped);
    USE(&held);
}
