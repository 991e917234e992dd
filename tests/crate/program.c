/* It prints what the example says of its variables in a frame whose canonical frame address is 100000000000 in
   hexadecimal. The place of a local variable is told from that of its own frame. */
#include <stdio.h>

#define PLACE(variable) ((unsigned long)&variable - (unsigned long)__builtin_dwarf_cfa() + 0x100000000000)

int global = 5;
static long hidden[3];

int main(void) {
    volatile int local = 1;
    struct { int one, two; } both = {local, 2};
    printf("global: at %#lx\n", (unsigned long)&global);
    printf("hidden: at %#lx\n", (unsigned long)hidden);
    printf("local: at %#lx\n", PLACE(local));
    printf("both: at %#lx\n", PLACE(both));
    return both.one - 1 + (int)hidden[0];
}
