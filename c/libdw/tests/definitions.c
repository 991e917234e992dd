/* Types that are only declared here. definitions_a.c and definitions_b.c define them, `same` alike, and each of the
 * others in another way: by its size, its members' names, places, types or bits, or by elements of an array. */
#include "stop.h"

#define ALL(each) \
    each(node) each(named) each(placed) each(typed) each(narrow) each(counted) each(within) each(pointing) each(same) \
        each(only)
#define DECLARE(name) struct name;
#define TAKE(name) extern struct name name; USE(&name);

ALL(DECLARE)

int main(void)
{
    ALL(TAKE)
    __asm__ volatile("ud2");
}
