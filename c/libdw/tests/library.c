/* The library that stopped/modules.c uses. */
#include "stop.h"

int library_count = 40;
_Thread_local int library_local = 41;
__attribute__((visibility("hidden"))) int library_hidden = 43;
static int library_static = 42;
extern int exchanged;

/* `library_first` leaves by a tail call, whose caller is in the program. */
__attribute__((noinline)) long library_last(long given, long other)
{
    USE(given);
    USE(other);
    FORGET;
    library_static += library_hidden;
    if (exchanged == 2)
        __asm__ volatile("ud2");
    library_local += library_static;
    return library_count;
}

long library_first(long given, long other)
{
    return library_last(other + 1, given + 2);
}
