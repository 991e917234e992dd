/* Variables and functions of several modules: the library of ../library.c, and a second one that is opened.
 * Its argument says where it stops.
 * STOP(2) is in the library. */
#include <dlfcn.h>

#include "../stop.h"

extern int library_count;
extern _Thread_local int library_local;
extern long library_first(long given, long other);
int exchanged;
_Thread_local int own_local = 8;

__attribute__((noinline)) static long calls(long n)
{
    extern int library_count;
    extern _Thread_local int library_local;
    long result;
    library_count += (int)n;
    library_local += 5;
    STOP(1);
    exchanged = at;
    result = library_first(n * 10, n * 20);
    USE(result);
    return result + n + library_local;
}

int main(int argc, char **argv)
{
    void *second = dlopen("libsecond.so", RTLD_NOW);
    int *local = second ? (int *)dlsym(second, "library_local") : NULL;
    at = argc > 1 ? atoi(argv[1]) : 0;
    own_local += argc;
    if (local)
        *local = 66;
    return (int)calls(argc) + own_local;
}
