/* Functions within functions, constants that aren't numbers, and variables that are only declared. Its argument says
 * where it stops. */
#include <stdlib.h>

#include "../stop.h"

int global = 77;
extern char **environ;

/* The frames of `outer` are several, and `inner` was called by the last of them, or by one before it. */
__attribute__((noinline)) static int outer(int n, int (*given)(int))
{
    int kept = n * 3;
    volatile int other = 6;
    __attribute__((noinline)) int inner(int more)
    {
        int here = more + kept;
        __attribute__((noinline)) int innermost(int most)
        {
            int deep = most + here + other;
            STOP(1);
            USE(deep);
            return deep;
        }
        STOP(2);
        kept += innermost(here);
        return here;
    }
    int result = n > 2 ? outer(n - 1, n == 4 ? inner : given) + inner(n) : given(n);
    STOP(3);
    return result + kept + other;
}

static inline int stepped(int n)
{
    static int steps = 5;
    int never = n * 77;
    steps += n;
    STOP(4);
    return steps;
}

__attribute__((noinline)) static int constants(int n)
{
    static const char text[] = "abc";
    const __int128 small = -5;
    const unsigned __int128 large = (unsigned __int128)3 << 90;
    extern int global;
    extern char **environ;
    extern int nowhere;
    const char *first = text;
    USE(text[n]);
    STOP(5);
    return n + (int)small + (int)(large >> 90) + *first + global + (environ != NULL) + stepped(n);
}

/* gcc moves the call of `abort` into a part of its own, here and in `main` */
__attribute__((noinline)) static long parted(long given, long other)
{
    if (given == 70)
        abort();
    USE(other);
    FORGET;
    STOP(7);
    return at;
}

__attribute__((noinline)) static long calls(long n)
{
    long result;
    if (n == 7)
        abort();
    result = parted(n * 10, n * 20);
    USE(result);
    return result + n;
}

int main(int argc, char **argv)
{
    int total;
    at = argc > 1 ? atoi(argv[1]) : 0;
    if (argc == 7)
        abort();
    total = outer(4, NULL) + constants(argc) + (int)calls(argc);
    STOP(6);
    return total == 0;
}
