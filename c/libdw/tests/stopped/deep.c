/* Many frames, and a parameter that goes through all of them. Its argument says where it stops. */
#include "../stop.h"

__attribute__((noinline)) static long handed(int n, long given)
{
    long result;
    if (n)
        result = handed(n - 1, given + 1);
    else {
        STOP(1);
        result = 3;
    }
    USE(result);
    return result;
}

__attribute__((noinline)) static long deep(int n, long step)
{
    long before = n * step, below;
    if (n)
        below = deep(n - 1, step + 1);
    else {
        STOP(2);
        below = 4;
    }
    USE(before);
    return below + before;
}

int main(int argc, char **argv)
{
    at = argc > 1 ? atoi(argv[1]) : 0;
    long total = handed(100, argc * 1000);
    total += deep(300, argc);
    USE(total);
    return 0;
}
