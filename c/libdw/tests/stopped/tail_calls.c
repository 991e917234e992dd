/* Functions that were reached by tail calls of others, and by calls of addresses that are known after them, or not. */
#include "../stop.h"

#define APART __attribute__((noipa)) static

APART long last(long n)
{
    long sum = n + at;
    STOP(1);
    STOP(2);
    USE(sum);
    return sum;
}

APART long next(long n)
{
    long fixed = 7;
    FORGET;
    return last(n * 2 + fixed - 7);
}

APART long first(long n)
{
    FORGET;
    return next(n + 1);
}

APART long alone(long n)
{
    STOP(3);
    STOP(4);
    STOP(6);
    return n + 1;
}

APART long odd(long n);

/* They may have called each other. */
APART long even(long n)
{
    STOP(5);
    FORGET;
    return n > 100 ? odd(n - 1) : n;
}

APART long odd(long n)
{
    FORGET;
    return n > 100 ? even(n - 1) : n;
}

APART long either(long n)
{
    FORGET;
    return n > 100 ? last(n) : alone(n);
}

APART long calls(long n)
{
    return 3 * first(n);
}

APART long calls_even(long n)
{
    return 3 * even(n);
}

APART long calls_either(long n)
{
    return 3 * either(n);
}

APART long by_address(long n, long (*target)(long))
{
    long result = target(n) + 1;
    USE(target);
    return result;
}

static long (*volatile forgotten)(long) = alone;

APART long by_unknown(long n)
{
    return forgotten(n) + 1;
}

int main(int argc, char **argv)
{
    long result = 0;
    at = argc > 1 ? atoi(argv[1]) : 0;
    if (at == 1)
        result = calls(argc);
    else if (at == 2)
        result = by_address(argc, first);
    else if (at == 3)
        result = by_address(argc, alone);
    else if (at == 4)
        result = by_unknown(argc);
    else if (at == 5)
        result = calls_even(argc);
    else
        result = calls_either(argc);
    return result > argc;
}
