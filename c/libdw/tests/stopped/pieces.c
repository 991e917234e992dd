/* Variables in several pieces, bit fields, vectors, thread-local storage, values on entry, and callers' variables. Its
 * first word says where it stops. */
#include <stdint.h>

#include "../stop.h"

struct flags {
    unsigned low : 3, middle : 7, high : 13;
    int sign : 5;
    uint64_t wide : 40;
    unsigned char last : 1;
};
struct pair { long first, second; };
struct mixed { double number; long whole; };
struct nested { struct pair pair; struct mixed mixed; short tail[3]; };
typedef int vector __attribute__((vector_size(16)));
typedef float floats __attribute__((vector_size(16)));

static _Thread_local long counted = 40;
static _Thread_local struct pair kept = {1, 2};

__attribute__((noinline)) static int fields(struct flags given, int more)
{
    struct flags changed = given;
    changed.low += (unsigned)more;
    changed.sign = -more;
    changed.wide <<= 3;
    STOP(1);
    struct flags small = {.low = (unsigned)more, .high = 99};
    int sum = (int)(changed.low + small.high + given.middle);
    STOP(2);
    return sum + changed.sign + (int)changed.wide;
}

__attribute__((noinline)) static long registers(struct pair both, struct mixed other)
{
    struct pair turned = {both.second, both.first};
    struct mixed doubled = {2 * other.number, other.whole + 1};
    STOP(3);
    USE(turned.first);
    USE(turned.second);
    USE(doubled.whole);
    struct nested all = {turned, doubled, {1, 2, 3}};
    STOP(4);
    struct pair half = {all.pair.first, 0};
    STOP(5);
    return half.first + all.tail[1] + (long)doubled.number;
}

__attribute__((noinline)) static double vectors(vector a, floats b, double c, float d)
{
    vector sum = a + (vector){1, 2, 3, 4};
    floats product = b * b;
    double quotient = c / 3;
    STOP(6);
    float half = d / 2;
    STOP(7);
    return sum[0] + sum[3] + product[2] + quotient + half;
}

__attribute__((noinline)) static long threads(long more)
{
    static _Thread_local int calls = 3;
    static _Thread_local struct pair last;
    static struct pair shared = {70, 71};
    calls += (int)more;
    counted += calls;
    shared.second += calls;
    STOP(8);
    last = (struct pair){counted, kept.second};
    STOP(9);
    return last.first + calls;
}

static inline long innermost(long n, const long *place)
{
    long cube = n * n * n;
    STOP(10);
    return cube + *place;
}

static inline long middle(long n)
{
    long square = n * n, local = square - 1;
    { long inner = square + 7; STOP(11); square += innermost(inner, &local); }
    STOP(12);
    return square;
}

__attribute__((noinline)) static long outermost(long n)
{
    long twice = 2 * n;
    long result = middle(twice);
    STOP(13);
    return result;
}

__attribute__((noinline)) static long entry(long given, long other, int third)
{
    USE(given);
    given = other;
    third = (int)other;
    STOP(14);
    USE(third);
    other = 0;
    STOP(15);
    return given + other;
}

__attribute__((noinline)) static long calls(long a, int b)
{
    long kept_here = a * 3, sum = entry(a, a + 5, b);
    STOP(16);
    sum += entry(7, sum, 9);
    return sum + kept_here;
}

__attribute__((noinline)) static long deeper(long n, long step)
{
    long before = n * step;
    struct pair here = {n, step};
    long below = n > 0 ? deeper(n - 1, step + 1) : calls(step, (int)before);
    USE(before);
    STOP(17);
    return below + before + here.second;
}

__attribute__((noinline)) static long by_pointer(long (*function)(long, int), long n)
{
    long local = n + 100;
    long result = function(n, 4);
    USE(local);
    return result + local;
}

int main(int argc, char **argv)
{
    long total = 0;
    at = argc > 1 ? atoi(argv[1]) : 0;
    total += fields((struct flags){5, 100, 5000, -7, 1ull << 35, 1}, argc);
    total += registers((struct pair){argc, 11}, (struct mixed){argc / 4.0, 12});
    total += (long)vectors((vector){argc, 2, 3, 4}, (floats){0.5f, 1, 1.5f, 2}, argc, 8);
    total += threads(argc);
    total += outermost(argc + 1);
    total += deeper(3, argc);
    total += by_pointer(calls, argc);
    STOP(18);
    return total == 1;
}
