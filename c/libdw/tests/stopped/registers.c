/* Variables in registers of each kind, atomic ones, characters, and thread-local storage with an alignment. Its
 * argument says where it stops. */
#include <stdatomic.h>

#include "../stop.h"

typedef long wide __attribute__((vector_size(32)));

__attribute__((noinline)) static double vectors(double given)
{
    register double in_8 __asm__("xmm8") = given + 8;
    register double in_9 __asm__("xmm9") = given + 9;
    register double in_14 __asm__("xmm14") = given + 14;
    register double in_15 __asm__("xmm15") = given + 15;
    __asm__ volatile("" : "+x"(in_8), "+x"(in_9), "+x"(in_14), "+x"(in_15));
    STOP(1);
    __asm__ volatile("" : : "x"(in_8), "x"(in_9), "x"(in_14), "x"(in_15));
    return in_8 + in_9 + in_14 + in_15;
}

__attribute__((noinline, target("avx"))) static long wides(long given)
{
    register wide in_3 __asm__("ymm3") = {given, given + 1, given + 2, given + 3};
    register wide in_12 __asm__("ymm12") = {given + 4, -given, given + 6, given + 7};
    __asm__ volatile("" : "+x"(in_3), "+x"(in_12));
    STOP(2);
    __asm__ volatile("" : : "x"(in_3), "x"(in_12));
    return in_3[0] + in_12[1];
}

__attribute__((noinline)) static int characters(signed char a, unsigned char b, char c)
{
    signed char negative = (signed char)(a - 100);
    unsigned char large = (unsigned char)(b + 200);
    _Atomic int counted = a + 5;
    _Atomic const signed char letter = -3;
    volatile const char plain = c;
    const long double literal = 2.5L;
    _Bool is_set = a > 0;
    STOP(3);
    USE(negative);
    USE(large);
    USE(is_set);
    return counted + letter + plain + (int)literal;
}

__attribute__((noinline)) static long local_storage(long n)
{
    static _Thread_local char small = 'a';
    static _Thread_local long aligned __attribute__((aligned(64))) = 77;
    static _Thread_local char last = 'z';
    small += 1;
    aligned += n;
    last -= 1;
    STOP(4);
    return aligned + small;
}

__attribute__((noinline)) static long arrays(int n)
{
    int varying[n + 2];
    short fixed[2][3] = {{1, 2, 3}, {4, 5, (short)n}};
    int i;
    for (i = 0; i < n + 2; i++)
        varying[i] = i * n;
    STOP(5);
    USE(varying);
    USE(fixed);
    return varying[n] + fixed[1][2];
}

int main(int argc, char **argv)
{
    long total;
    at = argc > 1 ? atoi(argv[1]) : 0;
    total = (long)vectors(argc / 2.0);
    total += __builtin_cpu_supports("avx") ? wides(argc) : 0;
    total += characters((signed char)argc, (unsigned char)argc, (char)argc);
    total += local_storage(argc) + arrays(argc);
    STOP(6);
    return total & 1;
}
