/* The frames of a signal's handler, of the system's call that it interrupts, and of tail calls. Its argument says where
 * it stops. */
#include <signal.h>
#include <unistd.h>

#include "../stop.h"

static void on_signal(int number)
{
    int twice = 2 * number;
    STOP(1);
    STOP(2);
    USE(twice);
}

/* rax, rcx, rdx, rsi and an xmm register hold variables when the signal comes */
__attribute__((noinline)) static long interrupted(long a, long b, double c)
{
    register long in_rax __asm__("rax") = a + 40;
    register long in_rcx __asm__("rcx") = b + 50;
    register double in_xmm __asm__("xmm5") = c + 0.5;
    long zero = a - b - 1;
    __asm__ volatile("" : "+r"(in_rax), "+r"(in_rcx), "+x"(in_xmm));
    if (at == 1)
        __asm__ volatile("movl $0, 0" : "+r"(in_rax), "+r"(in_rcx), "+x"(in_xmm) : : "memory");
    __asm__ volatile("" : : "r"(in_rax), "r"(in_rcx), "x"(in_xmm));
    return zero + in_rax;
}

__attribute__((noinline)) static long waits(int file, long more)
{
    char bytes[16];
    long count = read(file, bytes, sizeof bytes);
    USE(count);
    return count + more;
}

/* the caller calls `first`, which jumps to `last`; both have a parameter in the same register */
__attribute__((noinline)) static long last(long given, long other)
{
    USE(given);
    USE(other);
    FORGET;
    STOP(3);
    return at;
}

__attribute__((noinline)) static long first(long given, long other)
{
    return last(other + 1, given + 2);
}

__attribute__((noinline)) static long calls(long n)
{
    long result = first(n * 10, n * 20);
    USE(result);
    return result + n;
}

/* each calls the other by a tail call, so the values that main passed aren't those on entry any more */
__attribute__((noinline)) static long odd(long n, long sum);
__attribute__((noinline)) static long even(long n, long sum)
{
    USE(n);
    if (n)
        return odd(n - 1, sum + 3);
    FORGET;
    STOP(5);
    return at;
}

__attribute__((noinline)) static long odd(long n, long sum)
{
    USE(sum);
    return even(n - 1, sum + 5);
}

/* a call may change rax, and the caller keeps nothing in it */
__attribute__((noinline)) static long returns(long n)
{
    long sum = n + 8;
    STOP(4);
    return sum;
}

int main(int argc, char **argv)
{
    int files[2];
    long total = 0;
    at = argc > 1 ? atoi(argv[1]) : 0;
    signal(SIGSEGV, on_signal);
    signal(SIGALRM, on_signal);
    total += interrupted(argc + 1, argc, argc / 4.0);
    if (at == 2 && !pipe(files)) {
        alarm(1);
        total += waits(files[0], argc);
    }
    total += calls(argc);
    total += returns(total);
    total += even(4, argc);
    USE(total);
    return 0;
}
