/* Calls of bad pointers, and stacks that were overwritten. Its argument says which. */
#define _GNU_SOURCE /* MAP_ANONYMOUS */
#include <signal.h>
#include <string.h>
#include <sys/mman.h>

#include "stop.h"

static void (*volatile called)(int);

static void on_signal(int number)
{
    USE(number);
    __asm__ volatile("ud2");
}

__attribute__((noinline)) static void calls(int given)
{
    volatile int kept = given;
    called(given);
    USE(kept);
}

__attribute__((noinline)) static void overwrites(void)
{
    memset(__builtin_frame_address(0), 0, 256);
    __asm__ volatile("ud2");
}

/* leaves for an address that isn't one, though a return address is on top of the stack then */
__attribute__((noinline)) static void returns(void)
{
    __asm__ volatile("call 1f\n1: jmp 2f\n2: pushq %0\nret" : : "r"(0x1234567L) : "memory");
}

int main(int argc, char **argv)
{
    at = argc > 1 ? atoi(argv[1]) : 0;
    if (at != 4)
        signal(SIGSEGV, on_signal);
    if (at == 2)
        called = (void (*)(int))0x1234567;
    if (at == 3)
        overwrites();
    if (at == 5)
        returns();
    if (at == 6)
        called = (void (*)(int))(void *)&at;
    if (at == 7) { /* code that was made while it runs: ud2 */
        const int all = PROT_READ | PROT_WRITE | PROT_EXEC;
        void *made = mmap(NULL, 4096, all, MAP_PRIVATE | MAP_ANONYMOUS, -1, 0);
        memcpy(made, "\x0f\x0b", 2);
        called = (void (*)(int))made;
    }
    calls(argc);
    return 0;
}
