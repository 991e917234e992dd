/* A function without call frame information, between two that have it. */
#include "stop.h"

long without_rules(long given);
__asm__(".text\n"
        ".type without_rules, @function\n"
        "without_rules:\n"
        "    subq $8, %rsp\n"
        "    movl $99, %ebx\n"
        "    call with_rules\n"
        "    addq $8, %rsp\n"
        "    ret\n"
        ".size without_rules, .-without_rules\n");

long with_rules(long given);
__attribute__((noinline)) long with_rules(long given)
{
    long twice = 2 * given;
    __asm__ volatile("ud2" : : "g"(twice) : "memory");
    return twice;
}

int main(int argc, char **argv)
{
    long kept = argc + 40;
    register long in_rbx __asm__("rbx") = argc + 50;
    (void)argv;
    __asm__ volatile("" : "+r"(in_rbx));
    kept += without_rules(argc);
    __asm__ volatile("" : : "r"(in_rbx));
    return kept == 0;
}
