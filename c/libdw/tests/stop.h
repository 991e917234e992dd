/* What the programs in stopped/ share. */
#ifndef STOP_H
#define STOP_H

#include <stdlib.h>

/* The place where the program stops, by an invalid instruction; and a use of a variable. */
static volatile int at;
#define STOP(k) do { if (at == (k)) __asm__ volatile("ud2" : : : "memory"); } while (0)
#define USE(x) __asm__ volatile("" : : "g"(x) : "memory")
/* After this no register has a parameter any more. */
#define FORGET __asm__ volatile("" : : : "rdi", "rsi", "rax", "rdx", "rcx", "memory")

#endif
