/* A program whose first function has no call frame information. */
void begin(void);
void begin(void)
{
    __asm__ volatile("ud2");
}

__asm__(".text\n.globl _start\n.type _start, @function\n_start: call begin\n.size _start, .-_start\n");
