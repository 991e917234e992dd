/* Stops in a function of the C library, which has none of the variables that are asked for. */
#include <signal.h>

int main(void)
{
    volatile int answer = 42;
    return raise(SIGILL) == answer;
}
