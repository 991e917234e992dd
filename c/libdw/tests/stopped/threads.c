/* Threads that wait while the first one stops. Its argument says where it stops. */
#define _GNU_SOURCE
#include <pthread.h>
#include <stdio.h>
#include <unistd.h>

#include "../stop.h"

static _Thread_local long own = 11;
static _Atomic pid_t ids[4];

__attribute__((noinline)) static long waits(long number, double half)
{
    long square = number * number;
    own += number;
    for (;;) {
        pause();
        USE(square);
        USE(half);
    }
    return square;
}

static void *begin(void *given)
{
    long number = (long)given;
    double half = (double)number / 2;
    ids[number - 3] = gettid();
    number = waits(number, half);
    return (void *)number;
}

/* Whether a thread sleeps: one that has said its id does so in `pause` alone. */
static int sleeps(pid_t thread)
{
    char path[64], state = 0;
    FILE *file;
    snprintf(path, sizeof path, "/proc/self/task/%d/stat", (int)thread);
    file = fopen(path, "r");
    if (file == NULL)
        return 0;
    if (fscanf(file, "%*d (%*[^)]) %c", &state) != 1)
        state = 0;
    fclose(file);
    return state == 'S';
}

int main(int argc, char **argv)
{
    pthread_t threads[4];
    long i, local = 5;
    at = argc > 1 ? atoi(argv[1]) : 0;
    for (i = 0; i < 4; i++)
        pthread_create(&threads[i], NULL, begin, (void *)(i + 3));
    for (i = 0; i < 4; i++)
        while (!sleeps(ids[i]))
            usleep(1000);
    own += local;
    STOP(1);
    USE(local);
    return 0;
}
