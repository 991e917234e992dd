/* Refuses one call of a program: a library to load before the C library, by LD_PRELOAD. Each variable says which call
   of its kind is refused, counted from 1; if it isn't set, none is.
   - REFUSED_ALLOCATION: malloc and realloc, which then give no memory.
   - REFUSED_READ, REFUSED_WRITE: read and write, which then fail. Those before it move one byte at a time.
   REFUSED_WITH is the error that a read or a write fails with; 0 is none, and it moves no byte. */
#define _GNU_SOURCE
#include <errno.h>
#include <stddef.h>
#include <stdlib.h>
#include <sys/syscall.h>
#include <unistd.h>

/* The C library's own functions, under the names that it keeps for them. */
void *__libc_malloc(size_t size);
void *__libc_realloc(void *old, size_t size);

/* How many calls of a kind are left, with the one that is refused; 0 if none is refused any more. */
static unsigned long allocations, reads, writes;
static int failure;

static unsigned long number_in(const char *variable)
{
    const char *number = getenv(variable);
    return number ? strtoul(number, NULL, 10) : 0;
}

__attribute__((constructor)) static void begin(void)
{
    failure = (int)number_in("REFUSED_WITH");
    allocations = number_in("REFUSED_ALLOCATION");
    reads = number_in("REFUSED_READ");
    writes = number_in("REFUSED_WRITE");
}

static int is_refused(unsigned long *left, int error)
{
    if (*left == 0 || --*left != 0)
        return 0;
    errno = error;
    return 1;
}

static size_t moved(unsigned long left, size_t size)
{
    return left && size > 1 ? 1 : size;
}

void *malloc(size_t size)
{
    return is_refused(&allocations, ENOMEM) ? NULL : __libc_malloc(size);
}

void *realloc(void *old, size_t size)
{
    return is_refused(&allocations, ENOMEM) ? NULL : __libc_realloc(old, size);
}

ssize_t read(int file, void *bytes, size_t size)
{
    return is_refused(&reads, failure) ? -(failure != 0) : syscall(SYS_read, file, bytes, moved(reads, size));
}

ssize_t write(int file, const void *bytes, size_t size)
{
    return is_refused(&writes, failure) ? -(failure != 0) : syscall(SYS_write, file, bytes, moved(writes, size));
}

/* The C library's other name of it. */
ssize_t __write(int file, const void *bytes, size_t size)
{
    return write(file, bytes, size);
}
