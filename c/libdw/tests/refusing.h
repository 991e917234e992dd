/* Calls in place of malloc, calloc and realloc, for a library that is built with them. One of them fails. */
#ifndef REFUSING_H
#define REFUSING_H

#include <stdlib.h>

void *refusing_malloc(size_t size);
void *refusing_calloc(size_t count, size_t size);
void *refusing_realloc(void *old, size_t size);

static unsigned long calls, refused_call;

static int refuses(void)
{
    return ++calls == refused_call;
}

void *refusing_malloc(size_t size)
{
    return refuses() ? NULL : malloc(size);
}

void *refusing_calloc(size_t count, size_t size)
{
    return refuses() ? NULL : calloc(count, size);
}

void *refusing_realloc(void *old, size_t size)
{
    return refuses() ? NULL : realloc(old, size);
}

#endif
