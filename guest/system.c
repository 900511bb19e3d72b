/* The environment calls as picolibc wants them: read, write and the end; and the memory behind malloc. */
#include <errno.h>
#include <stddef.h>
#include <unistd.h>

#include "guest.h"

#ifndef HEAP_BYTES
#define HEAP_BYTES (64 << 20)
#endif

int guest_harts;

/* Gives what an environment call gave, and where it failed sets errno. */
static long answer(long result)
{
    if (result >= 0)
        return result;
    errno = (int)-result;
    return -1;
}

LIBRARY ssize_t read(int descriptor, void *place, size_t length)
{
    return answer(guest_call(63, descriptor, (long)place, (long)length));
}

/* The machine takes what there is room for in its output, and in the end nothing. */
LIBRARY ssize_t write(int descriptor, const void *place, size_t length)
{
    long written = guest_call(64, descriptor, (long)place, (long)length);
    return answer(written == 0 && length > 0 ? -ENOSPC : written);
}

/* Ends all harts; a hart that is alone ends itself. */
LIBRARY void _exit(int status)
{
    if (guest_flush_lines)
        guest_flush_lines(0, MOST_HARTS - 1);
    for (;;)
        guest_call(guest_harts == 1 ? 93 : 94, status, 0, 0);
}

/* Takes memory from an array, of which a page costs nothing until it is written. */
LIBRARY void *sbrk(ptrdiff_t size)
{
    static char heap[HEAP_BYTES] __attribute__((aligned(16)));
    static size_t used;
    if (size > (ptrdiff_t)(HEAP_BYTES - used) || size < -(ptrdiff_t)used) {
        errno = ENOMEM;
        return (void *)-1;
    }
    char *place = heap + used;
    used += (size_t)size;
    return place;
}
