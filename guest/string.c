/* Procedures that picolibc has in assembly without frame rules, in C: samples within them have whole call paths.
   Compiled with -fno-tree-loop-distribute-patterns, or gcc would make a loop here a call of the procedure itself. */
#include <stddef.h>
#include <stdint.h>
#include <string.h>

#include "guest.h"

typedef uint32_t __attribute__((may_alias)) word;

enum { WORD = sizeof(word) };

static int is_aligned(const void *place)
{
    return ((uintptr_t)place & (WORD - 1)) == 0;
}

LIBRARY void *memset(void *place, int byte, size_t length)
{
    unsigned char *to = place;
    for (; length > 0 && !is_aligned(to); length--)
        *to++ = (unsigned char)byte;
    word repeated = 0x01010101u * (unsigned char)byte;
    for (; length >= 4 * WORD; length -= 4 * WORD, to += 4 * WORD) {
        ((word *)to)[0] = repeated;
        ((word *)to)[1] = repeated;
        ((word *)to)[2] = repeated;
        ((word *)to)[3] = repeated;
    }
    while (length-- > 0)
        *to++ = (unsigned char)byte;
    return place;
}

LIBRARY void *memcpy(void *restrict place, const void *restrict source, size_t length)
{
    unsigned char *to = place;
    const unsigned char *from = source;
    if ((((uintptr_t)to ^ (uintptr_t)from) & (WORD - 1)) == 0) {
        for (; length > 0 && !is_aligned(to); length--)
            *to++ = *from++;
        for (; length >= 4 * WORD; length -= 4 * WORD, to += 4 * WORD, from += 4 * WORD) {
            word a = ((const word *)from)[0], b = ((const word *)from)[1];
            word c = ((const word *)from)[2], d = ((const word *)from)[3];
            ((word *)to)[0] = a;
            ((word *)to)[1] = b;
            ((word *)to)[2] = c;
            ((word *)to)[3] = d;
        }
    }
    while (length-- > 0)
        *to++ = *from++;
    return place;
}

LIBRARY void *memmove(void *place, const void *source, size_t length)
{
    unsigned char *to = place;
    const unsigned char *from = source;
    if ((uintptr_t)to - (uintptr_t)from >= length)
        return memcpy(place, source, length);
    to += length;
    from += length;
    if ((((uintptr_t)to ^ (uintptr_t)from) & (WORD - 1)) == 0) {
        for (; length > 0 && !is_aligned(to); length--)
            *--to = *--from;
        for (; length >= WORD; length -= WORD) {
            to -= WORD;
            from -= WORD;
            *(word *)to = *(const word *)from;
        }
    }
    while (length-- > 0)
        *--to = *--from;
    return place;
}

LIBRARY int memcmp(const void *left, const void *right, size_t length)
{
    const unsigned char *a = left, *b = right;
    for (; length > 0; length--, a++, b++)
        if (*a != *b)
            return *a - *b;
    return 0;
}

LIBRARY size_t strlen(const char *text)
{
    const char *end = text;
    while (*end != 0)
        end++;
    return (size_t)(end - text);
}

LIBRARY int strcmp(const char *left, const char *right)
{
    while (*left != 0 && *left == *right)
        left++, right++;
    return (unsigned char)*left - (unsigned char)*right;
}
