/* Division of 64-bit numbers, which the compiler calls, in place of libgcc's, whose frame rules are in .eh_frame alone.
   After Knuth, The Art of Computer Programming 2, 4.3.1, algorithm D, by the machine's division of 32 bits. */
#include <stdint.h>

#include "guest.h"

uint64_t __udivdi3(uint64_t number, uint64_t divisor);
uint64_t __umoddi3(uint64_t number, uint64_t divisor);
int64_t __divdi3(int64_t number, int64_t divisor);
int64_t __moddi3(int64_t number, int64_t divisor);

/* A digit of 16 bits: of high and next, where high is below the divisor, whose highest bit is set. */
static uint32_t digit(uint32_t high, uint32_t next, uint32_t divisor, uint32_t *rest)
{
    uint32_t top = divisor >> 16, low = divisor & 0xffff;
    uint32_t found = high / top, left = high % top;
    while (found > 0xffff || found * low > (left << 16 | next)) {
        found--;
        left += top;
        if (left > 0xffff)
            break;
    }
    *rest = (high << 16 | next) - found * divisor;
    return found;
}

/* 64 bits by 32, where the quotient has 32. */
static uint32_t divide_long(uint32_t high, uint32_t low, uint32_t divisor, uint32_t *rest)
{
    int shift = __builtin_clz(divisor);
    uint64_t number = ((uint64_t)high << 32 | low) << shift;
    divisor <<= shift;
    uint32_t left;
    uint32_t first = digit((uint32_t)(number >> 32), (uint32_t)number >> 16, divisor, &left);
    uint32_t second = digit(left, (uint32_t)number & 0xffff, divisor, &left);
    *rest = left >> shift;
    return first << 16 | second;
}

static uint64_t divide(uint64_t number, uint64_t divisor, uint64_t *rest)
{
    uint32_t high = (uint32_t)(number >> 32), divisor_high = (uint32_t)(divisor >> 32);
    if (divisor_high == 0) {
        uint32_t by = (uint32_t)divisor, left;
        if (high == 0 || by == 0) {
            *rest = (uint32_t)number % by;
            return (uint32_t)number / by;
        }
        uint32_t first = high / by;
        uint32_t second = divide_long(high % by, (uint32_t)number, by, &left);
        *rest = left;
        return (uint64_t)first << 32 | second;
    }
    /* The quotient has 32 bits at most; by the divisor's upper bits it is right or one too much. */
    int shift = __builtin_clz(divisor_high);
    uint32_t left;
    uint32_t most = divide_long(high >> 1, (uint32_t)(number >> 1), (uint32_t)(divisor << shift >> 32), &left);
    uint64_t quotient = (uint64_t)most << shift >> 31;
    if (quotient > 0)
        quotient--;
    *rest = number - quotient * divisor;
    if (*rest >= divisor) {
        quotient++;
        *rest -= divisor;
    }
    return quotient;
}

static uint64_t size(int64_t number)
{
    return number < 0 ? -(uint64_t)number : (uint64_t)number;
}

LIBRARY uint64_t __udivdi3(uint64_t number, uint64_t divisor)
{
    uint64_t rest;
    return divide(number, divisor, &rest);
}

LIBRARY uint64_t __umoddi3(uint64_t number, uint64_t divisor)
{
    uint64_t rest;
    divide(number, divisor, &rest);
    return rest;
}

LIBRARY int64_t __divdi3(int64_t number, int64_t divisor)
{
    uint64_t quotient = __udivdi3(size(number), size(divisor));
    return (int64_t)((number < 0) != (divisor < 0) ? -quotient : quotient);
}

LIBRARY int64_t __moddi3(int64_t number, int64_t divisor)
{
    uint64_t rest = __umoddi3(size(number), size(divisor));
    return (int64_t)(number < 0 ? -rest : rest);
}
