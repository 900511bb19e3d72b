// Each hart prints: threads 5 6 xy 0, aligned, own
#include <stdint.h>
#include <stdio.h>

static _Thread_local int five = 5;
static _Thread_local char text[3] = "xy";
static _Thread_local int zero;
static _Thread_local __attribute__((aligned(64))) int wide = 6;
static _Thread_local char *volatile own;

int main(int hart)
{
    int first = zero;
    own = text;
    for (int turn = 0; turn < 20000; turn++)
        zero += hart + 1;
    const char *place = (uintptr_t)&wide % 64 == 0 ? "aligned" : "not aligned";
    printf("threads %d %d %s %d, %s, %s\n", five, wide, text, first, place,
           zero == 20000 * (hart + 1) && own == text ? "own" : "shared");
    return 0;
}
