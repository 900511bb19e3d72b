// Each hart prints: ends 1 3 begun
#include <setjmp.h>
#include <stdio.h>
#include <stdlib.h>

static int begun;
static jmp_buf places[64];

static __attribute__((constructor)) void begin(void)
{
    begun++;
}

static __attribute__((noinline)) void descend(int hart, int depth)
{
    if (depth == 0)
        longjmp(places[hart], 3);
    descend(hart, depth - 1);
    printf("%d\n", depth);
}

int main(int hart)
{
    volatile int value = setjmp(places[hart]);
    if (value == 0)
        descend(hart, 20);
    printf("ends %d %d %s\n", begun, value, begun == 1 ? "begun" : "not begun");
    return 0;
}
