// Each hart prints: rand the same, another, the same
#include <stdio.h>
#include <stdlib.h>

static unsigned drawn(unsigned seed)
{
    unsigned sum = 0;
    srand(seed);
    for (int turn = 0; turn < 3000; turn++)
        sum = sum * 31 + (unsigned)rand();
    return sum;
}

static unsigned long drawn48(long seed)
{
    unsigned long sum = 0;
    srand48(seed);
    for (int turn = 0; turn < 1000; turn++)
        sum = sum * 31 + (unsigned long)lrand48();
    return sum;
}

int main(void)
{
    const char *first = drawn(3) == drawn(3) ? "the same" : "another";
    const char *second = drawn(3) == drawn(4) ? "the same" : "another";
    printf("rand %s, %s, %s\n", first, second, drawn48(5) == drawn48(5) ? "the same" : "another");
    return 0;
}
