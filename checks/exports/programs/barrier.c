/* Four harts that each sum a part, and wait for one another at a barrier. */
#include <stdio.h>

enum { HARTS = 4, ROUNDS = 6 };
static volatile int arrived[HARTS];
static volatile long sums[HARTS];

static void __attribute__((noinline)) wait_at_barrier(int hart, int round)
{
    arrived[hart] = round;
    for (int other = 0; other < HARTS; other++)
        while (arrived[other] < round)
            ;
}

long __attribute__((noinline)) work(int hart, int round)
{
    long sum = 0;
    for (long k = 0; k < 400 * (hart + 1); k++)
        sum += k ^ round;
    return sum;
}

int main(int hart, int harts)
{
    (void)harts;
    for (int round = 1; round <= ROUNDS; round++) {
        sums[hart] += work(hart, round);
        wait_at_barrier(hart, round);
    }
    return 0;
}
