// Each hart prints: barrier 100 steps
#include <stdatomic.h>
#include <stdint.h>
#include <stdio.h>

enum { STEPS = 100, HARTS = 64 };

static _Atomic int arrived, step;
static volatile int sums[HARTS];

static void work(int hart)
{
    for (int turn = 0; turn < 300; turn++)
        sums[hart] += turn;
}

int main(int hart, char **number)
{
    int harts = (int)(intptr_t)number;
    for (int now = 0; now < STEPS; now++) {
        work(hart);
        if (++arrived == harts) {
            arrived = 0;
            step++;
        }
        while (step == now)
            ;
    }
    printf("barrier %d steps\n", step);
    return 0;
}
