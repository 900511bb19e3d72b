// Each hart prints: atomic counts are right
#include <stdatomic.h>
#include <stdint.h>
#include <stdio.h>

enum { TURNS = 2000 };

static _Atomic int counter, compared, ended;
static _Atomic long long wide;
static _Atomic struct four { int first, second, third, fourth; } four;
static atomic_flag flag = ATOMIC_FLAG_INIT;
static int locked, old_lock, old_locked, old_counter;

int main(int hart, char **number)
{
    (void)hart;
    int harts = (int)(intptr_t)number;
    for (int turn = 0; turn < TURNS; turn++) {
        counter++;
        wide += 3;
        int seen = compared;
        while (!atomic_compare_exchange_weak(&compared, &seen, seen + 2))
            ;
        struct four old = four, next;
        do
            next = (struct four){old.first + 1, old.second + 2, old.third + 3, old.fourth + 4};
        while (!atomic_compare_exchange_weak(&four, &old, next));
        while (atomic_flag_test_and_set(&flag))
            ;
        locked++;
        atomic_flag_clear(&flag);
        while (__sync_lock_test_and_set(&old_lock, 1))
            ;
        old_locked++;
        __sync_lock_release(&old_lock);
        __sync_add_and_fetch(&old_counter, 1);
    }
    ended++;
    while (ended < harts)
        ;
    int all = harts * TURNS;
    int are_words_right = counter == all && compared == 2 * all && wide == 3LL * all && old_counter == all;
    struct four last = four;
    are_words_right &= last.first == all && last.second == 2 * all && last.third == 3 * all && last.fourth == 4 * all;
    puts(are_words_right && locked == all && old_locked == all ? "atomic counts are right" : "atomic counts are wrong");
    return 0;
}
