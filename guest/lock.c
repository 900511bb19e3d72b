/* The library's locks (malloc, atexit, streams of fopen), for harts that share memory without atomic instructions:
   Lamport's fast mutual exclusion, which is seven loads and stores where no other hart is in the way.
   Numbers of harts count from 1 here, so that 0 is nobody. */
#include <stdlib.h>
#include <sys/lock.h>

#include "guest.h"

struct __lock __lock___libc_recursive_mutex;

static void acquire(struct __lock *lock, unsigned char self)
{
    for (;;) {
        lock->wants[self] = 1;
        lock->first = self;
        if (lock->second != 0) {
            lock->wants[self] = 0;
            while (lock->second != 0)
                ;
            continue;
        }
        lock->second = self;
        if (lock->first == self)
            return;
        lock->wants[self] = 0;
        for (unsigned other = 1; other <= MOST_HARTS; other++)
            while (lock->wants[other] != 0)
                ;
        if (lock->second == self)
            return;
        while (lock->second != 0)
            ;
    }
}

void __retarget_lock_acquire_recursive(_LOCK_T lock)
{
    unsigned char self = (unsigned char)(guest_hart() + 1);
    if (lock->owner != self) {
        acquire(lock, self);
        lock->owner = self;
    }
    lock->depth++;
}

void __retarget_lock_release_recursive(_LOCK_T lock)
{
    if (--lock->depth > 0)
        return;
    unsigned char self = lock->owner;
    lock->owner = 0;
    lock->second = 0;
    lock->wants[self] = 0;
}

/* Gives 1 where it has the lock, and 0 where another hart may have it. */
int __retarget_lock_try_acquire_recursive(_LOCK_T lock)
{
    if (lock->second != 0 && lock->owner != guest_hart() + 1)
        return 0;
    __retarget_lock_acquire_recursive(lock);
    return 1;
}

/* Where there is no memory for a lock of its own, the library's serves. */
void __retarget_lock_init_recursive(_LOCK_T *lock)
{
    *lock = calloc(1, sizeof **lock);
    if (*lock == NULL)
        *lock = &__lock___libc_recursive_mutex;
}

void __retarget_lock_close_recursive(_LOCK_T lock)
{
    if (lock != &__lock___libc_recursive_mutex)
        free(lock);
}

/* A lock that isn't recursive is one that is never taken twice. */
void __retarget_lock_acquire(_LOCK_T lock) __attribute__((alias("__retarget_lock_acquire_recursive")));
void __retarget_lock_release(_LOCK_T lock) __attribute__((alias("__retarget_lock_release_recursive")));
int __retarget_lock_try_acquire(_LOCK_T lock) __attribute__((alias("__retarget_lock_try_acquire_recursive")));
void __retarget_lock_init(_LOCK_T *lock) __attribute__((alias("__retarget_lock_init_recursive")));
void __retarget_lock_close(_LOCK_T lock) __attribute__((alias("__retarget_lock_close_recursive")));
