/* Atomic operations, which gcc and clang call where a machine has no instructions for them: each under one lock.
   Programs are compiled so that loads and stores are calls too, since a store beside the lock could be lost. */
#include <stdbool.h>
#include <stdint.h>
#include <string.h>
#include <sys/lock.h>

#include "guest.h"

static struct __lock lock;

static void begin(void)
{
    __retarget_lock_acquire_recursive(&lock);
}

static void end(void)
{
    __retarget_lock_release_recursive(&lock);
}

#pragma GCC diagnostic ignored "-Wbuiltin-declaration-mismatch"

/* An operation that puts `next` in the place of `old`, and gives the one of both that `gives` is. What it doesn't
   change it doesn't store: __sync_lock_release is a plain store. */
#define CHANGES(prefix, name, postfix, type, gives, next)                     \
    type prefix##name##postfix(volatile void *place, type value, int order);  \
    LIBRARY type prefix##name##postfix(volatile void *place, type value, int order) \
    {                                                                         \
        (void)order;                                                          \
        begin();                                                              \
        type old = *(volatile type *)place, new = (type)(next);               \
        if (new != old)                                                       \
            *(volatile type *)place = new;                                    \
        end();                                                                \
        (void)old, (void)new;                                                 \
        return gives;                                                         \
    }

#define FETCHES(name, postfix, type, next)                                    \
    CHANGES(__atomic_fetch_, name, postfix, type, old, next)                  \
    CHANGES(__atomic_, name##_fetch, postfix, type, new, next)                \
    CHANGES(__sync_fetch_and_, name, postfix, type, old, next)                \
    CHANGES(__sync_, name##_and_fetch, postfix, type, new, next)

#define COMPARES(name, postfix, type, result, gives)                          \
    result name##postfix(volatile void *place, type expected, type desired);  \
    LIBRARY result name##postfix(volatile void *place, type expected, type desired) \
    {                                                                         \
        begin();                                                              \
        type old = *(volatile type *)place;                                   \
        if (old == expected)                                                  \
            *(volatile type *)place = desired;                                \
        end();                                                                \
        return gives;                                                         \
    }

#define OF_SIZE(postfix, type)                                                \
    FETCHES(add, postfix, type, old + value)                                  \
    FETCHES(sub, postfix, type, old - value)                                  \
    FETCHES(and, postfix, type, old & value)                                  \
    FETCHES(or, postfix, type, old | value)                                   \
    FETCHES(xor, postfix, type, old ^ value)                                  \
    FETCHES(nand, postfix, type, ~(old & value))                              \
    CHANGES(__atomic_, exchange, postfix, type, old, value)                   \
    CHANGES(__sync_, lock_test_and_set, postfix, type, old, value)            \
    COMPARES(__sync_val_compare_and_swap, postfix, type, type, old)           \
    COMPARES(__sync_bool_compare_and_swap, postfix, type, bool, old == expected) \
    type __atomic_load##postfix(const volatile void *place, int order);       \
    LIBRARY type __atomic_load##postfix(const volatile void *place, int order) \
    {                                                                         \
        (void)order;                                                          \
        begin();                                                              \
        type value = *(const volatile type *)place;                           \
        end();                                                                \
        return value;                                                         \
    }                                                                         \
    void __atomic_store##postfix(volatile void *place, type value, int order); \
    LIBRARY void __atomic_store##postfix(volatile void *place, type value, int order) \
    {                                                                         \
        (void)order;                                                          \
        begin();                                                              \
        *(volatile type *)place = value;                                      \
        end();                                                                \
    }                                                                         \
    bool __atomic_compare_exchange##postfix(volatile void *place, void *expected, type desired, bool weak, \
                                            int success, int failure);        \
    LIBRARY bool __atomic_compare_exchange##postfix(volatile void *place, void *expected, type desired, bool weak, \
                                                    int success, int failure) \
    {                                                                         \
        (void)weak, (void)success, (void)failure;                             \
        begin();                                                              \
        type old = *(volatile type *)place;                                   \
        bool is_equal = old == *(type *)expected;                             \
        if (is_equal)                                                         \
            *(volatile type *)place = desired;                                \
        else                                                                  \
            *(type *)expected = old;                                          \
        end();                                                                \
        return is_equal;                                                      \
    }

OF_SIZE(_1, uint8_t)
OF_SIZE(_2, uint16_t)
OF_SIZE(_4, uint32_t)
OF_SIZE(_8, uint64_t)

/* Objects of any size. (gcc has these names for itself.) */
void object_load(size_t size, const void *place, void *value, int order) __asm__("__atomic_load");
void object_store(size_t size, void *place, const void *value, int order) __asm__("__atomic_store");
void object_exchange(size_t size, void *place, const void *value, void *old, int order) __asm__("__atomic_exchange");
bool object_compare_exchange(size_t size, void *place, void *expected, const void *desired, int success, int failure)
    __asm__("__atomic_compare_exchange");

LIBRARY void object_load(size_t size, const void *place, void *value, int order)
{
    (void)order;
    begin();
    memcpy(value, place, size);
    end();
}

LIBRARY void object_store(size_t size, void *place, const void *value, int order)
{
    (void)order;
    begin();
    memcpy(place, value, size);
    end();
}

LIBRARY void object_exchange(size_t size, void *place, const void *value, void *old, int order)
{
    (void)order;
    begin();
    memcpy(old, place, size);
    memcpy(place, value, size);
    end();
}

LIBRARY bool object_compare_exchange(size_t size, void *place, void *expected, const void *desired, int success,
                                     int failure)
{
    (void)success, (void)failure;
    begin();
    bool is_equal = memcmp(place, expected, size) == 0;
    memcpy(is_equal ? place : expected, is_equal ? desired : place, size);
    end();
    return is_equal;
}
