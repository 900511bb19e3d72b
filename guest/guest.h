/* What the parts of the guest share. A program needs none of it. */
#ifndef GUEST_H
#define GUEST_H

/* guest.ld has a block of thread-local storage for each. */
enum { MOST_HARTS = 64 };

/* What the guest defines a program may define for itself. */
#define LIBRARY __attribute__((weak))

/* Descriptor 0 is the input, 1 and 2 are the output. There are no others. */
enum { DESCRIPTORS = 3 };

/* The number of harts, as program.c sets it; 0 where that is not linked. */
extern int guest_harts;

/* Writes what the harts printed since their last line feeds. Of stdio.c, and null where that is not linked. */
__attribute__((weak)) void guest_flush_lines(unsigned first, unsigned last);

/* A lock for harts that share memory without atomic instructions (lock.c). */
struct __lock {
    volatile unsigned char wants[MOST_HARTS + 1];
    volatile unsigned char first, second, owner;
    unsigned depth;
};

/* An environment call, as Linux numbers them. */
static inline long guest_call(long number, long first, long second, long third)
{
    register long a0 __asm__("a0") = first;
    register long a1 __asm__("a1") = second;
    register long a2 __asm__("a2") = third;
    register long a7 __asm__("a7") = number;
    __asm__ volatile("ecall" : "+r"(a0) : "r"(a1), "r"(a2), "r"(a7) : "memory");
    return a0;
}

/* The number of this hart: the stack of hart h lies in the h-th MiB from 0xf0000000 on. */
static inline unsigned guest_hart(void)
{
    unsigned long sp;
    __asm__("mv %0, sp" : "=r"(sp));
    return sp >> 20 & (MOST_HARTS - 1);
}

#endif
