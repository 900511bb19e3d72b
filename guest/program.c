/* What is around main: thread-local storage and constructors before, the end of the program behind. Where this file is
   linked, as guest.mk does, start.S calls it in place of main. */
#include <stdint.h>
#include <stdlib.h>

#include "guest.h"

extern int main(int hart, int harts);
extern void (*__init_array_start[])(void), (*__init_array_end[])(void);

/* From guest.ld. The address of __tls_block_size is the size. */
extern const char __tdata_source[], __tdata_source_end[];
extern char __tls_blocks[], __tls_block_size[];

static volatile int is_ready;

/* The RISC-V psABI's thread-local storage: tp points to the hart's own block, which begins with .tdata as the program's
   file has it. Behind it the block is zero, as .tbss is. */
static void set_thread_pointer(int hart)
{
    char *block = __tls_blocks + (uintptr_t)hart * (uintptr_t)__tls_block_size, *to = block;
    for (const char *from = __tdata_source; from < __tdata_source_end; from++)
        *to++ = *from;
    __asm__ volatile("mv tp, %0" : : "r"(block) : "memory");
}

/* Hart 0 runs the constructors; where there are some, the other harts wait for it. Where it is alone, the program
   ends as C says: by exit, with destructors. One of several harts ends alone. */
int __guest_main(int hart, int harts)
{
    set_thread_pointer(hart);
    if (hart == 0) {
        guest_harts = harts > 1 ? harts : 1;
        for (void (**construct)(void) = __init_array_start; construct < __init_array_end; construct++)
            (*construct)();
        is_ready = 1;
    } else if (&__init_array_start[0] != &__init_array_end[0]) {
        while (!is_ready)
            ;
    }
    int status = main(hart, harts);
    if (harts <= 1)
        exit(status);
    if (guest_flush_lines)
        guest_flush_lines(guest_hart(), guest_hart());
    return status;
}
