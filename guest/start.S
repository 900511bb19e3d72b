# Where each hart begins: a0 holds its number, a1 the number of harts, sp its own stack.
# The caller's return address is undefined here, so that every call path ends at this procedure.
#
# __guest_main is that of program.c, which runs what is around main. Where a program is linked without that file, it is
# main itself, as the linker script provides it; so a program of assembly alone, or one that needs nothing around main,
# can do with this file and the script.
        .cfi_sections .debug_frame
        .section .text.start, "ax", @progbits
        .globl  _start
        .type   _start, @function
_start:
        .cfi_startproc
        .cfi_undefined ra
        # The linker's relaxation would make this code shorter than the assembler's debug information says.
        .option norelax
        la      gp, __global_pointer$
        .weak   __guest_main
        call    __guest_main
        li      a7, 93                  # exit of this hart, with main's result as its status
        ecall
        .cfi_endproc
        .size   _start, . - _start
