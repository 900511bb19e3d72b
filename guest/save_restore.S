# What -msave-restore code calls to save its registers and jumps to in order to return, as the RISC-V psABI names it.
# libgcc has the same with frame rules in .eh_frame alone; these have them in .debug_frame. The layout is the one that
# the rules of the callers expect: ra 4 bytes below the frame's address (CFA), s0 8 below, and so on.
#
# A save is called by t0, so its return address is column 5 of its rules, and ra is still that of its caller. A restore
# is jumped to at the end of a procedure, and returns to that procedure's caller.
        .cfi_sections .debug_frame
        .text

        .macro  keep register, below, size
        sw      \register, \size - \below(sp)
        .cfi_offset \register, -\below
        .endm

        .macro  saved register, below
        .cfi_offset \register, -\below
        .endm

        .macro  reload register, below, size
        lw      \register, \size - \below(sp)
        .cfi_restore \register
        .endm

        # The registers of a frame of so many bytes, from the outermost on.
        .macro  all action, size
        \action ra, 4, \size
        \action s0, 8, \size
        \action s1, 12, \size
        \action s2, 16, \size
        .if \size > 16
        \action s3, 20, \size
        \action s4, 24, \size
        \action s5, 28, \size
        \action s6, 32, \size
        .endif
        .if \size > 32
        \action s7, 36, \size
        \action s8, 40, \size
        \action s9, 44, \size
        \action s10, 48, \size
        .endif
        .if \size > 48
        \action s11, 52, \size
        .endif
        .endm

        .macro  entry name
        .globl  \name
        .type   \name, @function
\name:
        .endm

        .macro  done name
        .size   \name, . - \name
        .endm

        .macro  save size, names:vararg
        .irp    number, \names
        entry   __riscv_save_\number
        .endr
        .cfi_startproc
        .cfi_return_column t0
        addi    sp, sp, -\size
        .cfi_def_cfa_offset \size
        all     keep, \size
        jr      t0
        .cfi_endproc
        .irp    number, \names
        done    __riscv_save_\number
        .endr
        .endm

        .macro  mark register, below, size
        saved   \register, \below
        .endm

        .macro  restore size, names:vararg
        .irp    number, \names
        entry   __riscv_restore_\number
        .endr
        .cfi_startproc
        .cfi_def_cfa_offset \size
        all     mark, \size
        all     reload, \size
        addi    sp, sp, \size
        .cfi_def_cfa_offset 0
        ret
        .cfi_endproc
        .irp    number, \names
        done    __riscv_restore_\number
        .endr
        .endm

        .section .text.save_restore_16, "ax", @progbits
        save    16, 0, 1, 2, 3
        restore 16, 0, 1, 2, 3
        .section .text.save_restore_32, "ax", @progbits
        save    32, 4, 5, 6, 7
        restore 32, 4, 5, 6, 7
        .section .text.save_restore_48, "ax", @progbits
        save    48, 8, 9, 10, 11
        restore 48, 8, 9, 10, 11
        .section .text.save_restore_64, "ax", @progbits
        save    64, 12
        restore 64, 12
