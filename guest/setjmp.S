# setjmp and longjmp, which picolibc has without frame rules. Of a jmp_buf the first 56 bytes are used: ra, s0 to s11,
# sp.
        .cfi_sections .debug_frame

        .macro  all action
        \action s1, 8
        \action s2, 12
        \action s3, 16
        \action s4, 20
        \action s5, 24
        \action s6, 28
        \action s7, 32
        \action s8, 36
        \action s9, 40
        \action s10, 44
        \action s11, 48
        .endm

        .macro  keep register, at
        sw      \register, \at(a0)
        .endm

        .macro  reload register, at
        lw      \register, \at(a0)
        .endm

        .section .text.setjmp, "ax", @progbits
        .weak   setjmp
        .type   setjmp, @function
setjmp:
        .cfi_startproc
        keep    ra, 0
        keep    s0, 4
        all     keep
        keep    sp, 52
        li      a0, 0
        ret
        .cfi_endproc
        .size   setjmp, . - setjmp

        # Up to the load of t2 the caller is that of longjmp, and then that of setjmp.
        .section .text.longjmp, "ax", @progbits
        .weak   longjmp
        .type   longjmp, @function
longjmp:
        .cfi_startproc
        all     reload
        reload  t0, 0
        reload  t1, 52
        reload  t2, 4
        .cfi_def_cfa t1, 0
        .cfi_register ra, t0
        .cfi_register s0, t2
        seqz    a0, a1                  # a value of 0 is given as 1
        add     a0, a0, a1
        mv      s0, t2
        mv      sp, t1
        mv      ra, t0
        ret
        .cfi_endproc
        .size   longjmp, . - longjmp
