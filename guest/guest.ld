/* What is executed and what is written, from 0x10000 on. */
ENTRY(_start)
PROVIDE(__guest_main = main);
SECTIONS
{
    . = 0x10000;
    .text : { *(.text.start) *(.text .text.*) }
    .rodata : { *(.rodata .rodata.* .srodata .srodata.*) }
    .eh_frame : { KEEP(*(.eh_frame)) }
    . = ALIGN(0x1000);
    .data : {
        PROVIDE_HIDDEN(__init_array_start = .);
        KEEP(*(SORT_BY_INIT_PRIORITY(.init_array.*)))
        KEEP(*(.init_array))
        PROVIDE_HIDDEN(__init_array_end = .);
        PROVIDE_HIDDEN(__fini_array_start = .);
        KEEP(*(SORT_BY_INIT_PRIORITY(.fini_array.*)))
        KEEP(*(.fini_array))
        PROVIDE_HIDDEN(__fini_array_end = .);
        *(.data .data.*)
    }
    __global_pointer$ = . + 0x800;
    .sdata : { *(.sdata .sdata.*) }
    /* Thread-local storage as it begins, and in .bss a block of it for each of 64 harts (MOST_HARTS of guest.h), where
       there is any: with room for what lies between .tdata and .tbss, and rounded up to 64 bytes. */
    .tdata : ALIGN(64) { *(.tdata .tdata.*) }
    .tbss : { *(.tbss .tbss.* .tcommon) }
    PROVIDE(__tdata_source = ADDR(.tdata));
    PROVIDE(__tdata_source_end = ADDR(.tdata) + SIZEOF(.tdata));
    PROVIDE(__tls_block_size = (SIZEOF(.tdata) + SIZEOF(.tbss) + 126) / 64 * 64);
    .bss : {
        *(.sbss .sbss.* .bss .bss.* COMMON)
        . = ALIGN(SIZEOF(.tdata) + SIZEOF(.tbss) > 0 ? 64 : 1);
        PROVIDE(__tls_blocks = .);
        . += SIZEOF(.tdata) + SIZEOF(.tbss) > 0 ? (SIZEOF(.tdata) + SIZEOF(.tbss) + 126) / 64 * 64 * 64 : 0;
        /* gcc reads the whole word of an object of two bytes, so the last word of the segment is whole. */
        . = ALIGN(16);
    }
    ASSERT(MAX(ALIGNOF(.tdata), ALIGNOF(.tbss)) <= 64, "thread-local data are aligned to 64 bytes at most")
}
