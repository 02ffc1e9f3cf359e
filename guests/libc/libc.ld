/* A guest with the library lies as guest.ld has it: code from 0x10000 on, then data in pages of its own. Besides there are
 * the lists of constructors and destructors, and the one block of thread variables, to which tp points: it lies between the
 * data that the file gives and those that are 0 at first, and so do its own two parts. */
ENTRY(_start)
PHDRS
{
    code PT_LOAD FLAGS(5);
    data PT_LOAD FLAGS(6);
    thread PT_TLS FLAGS(4);
}
SECTIONS
{
    . = 0x10000;
    .text : { *(.text .text.*) } :code
    .rodata : { *(.rodata .rodata.* .srodata .srodata.*) } :code
    .lists :
    {
        . = ALIGN(4);
        __preinit_array_start = .;
        KEEP(*(.preinit_array))
        __preinit_array_end = .;
        __init_array_start = .;
        KEEP(*(SORT_BY_INIT_PRIORITY(.init_array.*)))
        KEEP(*(.init_array))
        __init_array_end = .;
        __fini_array_start = .;
        KEEP(*(SORT_BY_INIT_PRIORITY(.fini_array.*)))
        KEEP(*(.fini_array))
        __fini_array_end = .;
    } :code
    . = ALIGN(4096);
    .data : { *(.data .data.* .got .got.*) __global_pointer$ = . + 0x800; *(.sdata .sdata.*) . = ALIGN(16); } :data
    .tdata : { __thread_variables = .; *(.tdata .tdata.*) . = ALIGN(16); } :data :thread
    .tbss : { *(.tbss .tbss.* .tcommon) } :data :thread
    /* a linker gives .tbss no room by itself */
    .thread (NOLOAD) : { . += SIZEOF(.tbss); } :data
    .bss : { *(.sbss .sbss.* .bss .bss.* COMMON) } :data
    /DISCARD/ : { *(.comment .riscv.attributes .note.* .eh_frame) }
}
