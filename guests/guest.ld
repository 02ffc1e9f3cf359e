/* A guest lies from 0x10000 on: code that may be read and executed (flags 5), then data in pages of its own that may be
 * read and written (flags 6). A guest without data has an empty second segment, which the loader passes over. */
ENTRY(_start)
PHDRS
{
    code PT_LOAD FLAGS(5);
    data PT_LOAD FLAGS(6);
}
SECTIONS
{
    . = 0x10000;
    .text : { *(.text .text.*) } :code
    .rodata : { *(.rodata .rodata.* .srodata .srodata.*) } :code
    . = ALIGN(4096);
    .data : { *(.data .data.*) __global_pointer$ = . + 0x800; *(.sdata .sdata.*) } :data
    .bss : { *(.sbss .sbss.* .bss .bss.* COMMON) } :data
    /DISCARD/ : { *(.comment .riscv.attributes .note.* .eh_frame) }
}
