/* The guest `words` lies below 0x8000. From there on it has pages for its rows: three with one right each, one that may
 * be read and executed, one with all rights, and 0x234 bytes of a page that may be read and written. */
ENTRY(_start)
PHDRS
{
    code PT_LOAD FLAGS(5);
    data PT_LOAD FLAGS(6);
    read PT_LOAD FLAGS(4);
    write PT_LOAD FLAGS(2);
    execute PT_LOAD FLAGS(1);
    fixed PT_LOAD FLAGS(5);
    all PT_LOAD FLAGS(7);
    last PT_LOAD FLAGS(6);
}
SECTIONS
{
    . = 0x1000;
    .text : { *(.text .text.*) } :code
    .rodata : { *(.rodata .rodata.* .srodata .srodata.*) } :code
    . = ALIGN(4096);
    .data : { *(.data .data.*) __global_pointer$ = . + 0x800; *(.sdata .sdata.*) } :data
    .bss : { *(.sbss .sbss.* .bss .bss.* COMMON) } :data
    .read 0x8000 : { LONG(0x04030201) } :read
    .write 0x9000 : { LONG(0) } :write
    .execute 0xA000 : { LONG(0) } :execute
    .fixed 0xB000 : { LONG(5) } :fixed
    .all 0x10000 : { LONG(0x04030201) } :all
    .more (NOLOAD) : { . = 0xFFC; } :all
    .last 0x11000 (NOLOAD) : { . = 0x234; } :last
    /DISCARD/ : { *(.comment .riscv.attributes .note.* .eh_frame) }
}
