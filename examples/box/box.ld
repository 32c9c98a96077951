/* The box stands at 1 MiB. The core's code stands together, so that interrupts in the middle of it can be counted. */
ENTRY(start)
PHDRS { code PT_LOAD FLAGS(5); data PT_LOAD FLAGS(6); note PT_NOTE FLAGS(4); }
SECTIONS
{
    . = 0x100000;
    .note.pvh : { *(.note.pvh) } :code :note
    .text : { *start.o(.text) core_begin = .; *libcore_c.a:*(.text .text.*) core_end = .; *(.text .text.*) } :code
    .rodata : { *(.rodata .rodata.*) } :code
    . = ALIGN(4096);
    .data : { *(.data .data.*) } :data
    .bss : { *(.bss .bss.* COMMON) } :data
    /DISCARD/ : { *(.comment .eh_frame .note.*) }
}
