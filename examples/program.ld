/* The layout of the examples: code and constants at 0x8000, data that is written at 0x10000, where no code is, and the
   section .slow at 0x20000000, which m1.toml says is slow. Segments lie apart, and only the first may be executed. */
ENTRY(_start)

PHDRS
{
    code PT_LOAD FLAGS(5); /* to read and to execute */
    data PT_LOAD FLAGS(6); /* to read and to write */
    slow PT_LOAD FLAGS(6);
}

SECTIONS
{
    . = 0x8000;
    .text : { *start.o(.text) *(.text .text.*) } :code
    .rodata : { *(.rodata .rodata.*) } :code
    . = 0x10000;
    .data : { *(.data .data.*) } :data
    .bss : { *(.bss .bss.* COMMON) } :data
    . = 0x20000000;
    .slow (NOLOAD) : { *(.slow) } :slow
    /DISCARD/ : { *(.ARM.exidx .ARM.exidx.* .ARM.extab .comment .note.*) }
}
