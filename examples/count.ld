/* The layout of count.elf: code at 0x8000 and, behind it, data; a load header for each. */
ENTRY(_start)

PHDRS
{
    code PT_LOAD FLAGS(5); /* to read and to execute */
    data PT_LOAD FLAGS(6); /* to read and to write */
}

SECTIONS
{
    . = 0x8000;
    .text : { *(.text .text.* .rodata .rodata.*) } :code
    .data : { *(.data .data.*) } :data
    .bss : { *(.bss .bss.* COMMON) } :data
    /DISCARD/ : { *(.ARM.exidx .ARM.exidx.*) }
}
