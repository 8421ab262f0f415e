/* Code, constants and data in segments of their own, each on a page of its own. */
ENTRY(_start)
PHDRS { code PT_LOAD; constants PT_LOAD; data PT_LOAD; }
SECTIONS {
    . = 0x10000;
    .text : { *(.text*) } :code
    . = ALIGN(0x1000);
    .rodata : { *(.rodata* .srodata*) } :constants
    . = ALIGN(0x1000);
    .data : { *(.data* .sdata*) } :data
    .bss : { *(.bss* .sbss* COMMON) } :data
}
