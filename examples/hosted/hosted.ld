/* Where a hosted guest lies in memory: code and constants from BASE on, and its data behind them, from a page of its own
 * on. BASE is given by the Makefile; a guest has the 16 MiB from there on, and its stack is at the end of these. */
ENTRY(_start)
PHDRS
{
    code PT_LOAD;
    data PT_LOAD;
    tls PT_TLS;
}
SECTIONS
{
    . = BASE;
    .text : { KEEP(*(.text.init.enter)) *(.text .text.*) } :code
    .rodata : { *(.rodata .rodata.*) *(.srodata .srodata.*) *(.data.rel.ro .data.rel.ro.*) } :code
    . = ALIGN(0x1000);
    .data :
    {
        *(.data .data.*)
        . = ALIGN(8);
        __global_pointer$ = . + 0x800;
        *(.sdata .sdata.*)
    } :data
    /* errno and other variables of a thread, of which there is one: `tp` points here. */
    .tdata : { *(.tdata .tdata.*) } :data :tls
    .tbss : { *(.tbss .tbss.*) } :data :tls
    __tls_base = ADDR(.tdata);
    .tbss_space (NOLOAD) : { . = . + SIZEOF(.tbss); } :data
    .bss (NOLOAD) : { *(.sbss .sbss.*) *(.bss .bss.*) *(COMMON) } :data
    /DISCARD/ : { *(.eh_frame .eh_frame.*) *(.note .note.*) *(.init_array .fini_array) }
}
