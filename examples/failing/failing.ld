/* A linker script that breaks rules of docs/TOOLCHAINS.md: labels stand at the addresses of objects, and with
   --defsym=LOAD_APART=1 .data has another load address. */
OUTPUT_ARCH(riscv)
ENTRY(_start)
PHDRS { code PT_LOAD FLAGS(5); constants PT_LOAD FLAGS(4); data PT_LOAD FLAGS(6); }
SECTIONS
{
    . = 0x00010000;
    .text : { KEEP(*(.text.start)) *(.text .text.*) } :code
    . = ALIGN(16) + 16;
    .rodata : { *(.rodata .rodata.* .srodata .srodata.*) } :constants
    . = 0x00050000;
    .data : AT(DEFINED(LOAD_APART) ? 0x40000 : ADDR(.data)) {
        __data_start = .;
        *(.data .data.* .sdata .sdata.*)
        __data_end = .;
    } :data
    __global_pointer$ = .;
    .bss (NOLOAD) : { __bss_start = .; *(.sbss .sbss.* .bss .bss.* COMMON) __bss_end = .; } :data
    __stack_top = 0x00090000;
    /DISCARD/ : { *(.comment) *(.note .note.*) *(.eh_frame .eh_frame.*) }
}
