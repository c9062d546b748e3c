/* A linker script for the default board: main memory from 0x00010000 to 0x00090000.
   GNU ld and lld read it. docs/TOOLCHAINS.md tells the rules that it keeps. */
OUTPUT_ARCH(riscv)
ENTRY(_start)

/* No segment has the ELF header, so the first one begins where main memory begins. */
PHDRS
{
    code PT_LOAD FLAGS(5);
    constants PT_LOAD FLAGS(4);
    data PT_LOAD FLAGS(6);
}

SECTIONS
{
    . = 0x00010000;
    .text : { KEEP(*(.text.start)) *(.text .text.*) } :code

    /* A label at the end of a section equals the first address behind it. If an object begins there,
       the label pins all objects of its section. So a gap stands before each section with objects. */
    . = ALIGN(16) + 16;

    /* Tables of constructors, for C++. */
    .init_array : {
        __init_array_start = .;
        KEEP(*(SORT(.init_array.*)))
        KEEP(*(.init_array))
        __init_array_end = .;
    } :constants
    . = ALIGN(16) + 16;

    /* Libraries may be compiled with section anchors, which pin a section. So theirs are apart. */
    .rodata.library : { *lib*.a:*(.rodata .rodata.* .srodata .srodata.*) } :constants
    . = ALIGN(16) + 16;

    /* Constants stand in a section without code. */
    .rodata : { *(.rodata .rodata.* .srodata .srodata.*) } :constants
    . = ALIGN(16) + 16;

    /* Initial values are loaded where they are used: no AT>, no copying loop. */
    .data.library : { *lib*.a:*(.data .data.* .sdata .sdata.*) } :data
    . = ALIGN(16) + 16;
    .data : { *(.data .data.* .sdata .sdata.*) } :data
    . = ALIGN(16) + 16;

    /* Zeros are no bytes of the file. On the board they must be 0 before _start. */
    .bss.library (NOLOAD) : { *lib*.a:*(.sbss .sbss.* .bss .bss.* COMMON) } :data
    . = ALIGN(16) + 16;
    .bss (NOLOAD) : { *(.sbss .sbss.* .bss .bss.* COMMON) } :data
    end_of_data = .;

    __stack_top = 0x00090000;
    ASSERT(end_of_data + 0x4000 <= __stack_top, "less than 16 KiB are left for the stack")

    /* Unwind tables have labels into the code that they tell of, and C needs none. */
    /DISCARD/ : { *(.comment) *(.note .note.*) *(.eh_frame .eh_frame.*) }
}
