# Start code with what other start codes do, each behind a name, in front of ../crt0.S:
# SET_TRAPS sets the trap handler, CLEAR_ZEROS clears .bss, COPY_DATA copies .data from its load address, SET_GP sets gp,
# MIX_PARTS makes an address of parts that don't belong together, which leads to another word, and exits by that.
# CROWD and INWARD have a function for program.c: one that reads all registers, and one that calls a label inside itself.
    .section .text.start, "ax", @progbits
    .globl _start
    .type _start, @function
_start:
#ifdef SET_GP
    .option push
    .option norelax
    lui  gp, %hi(__global_pointer$)
    addi gp, gp, %lo(__global_pointer$)
    .option pop
#endif
#ifdef SET_TRAPS
    .word 0x30501073            # csrrw zero, mtvec, zero, which no assembler takes for rv32im
#endif
#ifdef CLEAR_ZEROS
    lui  a0, %hi(__bss_start)
    addi a0, a0, %lo(__bss_start)
    lui  a1, %hi(__bss_end)
    addi a1, a1, %lo(__bss_end)
1:  bgeu a0, a1, 2f
    sb   zero, 0(a0)
    addi a0, a0, 1
    j    1b
2:
#endif
#ifdef COPY_DATA
    lui  a0, 0x40
    lui  a1, %hi(__data_start)
    addi a1, a1, %lo(__data_start)
    lui  a2, %hi(__data_end)
    addi a2, a2, %lo(__data_end)
1:  bgeu a1, a2, 2f
    lbu  t0, 0(a0)
    sb   t0, 0(a1)
    addi a0, a0, 1
    addi a1, a1, 1
    j    1b
2:
#endif
#ifdef MIX_PARTS
    nop
    auipc a0, %pcrel_hi(mixed)
    lw    a0, %lo(mixed)(a0)
    bnez  a0, 1f
    li    a7, 93
    ecall
1:
#endif
#ifdef PAIR_PARTS
1:  auipc a4, %pcrel_hi(mixed)
    lw    a0, %pcrel_lo(1b)(a4)
    bnez  a0, 2f
    li    a7, 93
    ecall
2:
#endif
#ifdef KEEP_UPPER
    mv    a5, a4
#endif
    j    usual_start
    .size _start, . - _start

#if defined(MIX_PARTS) || defined(PAIR_PARTS)
    .section .rodata.mixed, "a", @progbits
    .balign 4
    .globl mixed
    .type mixed, @object
mixed:
    .word 1
    .size mixed, . - mixed
    .word 0
#endif

#ifdef CROWD
    .section .text.called, "ax", @progbits
    .globl called
    .type called, @function
called:
    .irp register, t0, t1, t2, s0, s1, a1, a2, a3, a4, a5, a6, a7, s2, s3, s4, s5, s6, s7, s8, s9, s10, s11, t3, t4, t5, t6
    sw   \register, -4(sp)
    .endr
    ret
    .size called, . - called
#endif

#ifdef INWARD
    .section .text.called, "ax", @progbits
    .globl called
    .type called, @function
called:
    mv   t1, ra
    li   t0, 1000
1:  jal  ra, inner
    j    2f
inner:
    .rept 20
    addi a0, a0, 1
    .endr
    ret
2:  .rept 20
    xori a0, a0, 1
    .endr
    addi t0, t0, -1
    bnez t0, 1b
    mv   ra, t1
    ret
    .size called, . - called
#endif

#define _start usual_start
#include "../crt0.S"
