# Start code of a program whose linker script puts sections into the scratchpad: it copies them there, and goes on as examples/crt0.S.
    .section .text.start, "ax", @progbits
    .globl _start
    .type _start, @function
_start:
    .option push
    .option norelax
    lui  sp, %hi(__stack_top)
    addi sp, sp, %lo(__stack_top)
    lui  gp, %hi(__global_pointer$)
    addi gp, gp, %lo(__global_pointer$)
    lui  a0, %hi(__near_load)
    addi a0, a0, %lo(__near_load)
    lui  a1, %hi(__near_start)
    addi a1, a1, %lo(__near_start)
    lui  a2, %hi(__near_end)
    addi a2, a2, %lo(__near_end)
    bgeu a1, a2, 2f
1:  lw   a3, 0(a0)
    sw   a3, 0(a1)
    addi a0, a0, 4
    addi a1, a1, 4
    bltu a1, a2, 1b
2:  .option pop
    call main
    li   a7, 93
    ecall
    .size _start, . - _start
