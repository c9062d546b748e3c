# Start code for the flat machine: sets the stack pointer, calls main, and exits with what main answers.
# It has no CSR instruction, since those trap there. It does not set gp, since nothing is relaxed to gp.
# It clears and copies nothing, since segments are loaded at their addresses and other memory is 0.
# With -DCONSTRUCTORS it first calls the constructors of C++.
    .section .text.start, "ax", @progbits
    .globl _start
    .type _start, @function
_start:
    lui  sp, %hi(__stack_top)
    addi sp, sp, %lo(__stack_top)
#ifdef CONSTRUCTORS
    lui  s0, %hi(__init_array_start)
    addi s0, s0, %lo(__init_array_start)
    lui  s1, %hi(__init_array_end)
    addi s1, s1, %lo(__init_array_end)
1:  beq  s0, s1, 2f
    lw   t0, 0(s0)
    addi s0, s0, 4
    jalr t0
    j    1b
2:
#endif
    call main
    li   a7, 93
    ecall
    .size _start, . - _start
