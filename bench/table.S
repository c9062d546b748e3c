# Sums a table of 64 words 100,000 times: 26,200,005 steps, 6,400,000 of them loads from an object that may move.
    .section .text
    .globl _start
    .type _start, @function
_start:
    li a4, 100000
again:
    lui a0, %hi(table)
    addi a0, a0, %lo(table)
    addi a1, a0, 256
    li a2, 0
next:
    lw a3, 0(a0)
    add a2, a2, a3
    addi a0, a0, 4
    bne a0, a1, next
    addi a4, a4, -1
    bnez a4, again
    li a0, 0
    li a7, 93
    ecall
    .size _start, . - _start

    .data
    .globl table
    .type table, @object
    .size table, 256
table:
    .fill 64, 4, 1
