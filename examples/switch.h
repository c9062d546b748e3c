/* Programs with several stacks. */
#ifndef SWITCH_H
#define SWITCH_H

/* Saves what a function must keep, and goes on where the other stack was left. */
void switch_stack(void **from, void *to);
asm(".globl switch_stack\n"
    ".type switch_stack, @function\n"
    "switch_stack:\n"
    "    addi sp, sp, -64\n"
    "    sw   ra, 0(sp)\n"
    "    sw   s0, 4(sp)\n"
    "    sw   s1, 8(sp)\n"
    "    sw   s2, 12(sp)\n"
    "    sw   s3, 16(sp)\n"
    "    sw   s4, 20(sp)\n"
    "    sw   s5, 24(sp)\n"
    "    sw   s6, 28(sp)\n"
    "    sw   s7, 32(sp)\n"
    "    sw   s8, 36(sp)\n"
    "    sw   s9, 40(sp)\n"
    "    sw   s10, 44(sp)\n"
    "    sw   s11, 48(sp)\n"
    "    sw   sp, 0(a0)\n"
    "    mv   sp, a1\n"
    "    lw   ra, 0(sp)\n"
    "    lw   s0, 4(sp)\n"
    "    lw   s1, 8(sp)\n"
    "    lw   s2, 12(sp)\n"
    "    lw   s3, 16(sp)\n"
    "    lw   s4, 20(sp)\n"
    "    lw   s5, 24(sp)\n"
    "    lw   s6, 28(sp)\n"
    "    lw   s7, 32(sp)\n"
    "    lw   s8, 36(sp)\n"
    "    lw   s9, 40(sp)\n"
    "    lw   s10, 44(sp)\n"
    "    lw   s11, 48(sp)\n"
    "    addi sp, sp, 64\n"
    "    ret\n"
    ".size switch_stack, . - switch_stack\n");

#endif
