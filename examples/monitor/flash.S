# The part of virt.S with a program that runs from flash, as it stands there: see flash.toml. Before the monitor begins, `boot`
# copies what begins as .data and .bss from where the flash keeps it, and clears the rest of the area.
#include "virt.S"
        .equ KEPT, 0x20090000
        .equ KEPT_SIZE, 0x2000

boot:   mv   t6, ra
        li   t0, AREA
        li   t1, AREA + KEPT_SIZE
        li   t2, KEPT
        jal  copy
        li   t1, AREA + AREA_SIZE
1:      sb   zero, 0(t0)
        addi t0, t0, 1
        bne  t0, t1, 1b
        jr   t6
