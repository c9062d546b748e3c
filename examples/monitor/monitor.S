# A monitor for a bare board: it loads a program, runs it, and serves its calls as the flat machine does
# (docs/FLAT_MACHINE.md). It is assembled with the board's ranges as MAIN, MAIN_SIZE, SPM, SPM_SIZE, PATCH and PATCH_SIZE,
# and with AREA and AREA_SIZE where the board has an area.
# The program runs in user mode, in which PMP leaves it these ranges alone; where the core lacks either, in machine mode.
# Behind the program's bytes stands a line of the monitor: "exited CODE", or "trapped MCAUSE MEPC MTVAL", in hexadecimal.

#include PART
#ifndef AREA
#define AREA PATCH
#define AREA_SIZE PATCH_SIZE
#endif

        .equ NEXT, 28                   # the next byte of the input: behind seven registers in the area of mscratch

        .text
        .globl _start
_start: csrw mie, zero
#ifdef BOOT
        jal  boot
#endif
        li   s0, IMAGE
        lw   t0, 0(s0)
        li   t1, 0x464c457f             # 0x7f and "ELF"
        li   s1, ENTRY
        lw   s1, 0(s1)
        bne  t0, t1, protect
# Clears all ranges, and copies each segment to where it runs (p_vaddr).
        la   t0, ranges
        la   t1, ranges_end
1:      lw   t2, 0(t0)
        lw   t3, 4(t0)
2:      sb   zero, 0(t2)
        addi t2, t2, 1
        bne  t2, t3, 2b
        addi t0, t0, 8
        bne  t0, t1, 1b
        lw   s1, 24(s0)                 # e_entry
        lw   s2, 28(s0)                 # e_phoff
        add  s2, s2, s0
        lhu  s3, 44(s0)                 # e_phnum
1:      beqz s3, protect
        lw   t0, 0(s2)                  # p_type
        addi t0, t0, -1                 # PT_LOAD
        bnez t0, 2f
        lw   a1, 8(s2)                  # p_vaddr
        lw   a2, 20(s2)                 # p_memsz
        jal  check
        mv   t0, a1
        lw   t1, 16(s2)                 # p_filesz
        add  t1, t1, t0
        lw   t2, 4(s2)                  # p_offset
        add  t2, t2, s0
        jal  copy
2:      addi s2, s2, 32                 # a program header has 32 bytes
        addi s3, s3, -1
        j    1b

# Chooses the mode. Where a register is missing, the trap leads to `start`.
protect:
        la   t0, start
        csrw mtvec, t0
        li   s2, 0x1800                 # mstatus.MPP: machine mode
        csrr t0, misa
        slli t0, t0, 31 - 20            # U
        bgez t0, start
        .macro pmp number, address
        li   t0, (\address) >> 2
        csrw pmpaddr\number, t0
        .endm
        pmp  0, MAIN
        pmp  1, MAIN + MAIN_SIZE
        pmp  2, SPM
        pmp  3, SPM + SPM_SIZE
        pmp  4, PATCH
        pmp  5, PATCH + PATCH_SIZE
        pmp  6, AREA
        pmp  7, AREA + AREA_SIZE
        li   t0, 0x0f000f00             # all accesses from 0 to 1 and from 2 to 3 (TOR)
        csrw pmpcfg0, t0
        csrw pmpcfg1, t0                # and from 4 to 5 and from 6 to 7
        csrr t1, pmpcfg0
        bne  t0, t1, start              # there is no PMP
        csrw mcounteren, zero           # counters are CSRs: to read them traps
        li   s2, 0x200000               # user mode, in which WFI traps (TW)
# Begins the program. All registers are 0, and a fetch sees what was copied.
        .balign 4
start:  la   t0, trap
        csrw mtvec, t0
        li   t0, 0x1800
        csrc mstatus, t0
        csrs mstatus, s2
        csrw mepc, s1
        la   t0, area
        csrw mscratch, t0
        fence.i
        .irp n, 1, 2, 3, 4, 5, 6, 7, 8, 9, 10, 11, 12, 13, 14, 15, 16, 17, 18, 19, 20, 21, 22, 23, 24, 25, 26, 27, 28, 29, 30, 31
        li   x\n, 0
        .endr
        mret

# Serves a call. Of the program's registers a0 alone changes. Some cores ask that mtvec is a multiple of 256.
        .balign 256
trap:   csrrw sp, mscratch, sp
        .irp n, 0, 1, 2, 3, 4, 5
        sw   t\n, 4 * \n(sp)
        .endr
        sw   ra, 24(sp)
        csrr t0, mcause
        addi t0, t0, -8                 # a call from user mode
        beqz t0, 1f
        addi t0, t0, 8 - 11             # one from machine mode
        bnez t0, trapped
1:      li   t0, 93
        beq  a7, t0, exit
        li   t0, 64
        beq  a7, t0, write
        li   t0, 63
        beq  a7, t0, read
        li   a0, -38
done:   csrr t0, mepc
        addi t0, t0, 4
        csrw mepc, t0
        .irp n, 0, 1, 2, 3, 4, 5
        lw   t\n, 4 * \n(sp)
        .endr
        lw   ra, 24(sp)
        csrrw sp, mscratch, sp
        mret
write:  jal  check
        mv   a0, a2
        jal  send
        j    done
read:   mv   t5, a2
        li   a0, LEFT
        lw   t0, 0(a0)
        bleu a2, t0, 1f
        mv   a2, t0                     # no more than are left
1:      sub  t0, t0, a2
        sw   t0, 0(a0)
        jal  check
        mv   a0, a2
        mv   a2, t5
        lw   t2, NEXT(sp)
        jal  copy
        sw   t2, NEXT(sp)
        j    done
exit:   andi s1, a0, 255
        la   t0, exit_text
        la   t1, trap_text
        jal  send
        mv   a0, s1
        jal  number
        j    finish
trapped:
        la   t0, trap_text
        la   t1, text_end
        jal  send
        .irp register, mcause, mepc, mtval
        csrr a0, \register
        jal  number
        .endr
        li   s1, 255
finish: li   t2, '\n'
        jal  put
        j    stop

# Lets t0 and t1 be the two ends of the a2 bytes at a1. Where one of them lies in no range the program has trapped, by its
# call, or by a segment that has no room.
check:  mv   t0, a1
        add  t1, a1, a2
        beqz a2, 3f
        bleu t1, a1, trapped            # they pass 2^32, or end there, where no range does
1:      la   t2, ranges
        la   t3, ranges_end
2:      beq  t2, t3, trapped
        lw   t4, 0(t2)
        addi t2, t2, 8
        bltu t0, t4, 2b
        lw   t4, -4(t2)
        bgeu t0, t4, 2b
        mv   t0, t4                     # all below is mapped, and the next range may begin here
        bltu t0, t1, 1b
        mv   t0, a1
3:      ret

# Copies bytes from t2 on to t0 up to t1.
copy:   beq  t0, t1, 1f
        lbu  t3, 0(t2)
        sb   t3, 0(t0)
        addi t0, t0, 1
        addi t2, t2, 1
        j    copy
1:      ret

# Writes the bytes from t0 up to t1.
send:   mv   t5, ra
1:      beq  t0, t1, 2f
        lbu  t2, 0(t0)
        jal  put
        addi t0, t0, 1
        j    1b
2:      jr   t5

# Writes a space and the eight digits of a0.
number: mv   t5, ra
        li   t1, 32
        li   t2, ' '
1:      jal  put
        addi t1, t1, -4
        bltz t1, 2f
        srl  t2, a0, t1
        andi t2, t2, 15
        addi t2, t2, '0'
        li   t3, '9'
        bleu t2, t3, 1b
        addi t2, t2, 'a' - '9' - 1
        j    1b
2:      jr   t5

        .balign 4
ranges: .word MAIN, MAIN + MAIN_SIZE, SPM, SPM + SPM_SIZE, PATCH, PATCH + PATCH_SIZE, AREA, AREA + AREA_SIZE
ranges_end:
area:   .word 0, 0, 0, 0, 0, 0, 0, INPUT
exit_text:
        .ascii "\nexited"
trap_text:
        .ascii "\ntrapped"
text_end:
        .balign 4
