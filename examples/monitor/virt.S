# What the monitor has of the part: here of qemu's machine `virt`.
        .equ UART, 0x10000000           # a 16550
        .equ FINISHER, 0x00100000       # ends qemu
        .equ IMAGE, 0x82000000          # the program's ELF file. Where none is here, the program has been loaded already,
        .equ ENTRY, 0x83fffff8          # and this word is its entry
        .equ LEFT, 0x83fffffc           # a word: how many bytes of the input are left
        .equ INPUT, 0x84000000

        .section .text.part, "ax", @progbits
# Writes the byte t2, by t3 and t4 alone.
put:    li   t3, UART
1:      lbu  t4, 5(t3)
        andi t4, t4, 0x20               # it can take a byte
        beqz t4, 1b
        sb   t2, 0(t3)
        ret

# Ends, with the status s1 where there is one to take it.
stop:   li   t0, 0x3333
        slli s1, s1, 16
        or   s1, s1, t0
        li   t0, FINISHER
        sw   s1, 0(t0)
1:      j    1b
