# A UART that is kept busy: a byte every 160 cycles, and all others are lost.
        ld   r3, uart(r0)
        li   r4, 65
again:  stb  r4, 0(r3)
        b    again
        .org 32
uart:   .quad 0xc0002000
