# A text on the UART, a byte at a time: a subroutine sends a byte as soon as the queue of 16 has room for it.
        lis    r3, -0x4000
        rldicl r3, r3, 0, 32
        ori    r3, r3, 0x2000   # r3 = c0002000, where the UART stands
        li     r4, text         # r4: where the next byte stands
next:   lbz    r5, 0(r4)
        cmpli  0, 0, r5, 0      # a zero ends the text
        bc     12, 2, here
        bl     send
        addi   r4, r4, 1
        b      next
here:   b      here

# Sends the byte in r5. It leaves r6 and field 0 of CR changed.
send:   lbz    r6, 16(r3)       # STATUS
        andi.  r6, r6, 8        # 8: the queue is full
        bc     4, 2, send       # then it looks again
        stb    r5, 0(r3)        # TX
        blr

text:   .byte  0x53, 0x65, 0x6e, 0x74, 0x20             # "Sent "
        .byte  0x61, 0x73, 0x20                         # "as "
        .byte  0x74, 0x68, 0x65, 0x20                   # "the "
        .byte  0x71, 0x75, 0x65, 0x75, 0x65, 0x20       # "queue "
        .byte  0x65, 0x6d, 0x70, 0x74, 0x69, 0x65, 0x73 # "empties"
        .byte  0x2e, 0x0a, 0                            # ".", a new line, and the end
