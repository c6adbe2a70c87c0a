# A console: it sends a greeting, and then sends back what arrives, as console.script says. It polls the UART's STATUS.
        lis    r3, -0x4000
        rldicl r3, r3, 0, 32
        ori    r3, r3, 0x2000   # r3 = c0002000, where the UART stands
        li     r5, text
next:   lbz    r6, 0(r5)
        cmpli  0, 0, r6, 0      # a zero ends the greeting
        bc     12, 2, echo
        bl     send
        addi   r5, r5, 1
        b      next

echo:   lbz    r7, 16(r3)       # STATUS
        andi.  r7, r7, 1        # 1: no byte waits
        bc     4, 2, echo
        lbz    r6, 8(r3)        # RX: the byte that arrived first
        bl     send
        b      echo

# Sends the byte in r6. It leaves r7 and field 0 of CR changed.
send:   lbz    r7, 16(r3)
        andi.  r7, r7, 8        # 8: the queue is full
        bc     4, 2, send
        stb    r6, 0(r3)        # TX
        blr

text:   .byte  0x52, 0x65, 0x61, 0x64, 0x79, 0x2e       # "Ready."
        .byte  0x0a, 0                                  # a new line, and the end
