# Prefixed instructions: 34 bits of displacement, and addresses that count from the instruction itself.
        paddi r3, r0, -8589934592, 0    # the least number of 34 bits: r3 = fffffffe00000000
        paddi r4, r0, table - 8, 1      # the address of the table, from the instruction's own, 8: r4 = 40
        pld   r5, table - 8(r0), 1      # the table's second doubleword: 8 on from the table, less its own address, 16
        plwa  r6, 4(r4), 0              # its second word, with its sign: r6 = ffffffffdeadbeef
        lwz   r7, 0(r4)                 # a plain load of the first: r7 = 12345678
        pnop
here:   b     here
        .org 64
table:  .long 0x12345678, 0xdeadbeef
        .quad 0x0123456789abcdef
