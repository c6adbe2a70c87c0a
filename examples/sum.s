# A constant in two halves, a sign extension and a sum that wraps.
        lis  r3, 0x1234         # the upper half, r3 = 12340000
        ori  r3, r3, 0x5678     # and the lower one, r3 = 12345678
        li   r4, -1             # all ones
        add  r5, r3, r4         # r5 = 12345677
here:   b    here
