# A sum and a difference of 128 bits, each in two halves: a is 1ffffffffffffffff, b is 20000000000000003.
        li     r3, 1            # a's high half
        li     r4, -1           # and its low one
        li     r5, 2            # b's high half
        li     r6, 3            # and its low one
        addc   r8, r4, r6       # the low half of a + b, with its carry in CA: 2
        adde   r7, r3, r5       # the high half takes the carry: 4
        subfc  r10, r6, r4      # the low half of a - b; CA is 1, as nothing is borrowed: fffffffffffffffc
        subfe  r9, r5, r3       # the high half: -1
here:   b      here
