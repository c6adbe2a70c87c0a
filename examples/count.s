# A loop: r3 grows by one every two cycles, as each cycle retires one instruction.
again:  addi r3, r3, 1
        b    again
