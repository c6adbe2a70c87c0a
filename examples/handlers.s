# Four mistakes, each of which goes to a handler that counts it and goes on: r20 counts alignment, r21 program, r23
# floating-point unavailable interrupts. Each stands in a subroutine, so the handler's blr leads on behind the call.
        bl     reserve
        bl     illegal
        bl     trapped
        bl     float
here:   b      here             # r20 = 1, r21 = 2, r23 = 1

reserve:
        li     r3, 0x101
        lwarx  r4, r0, r3       # not a multiple of 4: DAR is 101
illegal:
        .long  0                # no instruction
trapped:
        twi    31, r3, 0        # a condition that always holds
float:
        .long  0xc8200000       # a load of floating point

        .org   0x600
        addi   r20, r20, 1
        blr
        .org   0x700
        addi   r21, r21, 1
        blr
        .org   0x800
        addi   r23, r23, 1
        blr
