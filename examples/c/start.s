# What stands before main: the first instruction at 0, the vectors, and the end. A source of GNU as.
        .machine "power10"

# A call through r12, where a function of C finds its own address and makes the address of its table (r2) of it.
        .macro  calls function
        lis     %r12, \function@ha
        addi    %r12, %r12, \function@l
        mtctr   %r12
        bctrl
        .endm

        .section .start, "ax"
        .globl  start
start:  lis     %r1, stack_top@ha       # the stack: it grows down from the end of RAM
        addi    %r1, %r1, stack_top@l
        li      %r0, 0
        stdu    %r0, -32(%r1)           # the first frame, whose caller is none
        calls   main
here:   b       here                    # main returned

# An interrupt that no program of these asks for stays at its vector, and cia tells which it was.
        .macro  stays vector
        .org    \vector
        b       .
        .endm
        stays   0x500
        stays   0x600
        stays   0x700
        stays   0x800

# The decrementer: what a function of C may change is kept, and on_decrementer is called. Below r1 there are 288 bytes
# that a function uses without making a frame, so this frame goes below them.
        .org    0x900
decrementer:
        stdu    %r1, -448(%r1)
        std     %r0, 32(%r1)
        std     %r2, 40(%r1)
        std     %r3, 48(%r1)
        std     %r4, 56(%r1)
        std     %r5, 64(%r1)
        std     %r6, 72(%r1)
        std     %r7, 80(%r1)
        std     %r8, 88(%r1)
        std     %r9, 96(%r1)
        std     %r10, 104(%r1)
        std     %r11, 112(%r1)
        std     %r12, 120(%r1)
        mflr    %r0
        std     %r0, 128(%r1)
        mfctr   %r0
        std     %r0, 136(%r1)
        mfxer   %r0
        std     %r0, 144(%r1)
        mfcr    %r0
        std     %r0, 152(%r1)
        calls   on_decrementer
        ld      %r0, 128(%r1)
        mtlr    %r0
        ld      %r0, 136(%r1)
        mtctr   %r0
        ld      %r0, 144(%r1)
        mtxer   %r0
        ld      %r0, 152(%r1)
        mtcr    %r0
        ld      %r0, 32(%r1)
        ld      %r2, 40(%r1)
        ld      %r3, 48(%r1)
        ld      %r4, 56(%r1)
        ld      %r5, 64(%r1)
        ld      %r6, 72(%r1)
        ld      %r7, 80(%r1)
        ld      %r8, 88(%r1)
        ld      %r9, 96(%r1)
        ld      %r10, 104(%r1)
        ld      %r11, 112(%r1)
        ld      %r12, 120(%r1)
        addi    %r1, %r1, 448
        rfid

        stays   0xc00
        stays   0xf20
        stays   0xf40

# A program that has no on_decrementer stays here.
        .org    0xf80
        .weak   on_decrementer
on_decrementer:
        b       .
        .org    0x1000
