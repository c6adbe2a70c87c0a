# A device's interrupt, polled: the UART's line gets priority 5, is accepted and ended. The controller is big-endian.
        li     r3, 0
        oris   r3, r3, 0xc000
        ori    r5, r3, 0x2000   # the UART
        li     r6, 2
        std    r6, 32(r5)       # IRQ_EN: its line is on while nothing waits to be sent
        ori    r7, r3, 0x5800
        li     r8, 5
        stwbrx r8, r0, r7       # the priority of line 0
        ori    r9, r3, 0x4004   # XIRR
        li     r10, 255
        stb    r10, 0(r9)       # CPPR: every priority but 255 is let through
        lwbrx  r12, r0, r9      # the accept: ff000010, the CPPR as it was and source 16
        lwbrx  r13, r0, r9      # 05000000: CPPR is 5 now, and nothing is below it
        li     r6, 0
        std    r6, 32(r5)       # IRQ_EN: the line is off
        stwbrx r12, r0, r9      # the end of the interrupt: CPPR is 255 again
        lwbrx  r14, r0, r9      # ff000000: nothing is pending
here:   b      here
