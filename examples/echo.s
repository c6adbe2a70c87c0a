# An echo without polling: what arrives interrupts a loop that does nothing, and the handler sends it back.
        li     r3, 0
        oris   r3, r3, 0xc000
        ori    r4, r3, 0x2000   # the UART
        ori    r5, r3, 0x4004   # XIRR
        ori    r6, r3, 0x5800
        li     r7, 5
        stwbrx r7, r0, r6       # the priority of line 0, the UART's
        li     r7, 255
        stb    r7, 0(r5)        # CPPR: every priority but 255 is let through
        li     r7, 1
        std    r7, 32(r4)       # IRQ_EN: the line is on while a received byte waits
        mfmsr  r8
        ori    r8, r8, 0x8000
        mtmsrd r8, 1            # EE: from here on an interrupt is taken where one is pending
idle:   b      idle

        .org   0x500
        lwbrx  r9, r0, r5       # the accept: r9 = ff000010
again:  lbz    r10, 8(r4)       # RX: the byte that arrived first
        stb    r10, 0(r4)       # TX
        ld     r11, 16(r4)      # STATUS
        andi.  r11, r11, 1      # 1: no byte waits
        bc     12, 2, again
        stwbrx r9, r0, r5       # the end of the interrupt
        rfid                    # back to idle, and EE is 1 again
