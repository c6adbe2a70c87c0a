# A clock: the decrementer interrupts a loop that does nothing; its handler sets it again, counts, and sends a point.
        li     r3, 0
        oris   r3, r3, 0xc000
        ori    r3, r3, 0x2000   # the UART
        li     r5, 1000
        li     r7, 46           # a point
        mtspr  22, r5           # DEC: 1,001 cycles on its top bit is 1
        mfmsr  r4
        ori    r4, r4, 0x8000
        mtmsrd r4, 1            # EE: from here on an interrupt is taken where one is pending
idle:   b      idle

        .org   0x900
        mtspr  22, r5           # DEC: nothing is pending any more
        addi   r6, r6, 1
        stb    r7, 0(r3)        # TX
        rfid                    # back to idle, and EE is 1 again
