# The UART's receive queue: 17 bytes arrive at once, as queue.script says; 16 wait, and the last one is lost.
        li   r3, 0
        oris r3, r3, 0xc000
        ori  r3, r3, 0x2000     # the UART
        ld   r4, 16(r3)         # STATUS: 4, the queue is full, and 2, nothing waits to be sent
        lbz  r5, 8(r3)          # RX: the first byte
        lbz  r6, 8(r3)
        lbz  r7, 8(r3)
        lbz  r8, 8(r3)
        lbz  r9, 8(r3)
        lbz  r10, 8(r3)
        lbz  r11, 8(r3)
        lbz  r12, 8(r3)
        lbz  r13, 8(r3)
        lbz  r14, 8(r3)
        lbz  r15, 8(r3)
        lbz  r16, 8(r3)
        lbz  r17, 8(r3)
        lbz  r18, 8(r3)
        lbz  r19, 8(r3)
        lbz  r20, 8(r3)
        lbz  r21, 8(r3)         # 0: there is none
        ld   r22, 16(r3)        # STATUS: 1, the queue is empty, and 2
here:   b    here
