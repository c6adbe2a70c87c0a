# The interprocessor interrupt: this processor raises it for itself by MFRR, accepts it, takes it back and ends it.
        li     r3, 0
        oris   r3, r3, 0xc000
        ori    r9, r3, 0x4004   # XIRR; a load of it accepts
        ori    r10, r3, 0x400c  # MFRR
        ori    r11, r3, 0x4000  # XIRR; a load of it changes nothing
        li     r4, 255
        stb    r4, 0(r9)        # CPPR: every priority but 255 is let through
        li     r5, 0x30
        stb    r5, 0(r10)       # MFRR: source 2 asks with priority 0x30
        lwbrx  r12, r0, r11     # ff000002: it is pending
        lwbrx  r13, r0, r9      # ff000002: it is accepted, and CPPR is 0x30
        lwbrx  r14, r0, r11     # 30000000: nothing is below that
        stb    r4, 0(r10)       # MFRR: 255 masks
        lbz    r15, 0(r9)       # CPPR by itself: 0x30
        stwbrx r13, r0, r9      # the end: CPPR is 255 again
        lwbrx  r16, r0, r9      # ff000000: nothing is pending, so this load accepts nothing
        lbz    r17, 0(r10)      # MFRR: ff
        lwz    r18, 0(r10)      # MFRR and three zeros: ff
        ld     r19, 0(r11)      # no load of 8 bytes is answered: 0
        lhz    r20, 0(r9)       # nor one of 2
        lwz    r21, 4(r10)      # nor one where no register is
here:   b      here
