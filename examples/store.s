# A store of 8 bytes that isn't aligned, and loads of its parts.
        li   r3, 256
        li   r4, -1             # all ones
        std  r4, 4(r3)          # the bytes 104 to 10b become ff
        lwz  r5, 8(r3)          # its second half, with zeros above: r5 = ffffffff
        lha  r6, 2(r3)          # what stands before it: r6 = 0
here:   b    here
