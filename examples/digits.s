# A number's decimal digits on the UART, one after the other, without a branch between them: 49321.
        lis    r3, -0x4000
        rldicl r3, r3, 0, 32
        ori    r3, r3, 0x2000   # r3 = c0002000, where the UART stands
        li     r4, 0
        ori    r4, r4, 49321    # r4: what is left of the number
        li     r5, 10           # r5: ten
        li     r6, 10000        # r6: the worth of the next digit
        divdu  r7, r4, r6       # 4
        addi   r7, r7, 0x30
        stb    r7, 0(r3)
        modud  r4, r4, r6       # 9321 is left
        divdu  r6, r6, r5       # 1000
        divdu  r7, r4, r6
        addi   r7, r7, 0x30
        stb    r7, 0(r3)
        modud  r4, r4, r6
        divdu  r6, r6, r5       # 100
        divdu  r7, r4, r6
        addi   r7, r7, 0x30
        stb    r7, 0(r3)
        modud  r4, r4, r6
        divdu  r6, r6, r5       # 10
        divdu  r7, r4, r6
        addi   r7, r7, 0x30
        stb    r7, 0(r3)
        modud  r4, r4, r6       # 1: the last digit
        addi   r7, r4, 0x30
        stb    r7, 0(r3)
here:   b      here
