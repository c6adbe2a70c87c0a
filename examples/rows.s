# Each instruction, once or more: sums, loads and stores of every width, cache, prefixed rows, results
# with carries, of logic, rotates and shifts, counts, permutes, products and quotients, compares, the condition
# register, traps that don't hold, branches, and the system. All of it runs twice, at first privileged and with real
# addresses, then in problem state behind translations. There the handler at 700 counts in r1 what is privileged, and
# goes on behind it.
        addi   r3, r0, 0x800    # r3: where the bytes stand
        addis  r4, r0, -2       # r4 = fffffffffffe0000
        ori    r4, r4, 0x8081   # r4 = fffffffffffe8081
        add    r5, r3, r4
        li     r6, 8            # r6: an index
        li     r7, 0x600        # r7: a pointer that is updated
        b      stores
        .org   64

# Stores: by displacement and by index, with update (u), with bytes reversed (brx), cache-inhibited (cix).
stores: stb    r4, 0(r3)
        sth    r4, 2(r3)
        stw    r4, 4(r3)
        std    r4, 8(r3)
        stbu   r4, 1(r7)
        sthu   r4, 1(r7)
        stwu   r4, 2(r7)
        stdu   r4, 4(r7)        # r7 = 608
        stbx   r4, r3, r6
        sthx   r4, r3, r6
        stwx   r4, r3, r6
        stdx   r4, r3, r6
        stbux  r4, r7, r6
        sthux  r4, r7, r6
        stwux  r4, r7, r6
        stdux  r4, r7, r6       # r7 = 628
        sthbrx r4, r7, r6
        stwbrx r4, r7, r6
        stdbrx r4, r7, r6
        stbcix r4, r3, r6
        sthcix r4, r3, r6
        stwcix r4, r3, r6
        stdcix r4, r3, r6

# Loads: z extends with zeros, a with the sign.
        lbz    r8, 0(r3)        # 81
        lhz    r8, 2(r3)        # 8081
        lha    r8, 2(r3)        # ffffffffffff8081
        lwz    r8, 4(r3)        # fffe8081
        lwa    r8, 4(r3)        # fffffffffffe8081
        ld     r8, 8(r3)        # fffffffffffe8081
        li     r7, 0x800
        lbzu   r9, 0(r7)
        lhzu   r9, 2(r7)
        lhau   r9, 2(r7)
        lwzu   r9, 0(r7)
        ldu    r9, 4(r7)        # r7 = 808
        li     r6, 0
        lbzx   r10, r7, r6
        lhzx   r10, r7, r6
        lhax   r10, r7, r6
        lwzx   r10, r7, r6
        lwax   r10, r7, r6
        ldx    r10, r7, r6
        lbzux  r11, r7, r6
        lhzux  r11, r7, r6
        lhaux  r11, r7, r6
        lwzux  r11, r7, r6
        lwaux  r11, r7, r6
        ldux   r11, r7, r6
        lhbrx  r12, r7, r6      # 8180
        lwbrx  r12, r7, r6      # 8180feff
        ldbrx  r12, r7, r6      # 8180feffffffffff
        lbzcix r13, r7, r6
        lhzcix r13, r7, r6
        lwzcix r13, r7, r6
        ldcix  r13, r7, r6

# A reservation of each width, and the store that ends it.
        lbarx  r14, r0, r7
        stbcx. r14, r0, r7
        lharx  r14, r0, r7
        sthcx. r14, r0, r7
        lwarx  r14, r0, r7
        stwcx. r14, r0, r7
        ldarx  r14, r0, r7
        stdcx. r14, r0, r7      # CR field 0 is 2: it stored

# Blocks of 64 bytes: hints, cleaning, and zeros.
        dcbt   r0, r7
        dcbtst r0, r7
        dcbst  r0, r7
        dcbf   r0, r7
        icbi   r0, r7
        dcbz   r0, r7           # the block from 800 on becomes zeros

# Prefixed rows, with a displacement of 34 bits; none of them may cross a block.
        b      wide
        .org   512
wide:   paddi  r15, r0, 0x10400, 0
        pstb   r4, 0x10400(r0), 0
        psth   r4, 2(r15), 0
        pstw   r4, 4(r15), 0
        pstd   r4, 8(r15), 0
        plbz   r16, 0(r15), 0
        plhz   r16, 2(r15), 0
        plha   r17, 2(r15), 0   # ffffffffffff8081
        plwz   r18, 4(r15), 0   # fffe8081
        plwa   r19, 4(r15), 0   # fffffffffffe8081
        pld    r20, 8(r15), 0   # fffffffffffe8081
        pnop

# Results that are there in one cycle, of the word fffe8081 and its extensions.
        li     r21, -1
        li     r22, 1
        addic  r23, r21, 1      # 0, with CA
        addze  r23, r23         # 1
        addic. r23, r21, 1      # 0, with CA and CR field 0
        adde   r23, r18, r19    # fffffffd0103
        subfe  r23, r18, r19
        addme  r23, r18
        subfme r23, r18
        subfze r23, r18
        subfic r23, r18, 0
        addc   r23, r18, r19
        subfc  r23, r18, r19
        addex  r23, r18, r19, 0
        subf   r23, r22, r18    # fffe8080
        neg    r23, r22         # ffffffffffffffff
        addpcis r24, 0          # the address behind it
        oris   r25, r22, 0xffff # ffff0001
        xori   r25, r18, 0xffff # fffe7f7e
        xoris  r25, r18, 0xffff # 00018081
        andi.  r25, r18, 0xff00 # 8000
        andis. r25, r18, 0xff00 # ff000000, with CR field 0
        and    r26, r18, r25    # ff000000
        andc   r26, r18, r25    # fe8081
        or     r26, r18, r25
        orc    r26, r18, r25
        xor    r26, r18, r25
        eqv    r26, r18, r25
        nand   r26, r18, r25
        nor    r26, r18, r25    # ffffffff00017f7e
        rlwinm r27, r18, 8, 24, 31
        rlwnm  r27, r18, r22, 0, 31
        rlwimi r27, r18, 16, 0, 15
        rldicl r27, r18, 8, 56
        rldicr r27, r18, 32, 31
        rldic  r27, r18, 16, 16
        rldimi r27, r18, 0, 32
        rldcl  r27, r18, r22, 0
        rldcr  r27, r18, r22, 62 # 1fffd0102
        slw    r28, r18, r22    # fffd0102
        srw    r28, r18, r22    # 7fff4040
        sld    r28, r18, r22
        srd    r28, r18, r22
        sraw   r28, r18, r22    # ffffffffffff4040
        srawi  r28, r18, 8
        srad   r28, r18, r22
        sradi  r28, r19, 8      # fffffffffffffe80
        extswsli r28, r18, 4    # ffffffffffe80810
        extsb  r29, r18         # ffffffffffffff81
        extsh  r29, r18         # ffffffffffff8081
        extsw  r29, r18         # fffffffffffe8081

# Counts and permutes.
        cntlzw r30, r18         # 0
        cntlzd r30, r18         # 20
        cnttzw r30, r18         # 0
        cnttzd r30, r4          # 0
        cntlzdm r30, r18, r4
        cnttzdm r30, r18, r4
        popcntb r30, r18
        popcntw r30, r18
        popcntd r30, r18        # 12
        prtyw  r30, r18
        prtyd  r30, r18
        brh    r30, r18         # feff8180
        brw    r30, r18         # 8180feff
        brd    r30, r18         # 8180feff00000000
        pdepd  r30, r22, r18
        pextd  r30, r4, r18
        cfuged r30, r4, r18
        bpermd r30, r22, r4
        cmpb   r30, r18, r4     # ffffffff

# Products, quotients and rests.
        mulli  r31, r18, 3      # 2fffb8183
        mullw  r31, r18, r18
        mulld  r31, r18, r18
        mulhw  r31, r18, r18
        mulhwu r31, r18, r18
        mulhd  r31, r19, r19
        mulhdu r31, r19, r19
        maddld r31, r18, r22, r18 # 1fffd0102
        maddhd r31, r19, r22, r19 # ffffffffffffffff
        maddhdu r31, r19, r22, r19 # 1
        divd   r31, r19, r22
        divdu  r31, r19, r18
        divw   r31, r19, r22
        divwu  r31, r19, r22
        divde  r31, r22, r19
        divdeu r31, r22, r19
        divwe  r31, r22, r18
        divweu r31, r22, r18
        modsd  r31, r19, r18
        modud  r31, r19, r18
        modsw  r31, r19, r22
        moduw  r31, r19, r3     # 81, of fffe8081 by 800

# Compares: of -1 and 1, of a byte with a range of them, of a byte with eight.
        cmpi   0, 1, r21, 0     # field 0 is 8: less
        cmpli  1, 0, r21, 1     # field 1 is 4: greater, as words without a sign
        cmp    2, 1, r22, r21   # field 2 is 4
        cmpl   3, 1, r22, r21   # field 3 is 8
        cmprb  4, 0, r4, r5     # field 4 is 4: 81 lies between 81 and 88
        cmpeqb 5, r4, r18       # field 5 is 4: 81 is one of the bytes of fffe8081
        mcrxrx 6                # field 6 is f: OV, OV32, CA and CA32

# Bits of the condition register, its fields, and registers that are chosen by them.
        crand  28, 0, 5         # 1
        crnand 29, 0, 5         # 0
        cror   30, 1, 5         # 1
        crnor  31, 1, 2         # 1
        crxor  28, 28, 30       # 0
        crandc 29, 0, 2         # 1
        creqv  30, 30, 29       # 1
        crorc  31, 1, 0         # 0: field 7 is 6
        mcrf   1, 7             # field 1 is 6
        mfcr   r8               # 864844f6
        mfocrf r9, 0x80         # 80000000: field 0
        isel   r10, r21, r22, 0 # ffffffffffffffff, as bit 0 is 1
        setb   r11, 0           # ffffffffffffffff, as field 0 says less
        setbc  r13, 5           # 1, as bit 5 is 1
        setbcr r14, 5           # 0
        setnbc r15, 5           # ffffffffffffffff
        setnbcr r16, 5          # 0
        mtcrf  0x01, r22        # field 7 is 1
        mtocrf 0x40, r4         # field 1 is f

# Conditions of traps that don't hold.
        tdi    16, r22, 0       # 1 is less than 0
        twi    4, r22, 2        # equal to 2
        td     2, r21, r22      # all ones, without a sign, is less than 1
        tw     8, r21, r22      # -1 is greater than 1

# Branches: a subroutine whose first two returns aren't taken.
        bl     sub              # LR is the address behind it
        bc     16, 0, here      # CTR falls from 0 to all ones: taken
sub:    bcctr  4, 0, 0          # not taken, as bit 0 is 1
        bctar  4, 0, 0          # likewise
        bclr   12, 0, 0         # taken, to LR

# The system: MSR, registers by number, what orders, a service that returns at once, and returns. What is privileged is
# marked by *.
here:   mfmsr  r17              # * 9000000000001001
        mtmsrd r17, 1           # * EE and RI alone, which stay 0
        mtmsr  r17, 0           # * all that can change, and stays
        mtspr  272, r22         # * SPRG0 = 1
        mfspr  r18, 272         # * 1
        mtspr  815, r22         # TAR = 1, which isn't privileged
        mfspr  r18, 815         # 1
        mftb   r19, 268         # the cycle
        darn   r20, 1           # ffffffffffffffff: there is no random number
        isync
        sync   0
        sync   2                # *
        eieio
        tlbsync                 # *
        tlbie  r3, r22, 0, 0, 0 # *
        tlbiel r3, r22, 0, 0, 0 # *
        sc                      # to c00, and back by rfid
        li     r5, turn
        mtspr  314, r5          # * HSRR0
        mtspr  315, r17         # * HSRR1: MSR as it is
        hrfid                   # *
turn:   lis    r5, 2
        mtspr  720, r5          # * PRTBL: a table of 4 KiB at 0x20000
        li     r5, 0
        mtspr  26, r5           # * SRR0: all of it again
        li     r5, 0x4000
        mtspr  27, r5           # * SRR1: PR, with which EE, IR and DR are set
        rfid                    # *
last:   b      last

        .org   0x700            # program: the word at SRR0 is privileged
        addi   r1, r1, 1
        mfspr  r2, 26
        addi   r2, r2, 4
        mtspr  26, r2           # SRR0: the word behind it
        rfid

        .org   0xc00
        rfid

        .org   0x20000
        .be64  0x0000000000021007 # process 0: a tree of 31 bits, its root of 7 bits at 0x21000
        .org   0x21000
        .be64  0xc000000000000187 # a page of 16 MiB, all of RAM: read, write, execute, referenced and changed
