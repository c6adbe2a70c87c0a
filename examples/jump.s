# A jump to a page without the right: page 5 may be read and written, but not executed. So the fetch there raises the
# instruction storage interrupt. Its handler keeps SRR1, which tells why, and goes back behind the jump.
        li     r3, 1
        mtspr  48, r3           # PIDR: process 1
        lis    r3, 1
        mtspr  720, r3          # PRTBL: a table of 4 KiB at 0x10000
        mfmsr  r4
        ori    r4, r4, 32       # IR: instruction addresses are translated, from the next one on
        mtmsrd r4, 0
        bl     0x5000           # a fault in cycle 8
here:   b      here

        .org   0x400            # instruction storage: SRR0 is 5000
        mfspr  r5, 27           # SRR1, 9000000010001021: bit 35, not permitted, and MSR as it was
        mfspr  r6, 8            # LR
        mtspr  26, r6           # SRR0: behind the jump
        rfid

        .org   0x5000           # what isn't reached
        li     r7, 7
        blr

        .org   0x10010
        .be64  0x40000000000200ad # process 1: a tree of 52 bits, its root of 13 bits at 0x20000
        .org   0x20000
        .be64  0x8000000000030009 # the root's first: a directory of 9 bits at 0x30000
        .org   0x30000
        .be64  0x8000000000031009 # the next level's: a directory of 9 bits at 0x31000
        .org   0x31000
        .be64  0x8000000000032009 # the third level's: a directory of 9 bits at 0x32000
        .org   0x32000
        .be64  0xc000000000000187 # page 0: at 0, read, write, execute, marked as referenced and changed
        .org   0x32028
        .be64  0xc000000000005186 # page 5: at 0x5000, read and write, marked as referenced and changed
