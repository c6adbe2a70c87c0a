# A page fault that is mended: the leaf of page 5 isn't marked as changed, so the first store there raises the data
# storage interrupt. Its handler marks the leaf and returns to the store. Process 1 has a tree of 52 address bits.
        li     r3, 1
        mtspr  48, r3           # PIDR: process 1
        lis    r3, 1
        mtspr  720, r3          # PRTBL: a table of 4 KiB at 0x10000
        mfmsr  r4
        ori    r4, r4, 16       # DR: data addresses are translated
        mtmsrd r4, 0
        li     r5, 0x5000
        li     r6, -1
        std    r6, 0(r5)        # a fault in cycle 9, and done in cycle 15
here:   b      here

        .org   0x300            # data storage: DAR is 5000, DSISR 02040000
        lis    r9, 3
        ori    r9, r9, 0x202f   # the last byte of page 5's leaf
        li     r10, 0x86        # C, read and write
        stb    r10, 0(r9)       # DR is 0 here, so this is a real address
        rfid

        .org   0x10010          # process 1: a tree of 52 bits, its root of 13 bits at 0x20000
        .be64  0x40000000000200ad
        .org   0x20000          # the root, and two levels of 9 bits behind it
        .be64  0x8000000000030009
        .org   0x30000
        .be64  0x8000000000031009
        .org   0x31000
        .be64  0x8000000000032009
        .org   0x32000          # page 0: read, write, execute, marked as referenced and changed
        .be64  0xc000000000000187
        .org   0x32028          # page 5 at 0x5000: read and write, marked as referenced alone
        .be64  0xc000000000005106
