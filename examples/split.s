# An access across two pages that don't stand side by side: pages 5 and 6 are translated to 0x5000 and 0x9000. A store
# of 8 bytes at 0x5ffc lays four in each, and a load there puts them together again: r7 is all ones.
        li     r3, 1
        mtspr  48, r3           # PIDR: process 1
        lis    r3, 1
        mtspr  720, r3          # PRTBL: a table of 4 KiB at 0x10000
        mfmsr  r4
        ori    r4, r4, 16       # DR: data addresses are translated
        mtmsrd r4, 0
        li     r5, 0x5ffc
        li     r6, -1
        std    r6, 0(r5)        # to 0x5ffc..0x5fff and 0x9000..0x9003
        ld     r7, 0(r5)
here:   b      here

        .org   0x10010          # process 1: a tree of 52 bits, its root of 13 bits at 0x20000
        .be64  0x40000000000200ad
        .org   0x20000          # the root, and two levels of 9 bits behind it
        .be64  0x8000000000030009
        .org   0x30000
        .be64  0x8000000000031009
        .org   0x31000
        .be64  0x8000000000032009
        .org   0x32000          # page 0: read, write, execute, marked as referenced and changed
        .be64  0xc000000000000187
        .org   0x32028          # page 5 at 0x5000, page 6 at 0x9000: read and write, marked too
        .be64  0xc000000000005186, 0xc000000000009186
