# A translation that is used stale: page 5 is used, its leaf is changed, and it is used again without tlbie and ptesync. A
# processor may still use the page at 0x5000, so the run stops before the second load: r7 is 55.
        li     r3, 1
        mtspr  48, r3           # PIDR: process 1
        lis    r3, 1
        mtspr  720, r3          # PRTBL: a table of 4 KiB at 0x10000
        mfmsr  r8
        ori    r4, r8, 16       # DR: data addresses are translated
        li     r5, 0x5000
        lis    r9, 3
        ori    r9, r9, 0x202e   # a byte of page 5's leaf at 0x32028
        li     r10, 0x71        # with it the leaf is that of real page 0x7000
        mtmsrd r4, 0
        ld     r7, 0(r5)        # the translation of page 5 is used from here on: r7 = 55
        mtmsrd r8, 0
        stb    r10, 0(r9)       # the leaf is changed
        mtmsrd r4, 0
        ld     r7, 0(r5)        # the run ends here
here:   b      here

        .org   0x5000           # page 5 as it stands at first: 55 is loaded
        .quad  0x55
        .org   0x7000           # and as it stands then: 77
        .quad  0x77

        .org   0x10010          # process 1: a tree of 52 bits, its root of 13 bits at 0x20000
        .be64  0x40000000000200ad
        .org   0x20000          # the root, and two levels of 9 bits behind it
        .be64  0x8000000000030009
        .org   0x30000
        .be64  0x8000000000031009
        .org   0x31000
        .be64  0x8000000000032009
        .org   0x32028          # page 5 at 0x5000: read and write, marked as referenced and changed
        .be64  0xc000000000005186
