# A program in problem state. It reaches pages 5 and 6 and nothing else, and sends its text by a service behind sc. At
# its end it asks for MSR, which is privileged. Before rfid, and in handlers, addresses are real.
        li     r3, 1
        mtspr  48, r3           # PIDR: process 1
        lis    r3, 1
        mtspr  720, r3          # PRTBL: a table of 4 KiB at 0x10000
        li     r4, 0x4000
        mtspr  27, r4           # SRR1: PR alone, but rfid sets EE, IR and DR with it
        li     r5, 0x5000
        mtspr  26, r5           # SRR0: the program's first instruction, in page 5
        rfid

        .org   0x700            # program: SRR1 is 900000000004d031, with bit 45: a privileged instruction
here:   b      here

        .org   0xc00            # the service: it sends the byte in r3, and goes on behind sc
        li     r8, 0
        oris   r8, r8, 0xc000
        ori    r8, r8, 0x2000   # c0002000, where the UART stands
        stb    r3, 0(r8)        # TX
        rfid

        .org   0x7000           # page 5 of the program: its instructions
        li     r4, 0x6000       # where its text stands, in page 6
next:   lbz    r3, 0(r4)
        addi   r4, r4, 1
        cmpli  0, 0, r3, 0
        bc     12, 2, done      # a zero ends it
        sc
        b      next
done:   mfmsr  r3               # trapped, so r3 stays 0

        .org   0x8000           # page 6 of the program: its text, "problem state" and a new line
        .byte  112, 114, 111, 98, 108, 101, 109, 32, 115, 116, 97, 116, 101, 10, 0

        .org   0x10010
        .be64  0x40000000000200ad # process 1: a tree of 52 bits, its root of 13 bits at 0x20000
        .org   0x20000
        .be64  0x8000000000030009 # the root's first: a directory of 9 bits at 0x30000
        .org   0x30000
        .be64  0x8000000000031009 # the next level's: a directory of 9 bits at 0x31000
        .org   0x31000
        .be64  0x8000000000032009 # the third level's: a directory of 9 bits at 0x32000
        .org   0x32028
        .be64  0xc000000000007101 # page 5: at 0x7000, execute, marked as referenced
        .be64  0xc000000000008104 # page 6: at 0x8000, read, marked as referenced
