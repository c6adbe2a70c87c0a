# A page that is moved, and used where it was.
li r3,1
mtspr 48,r3                # process 1
lis r3,1
mtspr 720,r3               # the process table stands at 0x10000
mfmsr r8
ori r4,r8,16
li r5,0x5000
lis r9,3
ori r9,r9,0x202e           # the byte of page 5's leaf that says where it stands
li r10,0x71
mtmsrd r4,0
ld r7,0(r5)
mtmsrd r8,0
stb r10,0(r9)              # at 0x7000 from now on
mtmsrd r4,0
ld r7,0(r5)
b .
.org 0x5000
.quad 0x55
.org 0x7000
.quad 0x77

.org 0x10010
.be64 0x40000000000200AD   # process 1: 52 bits, root at 0x20000
.org 0x20000
.be64 0x8000000000030009   # root
.org 0x30000
.be64 0x8000000000031009   # second level
.org 0x31000
.be64 0x8000000000032009   # third level
.org 0x32000
.be64 0xC000000000000187   # page 0: read, write, execute
.org 0x32028
.be64 0xC000000000005186   # page 5, at 0x5000
