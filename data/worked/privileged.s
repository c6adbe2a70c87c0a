# A read of MSR in problem state.
li r3,1
mtspr 48,r3                # process 1
lis r3,1
mtspr 720,r3               # the process table stands at 0x10000
li r4,0x4000
mtspr 27,r4                # problem state
li r5,0x24
mtspr 26,r5
rfid
mfmsr r6
.org 0x700
b .
.org 0x800
b .

.org 0x10010
.be64 0x40000000000200AD   # process 1: 52 bits, root at 0x20000
.org 0x20000
.be64 0x8000000000030009   # root
.org 0x30000
.be64 0x8000000000031009   # second level
.org 0x31000
.be64 0x8000000000032009   # third level
.org 0x32000
.be64 0xC000000000000187   # page 0: read, write, execute
.org 0x32028
.be64 0xC000000000005186   # page 5, at 0x5000
