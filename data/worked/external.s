# External comes before the decrementer.
li r3,0
oris r3,r3,0xc000
ori r5,r3,0x2000           # the UART
li r6,2
std r6,32(r5)              # its line is on while nothing waits to be sent
ori r7,r3,0x5800
li r8,5
stwbrx r8,r0,r7            # the line's priority
ori r9,r3,0x4004
li r10,255
stb r10,0(r9)              # every priority is presented
li r11,-1
mtspr 22,r11
mfmsr r4
ori r4,r4,0x8000
mtmsrd r4,1
b .
.org 0x500
b .
