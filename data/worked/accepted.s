# The controller, polled: accept, nothing below, end.
li r3,0
oris r3,r3,0xc000
ori r5,r3,0x2000           # the UART
li r6,2
std r6,32(r5)              # its line is on while nothing waits to be sent
ori r7,r3,0x5800
li r8,5
stwbrx r8,r0,r7            # the line's priority
ori r9,r3,0x4004
li r10,255
stb r10,0(r9)              # every priority is presented
lwbrx r12,r0,r9
lwbrx r13,r0,r9
li r6,0
std r6,32(r5)
stwbrx r12,r0,r9
lwbrx r14,r0,r9
b .
