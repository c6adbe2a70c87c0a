# A reservation that serves once, and a plain store beside it.
li r5,7
li r3,0x1000
ldarx r4,r0,r3
std r3,8(r3)
stdcx. r5,r0,r3
mfcr r6
li r8,9
stdcx. r8,r0,r3
mfcr r7
b .
