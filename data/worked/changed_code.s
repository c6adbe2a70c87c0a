# A store to the block that the next instruction is fetched from.
lis r3,0x6000
stw r3,8(0)
li r5,1
b .
