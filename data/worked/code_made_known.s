# Code that is changed, made known and run.
lis r3,0x38a0
ori r3,r3,2                # li r5,2
li r4,64
stw r3,0(r4)
dcbst 0,r4
sync 0
icbi 0,r4
isync
b 64
.org 64
li r5,1
b .
