# A console that polls: a greeting, and then what arrives is sent back.
li r3,0
oris r3,r3,0xc000
ori r3,r3,0x2000
li r4,53
std r4,24(r3)              # the clock divider
li r5,text
next:
lbz r6,0(r5)
cmpli 0,1,r6,0
bc 12,2,echo
send:
ld r7,16(r3)
andi. r7,r7,8
bc 4,2,send
stb r6,0(r3)
addi r5,r5,1
b next
echo:
ld r7,16(r3)
andi. r7,r7,1
bc 4,2,echo
lbz r6,8(r3)
put:
ld r7,16(r3)
andi. r7,r7,8
bc 4,2,put
stb r6,0(r3)
b echo
text:
.byte 72,101,108,108,111,32,87,111,114,108,100,10,0
