# Seventeen bytes arrive at once: 16 wait and one is lost.
li r3,0
oris r3,r3,0xc000
ori r3,r3,0x2000           # the UART
ld r4,16(r3)
li r5,16
mtspr 9,r5
li r6,0
loop:
lbz r7,8(r3)
add r6,r6,r7
bc 16,0,loop
ld r9,16(r3)
lbz r10,8(r3)
b .
