# The decrementer interrupts as soon as it is 0 and less.
mfmsr r4
ori r4,r4,0x8000
mtmsrd r4,1
li r3,0
mtspr 22,r3
nop
nop
b .
.org 0x900
b .
