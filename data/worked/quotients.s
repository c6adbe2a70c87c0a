# Quotients that don't fit, or don't exist.
li r3,1
rldicr r3,r3,63,0          # the least number with a sign
li r4,-1
divdo r5,r3,r4
li r6,0
divdo r7,r3,r6
b .
