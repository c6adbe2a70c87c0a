# A constant of 34 bits.
paddi r3,0,-8589934592,1
b .
