# A constant, and a loop.
li r3,5
b .
