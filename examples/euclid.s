# The greatest common divisor of 1071 and 462, by Euclid's algorithm: the loop ends with a rest of 0.
        li     r3, 1071
        li     r4, 462
loop:   modud  r5, r3, r4       # what r4 leaves of r3
        mr     r3, r4
        mr     r4, r5
        cmpli  0, 1, r4, 0      # all 64 bits beside 0
        bc     4, 2, loop       # again, unless they are equal
here:   b      here             # r3 = 15, which is 21
