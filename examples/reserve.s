# A reservation: the first store-conditional finds it, the second doesn't.
        li     r3, 0x100
        lwarx  r4, r0, r3       # loads a word, 0, and reserves its block of 64 bytes
        addi   r4, r4, 1
        stwcx. r4, r0, r3       # stores 1 and ends the reservation: CR field 0 is 2
        li     r4, 9
        stwcx. r4, r0, r3       # stores nothing: CR field 0 is 0
        lwbrx  r5, r0, r3       # the word with its bytes reversed: r5 = 01000000
here:   b      here
