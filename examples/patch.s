# Code that is changed: a subroutine is called, the first of its two words is stored anew and made known (dcbst, sync,
# icbi, isync), and it is called again. It has a block of 64 bytes for itself, so that no store marks this program's own.
start:  bl     answer
        mr     r4, r3           # r4 = 1
        lwz    r5, other(r0)
        li     r6, answer
        stw    r5, 0(r6)        # the block at 40 is changed from here on
        dcbst  r0, r6           # the word goes to memory
        sync   0
        icbi   r0, r6           # what was fetched from there is given up: the block is invalidated
        isync                   # and what follows is fetched anew: the block is clean
        bl     answer           # r3 = 2
here:   b      here

        .org   64
answer: li     r3, 1
        blr

other:  li     r3, 2            # the word that is stored
