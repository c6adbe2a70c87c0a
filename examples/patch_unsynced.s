# The same change without dcbst, sync, icbi and isync, in whose places nothing is done. The block of the subroutine is
# changed when it is called again, so the run stops before the word that may be old is used.
start:  bl     answer
        mr     r4, r3           # r4 = 1
        lwz    r5, other(r0)
        li     r6, answer
        stw    r5, 0(r6)        # the block at 40 is changed from here on
        nop
        nop
        nop
        nop
        bl     answer           # the run ends here, at the fetch of the subroutine's first word; r3 = 1
here:   b      here

        .org   64
answer: li     r3, 1
        blr

other:  li     r3, 2            # the word that is stored
