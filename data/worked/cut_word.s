# A last word of which a byte is missing: it is 0.
.byte 5,0,0x60
