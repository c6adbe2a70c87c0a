# A prefix as the last word of its block of 64 bytes.
nop
nop
nop
nop
nop
nop
nop
nop
nop
nop
nop
nop
nop
nop
nop
.long 0x06000000,0x38600005
.org 0x600
b .
