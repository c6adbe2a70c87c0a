# A service behind sc sends the byte in r3 to the UART, and rfid goes on behind the call.
        li     r3, 0x4f
        sc
        li     r3, 0x4b
        sc
here:   b      here             # the UART sends 4f4b, "OK"

        .org   0xc00
        li     r4, 0
        oris   r4, r4, 0xc000
        ori    r4, r4, 0x2000   # r4 = c0002000, where the UART stands
        stb    r3, 0(r4)        # TX
        rfid
