; Adds up the 16 bytes of the context.
        r0 = 0
        r6 = 0
next:   r3 = r1
        r3 += r6
        r4 = *(u8 *)(r3 + 0)
        r0 += r4
        r6 += 1
        if r6 < 16 goto next
        exit
