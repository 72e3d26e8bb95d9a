; Answers the byte of the context that the first byte names.
        r2 = *(u8 *)(r1 + 0)
        r1 += r2
        r0 = *(u8 *)(r1 + 0)
        exit
