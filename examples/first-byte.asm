; Answers the first byte of the context.
        r0 = *(u8 *)(r1 + 0)
        exit
