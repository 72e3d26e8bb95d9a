; Adds to a number on the stack, and answers the new number and the old one.
        r1 = 7
        *(u64 *)(r10 - 8) = 5
        lock fetch *(u64 *)(r10 - 8) += r1
        r0 = *(u64 *)(r10 - 8)
        r0 <<= 8
        r0 |= r1
        exit
