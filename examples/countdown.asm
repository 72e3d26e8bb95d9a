; Counts r6 down from 10, and answers 0.
        r6 = 10
loop:   r6 += -1
        if r6 != 0 goto loop
        r0 = 0
        exit
