; Counts r2, the context's length, down to 0.
        r0 = 0
        if r2 == 0 goto end
turn:   r2 += -1
        if r2 != 0 goto turn
end:    exit
