; Accepts (1) an Ethernet frame with an IPv4 header of twenty bytes and a TCP segment to port 80, and drops (0) all else.
; The context is the frame, of 38 bytes at least.
        r0 = 0
        r3 = *(u16 *)(r1 + 12)          ; the type, big-endian as all of a frame
        r3 = be16 r3
        if r3 != 0x800 goto end
        r3 = *(u8 *)(r1 + 14)           ; version 4, five words of header
        if r3 != 0x45 goto end
        r3 = *(u16 *)(r1 + 20)          ; not a later fragment
        r3 = be16 r3
        if r3 & 0x1fff goto end
        r3 = *(u8 *)(r1 + 23)           ; TCP
        if r3 != 6 goto end
        r3 = *(u16 *)(r1 + 36)          ; the destination's port
        r3 = be16 r3
        if r3 != 80 goto end
        r0 = 1
end:    exit
