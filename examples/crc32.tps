-- CRC-32 (reflected, #EDB88320) of a packet of 16 words
workspace 27
packet 16  -- words
result 1
-- locals 0 to 15: buf
-- local 16: crc
loop head i_head lend i_lend control 24 turns 32 start 0
loop head o_head lend o_lend control 22 turns 16 start 0

        ldlp 0
        mint
        ldnlp 4
        ldc 64
        in
        ldc -1
        stl 16
-- locals 17 to 18: o, the loop's index and count
        ldc 0                   -- takes two local words, o and the next
        stl 17
        ldc 16
        stl 18
o_head:
        ldl 17
        ldlp 0
        wsub
        ldnl 0
        ldl 16
        xor
        stl 16
-- locals 19 to 20: i, the loop's index and count
        ldc 0
        stl 19
        ldc 32
        stl 20
i_head:
-- local 21: t
        ldl 16
        ldc 1
        and
        stl 21
        ldl 16
        ldc 1
        shr
        stl 16
        ldl 21
        cj even                 -- past the next three where the low bit was 0
        ldl 16
        ldc #EDB88320
        xor
        stl 16
even:
        ldlp 19                 -- ldlp i, ldc of the way back, lend: a jump lands before all three
        ldc i_behind - i_head
i_lend:
        lend
i_behind:
        ldlp 17
        ldc o_behind - o_head
o_lend:
        lend
o_behind:
        ldl 16
        not
        stl 16
        ldlp 16
        mint
        ldc 4
        out
        stopp
