-- Shifts a word right by 18 - 6 x 2: but the fourth push loses the word.
packet 1
result 1
-- local 0: n
-- local 1: q

        ldlp 0
        mint
        ldnlp 4
        ldc 4
        in
        ldc 2
        stl 1
        ldl 0
        ldc 18
        ldl 1
        ldc 6
        prod
        sub
        shr
        stl 0
        ldlp 0
        mint
        ldc 4
        out
        stopp
