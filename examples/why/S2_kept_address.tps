-- Keeps the address of a word in a word
packet 1
result 1
-- local 0: n
-- local 1: p

        ldlp 0
        mint
        ldnlp 4
        ldc 4
        in
        ldlp 0
        stl 1                   -- p is a number from here on
        ldl 1
        ldnl 0
        stl 0
done:
        ldlp 0
        mint
        ldc 4
        out
        stopp
