-- Loads the second byte of a word: but adc does not move an address.
packet 1
result 1
-- local 0: n

        ldlp 0
        mint
        ldnlp 4
        ldc 4
        in
        ldlp 0
        adc 1
        lb
        stl 0
        ldlp 0
        mint
        ldc 4
        out
        stopp
