-- As many Fibonacci numbers are traced as the packet says, of 47 at most, and the next is the result
workspace 10
packet 1
result 1
-- local 0: n
-- local 1: a
-- local 2: b
loop head i_head lend i_lend control 8 turns 47 start 0

        ldlp 0
        mint
        ldnlp 4
        ldc 4
        in
        ldc 0
        stl 1
        ldc 1
        stl 2
-- locals 3 to 4: i, the loop's index and count
        ldc 0
        stl 3
        ldc 47
        stl 4
i_head:
        ldl 0
        ldl 3
        gt                      -- n > i
        cj skip
        ldlp 1
        mint
        ldnlp 1
        ldc 4
        out
        ldl 1
        ldl 2
        sum
        ldl 2
        stl 1
        stl 2
skip:
        ldlp 3
        ldc i_behind - i_head
i_lend:
        lend
i_behind:
        ldlp 1
        mint
        ldc 4
        out
        stopp
