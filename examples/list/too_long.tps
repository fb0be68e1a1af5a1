-- Ten thousand turns around two thousand: more than a run may have.
workspace 11
packet 1
result 1
-- local 0: n
-- local 1: sum_of
loop head i_head lend i_lend control 9 turns 2000 start 0
loop head o_head lend o_lend control 7 turns 10000 start 0

        ldlp 0
        mint
        ldnlp 4
        ldc 4
        in
-- locals 2 to 3: o, the loop's index and count
        ldc 0
        stl 2
        ldc 10000
        stl 3
o_head:
-- locals 4 to 5: i, the loop's index and count
        ldc 0
        stl 4
        ldc 2000
        stl 5
i_head:
        ldl 1
        ldl 0
        add
        stl 1
        ldlp 4
        ldc i_behind - i_head
i_lend:
        lend
i_behind:
        ldlp 2
        ldc o_behind - o_head
o_lend:
        lend
o_behind:
        ldlp 1
        mint
        ldc 4
        out
        stopp
