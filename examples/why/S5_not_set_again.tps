-- The inner loop's block is set before the outer loop, and not again in it
workspace 10
packet 1
result 1
-- local 0: n
-- local 1: o
-- local 2: oc
-- local 3: i
-- local 4: ic
loop head inner lend last control 8 turns 3 start 0
loop head outer lend over control 6 turns 2 start 0

        ldlp 0
        mint
        ldnlp 4
        ldc 4
        in
        ldc 0
        stl 3
        ldc 3
        stl 4
        ldc 0
        stl 1
        ldc 2
        stl 2
outer:
        ldl 0
        stl 0
inner:
        ldl 3
        stl 0
        ldlp 3
        ldc behind - inner
last:
        lend
behind:
        ldlp 1
        ldc done - outer
over:
        lend
done:
        ldlp 0
        mint
        ldc 4
        out
        stopp
