-- 256 points of a row of the Mandelbrot set, a byte each: for how many of 100 turns z stays within 2, where z begins as 0 and each turn
-- makes it z * z + c. Numbers are fixed point with 12 bits behind the point: 4096 is one.
workspace 82
packet 3  -- the imaginary part of c, the real part of the first point's, and the step to the next point's
result 64  -- 256 bytes
-- locals 0 to 2: row
-- locals 3 to 66: out
-- local 67: re
-- local 68: zr
-- local 69: zi
-- local 70: turns
-- local 71: rr
-- local 72: ii
loop head turn_head lend turn_lend control 80 turns 100 start 0
loop head point_head lend point_lend control 78 turns 256 start 0

        ldlp 0
        mint
        ldnlp 4
        ldc 12
        in
        ldl 1
        stl 67
-- locals 73 to 74: point, the loop's index and count
        ldc 0
        stl 73
        ldc 256
        stl 74
point_head:
        ldc 0
        stl 68
        ldc 0
        stl 69
        ldc 0
        stl 70
-- locals 75 to 76: turn, the loop's index and count
        ldc 0
        stl 75
        ldc 100
        stl 76
turn_head:
        ldl 68
        ldl 68
        prod
        ldc 4096
        div
        stl 71
        ldl 69
        ldl 69
        prod
        ldc 4096
        div
        stl 72
        ldl 71
        ldl 72
        sum
        ldc 16384
        gt                      -- beyond 2, where the turns that are left change nothing
        eqc 0
        cj beyond
        ldl 68                  -- 2 zr zi + the imaginary part
        ldl 69
        prod
        ldc 2048
        div
        ldl 0
        sum
        stl 69
        ldl 71                  -- zr zr - zi zi + the real part
        ldl 72
        diff
        ldl 67
        sum
        stl 68
        ldl 70
        adc 1
        stl 70
beyond:
        ldlp 75
        ldc turn_behind - turn_head
turn_lend:
        lend
turn_behind:
        ldl 70
        ldl 73
        ldlp 3
        bsub
        sb
        ldl 67
        ldl 2
        sum
        stl 67
        ldlp 73
        ldc point_behind - point_head
point_lend:
        lend
point_behind:
        ldlp 3
        mint
        ldc 256
        out
        stopp
