#!/usr/bin/env python3
"""Draws the picture that `draw` draws, without a worker: the same fixed-point arithmetic, with 12 bits behind the point."""
import sys

def part(product, divisor):
    """Divided toward zero."""
    return abs(product) // divisor * (1 if product >= 0 else -1)

def turns(re, im):
    zr = zi = 0
    for turn in range(100):
        rr, ii = part(zr * zr, 4096), part(zi * zi, 4096)
        if rr + ii > 16384:
            return turn
        zr, zi = rr - ii + re, part(zr * zi, 2048) + im
    return 100

STEP = int(4096 * 2.6 / 256 + 0.5)
LEFT, TOP = int(4096 * -0.75) - 128 * STEP, 128 * STEP
picture = bytes(turns(LEFT + STEP * x, TOP - STEP * y) for y in range(256) for x in range(256))
sys.stdout.buffer.write(b'P5 256 256 100\n' + picture)
