#!/usr/bin/env python3
"""Images for the benchmarks of the verifier, by name: small and straight codes, and codes that keep its passes going.

    bench/images.py NAME        prints an image in hexadecimal
"""

import sys
from functools import partial

# ldlp 0, mint, ldnlp 4, ldc 4, in
TAKE = bytes.fromhex("1024f25444f7")
# ldlp 0, mint, ldc 4, out, stopp
SEND = bytes.fromhex("1024f244fb21f5")
# ldc 0, cj 0
JUMP = bytes.fromhex("40a0")
# ldlp 0, wsub
PICK = bytes.fromhex("10fa")
# ldc 1, and, add
ADD_BIT = bytes.fromhex("4124f6f5")

MAX_CODE = 8192
WORKSPACE = 512
# Wptr is at this word.
START = 8
# How many local words the loops of an image move on in all, from word 1 on, before those of their blocks.
MOVED = 464
# The first local word of the loops' blocks.
BLOCKS = 472
# The bytes of `ldlp`, `ldc` and `lend` at a loop's end.
END_BYTES = 9
# How far a store is from the next, in words, and how many words they go round in.
STRIDE = 67
ROUND = 208

# What fills a loop in the place of its jumps: `ldc 0`, `ldl n` or `rev` and jumps that test it, or a store that a jump passes by.
# bench/search.py of commit 79976110 mixed these at random.
PIECES = """
    40a040a040a0 40a440a240a0 404040a0a0a0 70a071a072a0 70a471a272a0 40a4402120d0 40a4402127df 40a240d340a0 7071f0a0a040
""".split()

CJ, LDLP, LDC, LDL, STL = 0xA, 0x1, 0x4, 0x7, 0xD


def spelled(function, operand):
    """The shortest spelling of a function with an operand that is not below 0."""
    digits = f"{operand:x}"
    return bytes([0x20 | int(it, 16) for it in digits[:-1]] + [function << 4 | int(digits[-1], 16)])


def spelled_in_four(function, operand):
    return bytes([0x20 | operand >> 12, 0x20 | operand >> 8 & 15, 0x20 | operand >> 4 & 15, function << 4 | operand & 15])


def image(code, rows=(), workspace=WORKSPACE, turns=1):
    """An image of version 2; of each row its head, its lend and its control word."""
    fields = [len(code), workspace, START, 1, 1, len(rows), 0]
    for head, lend, control in rows:
        fields += [head, lend, control, turns, 0, 0]
    return b"TPW2" + b"".join(it.to_bytes(2, "little") for it in fields) + code


def increment():
    """ldl 0, adc 1, stl 0; an image of version 1."""
    code = TAKE + bytes.fromhex("7081d0") + SEND
    return b"TPW1" + b"".join(it.to_bytes(2, "little") for it in [len(code), 12, START, 1, 1, 0]) + code


def jumps_up_to(code, end):
    return JUMP * (max(end - len(code), 0) // len(JUMP))


def stores_up_to(code, end):
    """`ldc 0, cj 4, ldc 0, stl n`, of words from 256 on."""
    stored = b""
    for turn in range(max(end - len(code), 0) // 6):
        stored += bytes.fromhex("40a440") + spelled(STL, 256 + turn * STRIDE % ROUND)
    return stored


def sum_up_to(code, end):
    """The sum of the last bits of all words that are moved; then `ldc 0`, and a `cj` over conditional jumps."""
    summed = b"\x40" + b"".join(spelled(LDL, word) + ADD_BIT for word in range(1, MOVED))
    room = max(end - len(code + summed) - 5, 0) // len(JUMP)
    summed += b"\x40" + spelled_in_four(CJ, room * len(JUMP))
    return summed + jumps_up_to(code + summed, end)


def nest(code, rows, depth, end, first=0, each=MOVED, filling=jumps_up_to):
    """Loops within one another up to an address: the innermost moves each word on to the next place, the last first, and then has
    what fills it."""
    outermost = len(rows)
    for _ in range(depth):
        block = BLOCKS + 2 * len(rows)
        code += spelled(LDC, 0) + spelled(STL, block) + spelled(LDC, 1) + spelled(STL, block + 1)
        rows.append([len(code), 0, block + START])
    for to in range(first + each, first, -1):
        code += spelled(LDL, to - 1) + spelled(STL, to)
    code += filling(code, end - depth * END_BYTES)
    for row in reversed(rows[outermost:]):
        code += spelled(LDLP, row[2] - START)
        row[1] = len(code) + 4
        code += spelled_in_four(LDC, row[1] + 2 - row[0]) + bytes.fromhex("22f1")
    return code


def moving(in_a_row, depth):
    """Loops one behind the other, each in as many others as wanted: each pass knows less of one word more."""
    code, rows = TAKE, []
    each, room = MOVED // in_a_row, (MAX_CODE - len(SEND)) // in_a_row
    for number in range(in_a_row):
        code = nest(code, rows, depth, room * (number + 1), each * number, each)
    return image(code + SEND, rows)


def filled(filling):
    rows = []
    code = nest(TAKE, rows, 1, MAX_CODE - len(SEND), filling=filling)
    return image(code + SEND, rows)


def filled_by(piece):
    return filled(lambda code, end: bytes.fromhex(piece) * (max(end - len(code), 0) * 2 // len(piece)))


def behind():
    """One loop that moves the words on, and the conditional jumps behind it."""
    rows = []
    code = nest(TAKE, rows, 1, 0)
    return image(code + jumps_up_to(code, MAX_CODE - len(SEND)) + SEND, rows)


def refused():
    """As one loop with its jumps; but the address of a word is found by the last word that is moved, once the result is sent. That
    is refused when the last pass no longer knows the word."""
    rows = []
    pick = spelled(LDL, MOVED) + PICK
    code = nest(TAKE, rows, 1, MAX_CODE - len(SEND) - len(pick))
    return image(code + SEND[:5] + pick + SEND[5:], rows)


IMAGES = {
    "increment": increment,
    # 8,000 bytes and 1,801 without a jump: ldl 0, stl 0 over and over
    "straight": lambda: image(TAKE + b"\x40" + bytes.fromhex("70d0") * 3993 + SEND),
    "short and straight": lambda: image(TAKE + bytes.fromhex("70d0") * 894 + SEND, workspace=12),
    # 4,000 conditional jumps, in a large workspace and in a small one
    "jumps": lambda: image(TAKE + JUMP * 4000 + SEND),
    "jumps over few words": lambda: image(TAKE + JUMP * 4000 + SEND, workspace=12),
    "one loop": lambda: moving(1, 1),
    "four nested": lambda: moving(1, 4),
    "sixteen": lambda: moving(16, 1),
    "behind the loop": behind,
    "strided stores": lambda: filled(stores_up_to),
    "growing range": lambda: filled(sum_up_to),
    "refused in the last pass": refused,
    **{f"one loop of {it}": partial(filled_by, it) for it in PIECES},
}


# What check.py judges.
CHECKED = [it for it in IMAGES if it not in ("short and straight", "jumps over few words")]


def named(name):
    return IMAGES[name]()


if __name__ == "__main__":
    if len(sys.argv) != 2 or sys.argv[1] not in IMAGES:
        sys.exit("the names are " + ", ".join(IMAGES))
    print(named(sys.argv[1]).hex())
