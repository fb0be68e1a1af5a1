#!/usr/bin/env python3
"""Writes NAME.packets and NAME.expected for each worker ../NAME.occ: packets, and what Python makes of them.

usage: make.py [FOLDER]

It writes into its own folder where no other is named.
"""
import hashlib, math, os, random, struct, sys, zlib

folder = sys.argv[1] if len(sys.argv) > 1 else os.path.dirname(os.path.realpath(__file__))

def write(name, packets, results):
    for kind, lines in ('packets', packets), ('expected', results):
        with open(f'{folder}/{name}.{kind}', 'w') as file:
            file.writelines(line + '\n' for line in lines)

def words(numbers):
    return ' '.join(str(n) for n in numbers)

random.seed(1988)
numbers = [0, 1]
while len(numbers) < 48:
    numbers.append(numbers[-1] + numbers[-2])
# More packets than a batch has.
write('fibonacci', [str(n % 48) for n in range(1030)], [str(numbers[n % 48]) for n in range(1030)])

messages = [random.randbytes(64) for _ in range(40)]
write('crc32', [m.hex() for m in messages], [struct.pack('<I', zlib.crc32(m)).hex() for m in messages])

rows = [[random.randint(-2**31, 2**31 - 1) for _ in range(8)] for _ in range(40)]
write('bubble_sort', map(words, rows), [words(sorted(row)) for row in rows])

# Numbers over 4096 go toward 0, as div's do.
taps = [-52, 0, 418, 1036, 1292, 1036, 418, 0, -52]
samples = [[random.randint(-32768, 32767) for _ in range(40)] for _ in range(40)]
write('fir', map(words, samples),
      [words(int(sum(h * x for h, x in zip(taps, row[n:])) / 4096) for n in range(32)) for row in samples])

def padded(message):
    return message + b'\x80' + bytes(55 - len(message)) + struct.pack('>Q', 8 * len(message))

messages = [b'abc'] + [random.randbytes(n) for n in range(56)]
write('sha1', [padded(m).hex() for m in messages], [hashlib.sha1(m).hexdigest() for m in messages])

def ways(n, queens):
    row = len(queens)
    if row == n:
        return 1
    return sum(ways(n, queens + [column]) for column in range(n)
               if all(column != c and abs(column - c) != row - r for r, c in enumerate(queens)))

boards = [(n, column) for n in range(1, 11) for column in range(n)]
write('queens', map(words, boards), [str(ways(n, [column])) for n, column in boards])

def generation(cells):
    return [cells[i - 1] ^ (cells[i] | cells[(i + 1) % 1024]) for i in range(1024)]

def of_cells(cells):
    return sum(cell << i for i, cell in enumerate(cells)).to_bytes(128, 'little').hex()

rings = [[int(i == 512) for i in range(1024)]] + [[random.randint(0, 1) for _ in range(1024)] for _ in range(7)]
later = rings
for _ in range(100):
    later = list(map(generation, later))
write('automaton', map(of_cells, rings), map(of_cells, later))

def rotated(word, count):
    return (word << count | word >> (32 - count)) & 0xFFFFFFFF

def key_stream(words):
    """The block of RFC 8439, 2.3, of the 12 words behind its four constants."""
    first = list(struct.unpack('<4I', b'expand 32-byte k')) + words
    x = first[:]
    for _ in range(10):
        for a, b, c, d in ((0, 4, 8, 12), (1, 5, 9, 13), (2, 6, 10, 14), (3, 7, 11, 15),
                           (0, 5, 10, 15), (1, 6, 11, 12), (2, 7, 8, 13), (3, 4, 9, 14)):
            for here, other, beside, count in (a, b, d, 16), (c, d, b, 12), (a, b, d, 8), (c, d, b, 7):
                x[here] = (x[here] + x[other]) & 0xFFFFFFFF
                x[beside] = rotated(x[beside] ^ x[here], count)
    return struct.pack('<16I', *((a + b) & 0xFFFFFFFF for a, b in zip(x, first)))

blocks = [bytes(range(32)) + bytes.fromhex('01000000 00000009 0000004a 00000000')]
blocks += [random.randbytes(48) for _ in range(39)]
streams = [key_stream(list(struct.unpack('<12I', block))).hex() for block in blocks]
# The block of RFC 8439, 2.3.2.
assert streams[0] == ('10f1e7e4d13b5915500fdd1fa32071c4c7d1f4c733c068030422aa9ac3d46c4e'
                      'd2826446079faa0914c2d705d98b02a2b5129cd1de164eb9cbd083e8a2503c4e')
write('chacha20', [block.hex() for block in blocks], streams)

def product(a, b):
    """The product of two elements of the field of 256 of FIPS 197, 4.2."""
    sum = 0
    for bit in range(8):
        if b >> bit & 1:
            sum ^= a
        a = a << 1 ^ (0x11B if a & 0x80 else 0)
    return sum

def substitute(byte):
    """A byte of the S-box: its inverse, through the affine transformation of FIPS 197, 5.1.1."""
    inverse = next((b for b in range(256) if product(byte, b) == 1), 0)
    return 0x63 ^ inverse ^ (inverse * 0x101 >> 7 & 0xFF) ^ (inverse * 0x101 >> 6 & 0xFF) ^ (
        inverse * 0x101 >> 5 & 0xFF) ^ (inverse * 0x101 >> 4 & 0xFF)

s_box = [substitute(byte) for byte in range(256)]

def encrypted(key, block):
    words = [key[4 * i:4 * i + 4] for i in range(4)]
    constant = 1
    for i in range(4, 44):
        word = words[i - 1]
        if i % 4 == 0:
            word = bytes(s_box[b] for b in word[1:] + word[:1])
            word = bytes([word[0] ^ constant]) + word[1:]
            constant = product(constant, 2)
        words.append(bytes(a ^ b for a, b in zip(words[i - 4], word)))
    state = bytes(a ^ b for a, b in zip(block, b''.join(words[:4])))
    for turn in range(1, 11):
        state = [s_box[b] for b in state]
        state = [state[(i + 4 * (i % 4)) % 16] for i in range(16)]
        if turn < 10:
            state = [product(2, state[i // 4 * 4 + i % 4]) ^ product(3, state[i // 4 * 4 + (i + 1) % 4])
                     ^ state[i // 4 * 4 + (i + 2) % 4] ^ state[i // 4 * 4 + (i + 3) % 4] for i in range(16)]
        state = bytes(a ^ b for a, b in zip(state, b''.join(words[4 * turn:4 * turn + 4])))
    return state

# The blocks of FIPS 197, appendices B and C.1.
standard = [[bytes.fromhex(part) for part in case.split()] for case in (
    '2b7e151628aed2a6abf7158809cf4f3c 3243f6a8885a308d313198a2e0370734 3925841d02dc09fbdc118597196a0b32',
    '000102030405060708090a0b0c0d0e0f 00112233445566778899aabbccddeeff 69c4e0d86a7b0430d8cdb78070b4c55a')]
assert all(encrypted(key, block) == wanted for key, block, wanted in standard)
blocks = [(key, block) for key, block, _ in standard]
blocks += [(random.randbytes(16), random.randbytes(16)) for _ in range(38)]
write('aes128', [(k + b).hex() for k, b in blocks], [encrypted(k, b).hex() for k, b in blocks])

def transformed(row):
    """The DCT-II of eight samples, with cosines of 12 bits behind the point; over 4096 toward 0."""
    return [int(sum(x * round(4096 * math.sqrt(0.5 if k == 0 else 1) * math.cos(math.pi * (2 * n + 1) * k / 16) / 2)
                    for n, x in enumerate(row)) / 4096) for k in range(8)]

def dct(block):
    rows = [transformed(block[8 * i:8 * i + 8]) for i in range(8)]
    columns = [transformed([row[i] for row in rows]) for i in range(8)]
    return [columns[i % 8][i // 8] for i in range(64)]

pictures = [[127] * 64, [-128] * 64] + [[random.randint(-128, 127) for _ in range(64)] for _ in range(38)]
write('dct', map(words, pictures), [words(dct(picture)) for picture in pictures])

def next_cells(cells):
    def lives(x, y):
        around = sum(((x + i) % 32, (y + j) % 32) in cells for i in (-1, 0, 1) for j in (-1, 0, 1) if i or j)
        return around == 3 or around == 2 and (x, y) in cells
    return {(x, y) for x in range(32) for y in range(32) if lives(x, y)}

def of_torus(cells):
    return b''.join(struct.pack('<I', sum(1 << x for x in range(32) if (x, y) in cells)) for y in range(32)).hex()

glider = {(1, 0), (2, 1), (0, 2), (1, 2), (2, 2)}
r_pentomino = {(16, 15), (17, 15), (15, 16), (16, 16), (16, 17)}
toruses = [glider, r_pentomino] + [{(x, y) for x in range(32) for y in range(32) if random.random() < 0.3}
                                   for _ in range(4)]
later = toruses
for _ in range(100):
    later = list(map(next_cells, later))
write('life', map(of_torus, toruses), map(of_torus, later))

samples = [bytes(256), bytes(range(256))] + [random.randbytes(256) for _ in range(19)]
samples += [bytes(random.choice(values) for _ in range(256)) for values in (b'\x00\xFF', b'ab', b'\x7F\x80\x81')]
write('quantiles', [s.hex() for s in samples],
      [bytes(sorted(s)[i] for i in (0, 64, 128, 192, 255)).hex() + '000000' for s in samples])

# The numbers of Fibonacci that follow one another take the most turns of all words.
pairs = [(1071, 462), (89, 55), (0, 0), (0, 7), (7, 0), (numbers[46], numbers[45]), (numbers[45], numbers[46])]
pairs += [(random.randrange(2**31), random.randrange(2**31)) for _ in range(33)]
write('gcd', map(words, pairs), [str(math.gcd(*pair)) for pair in pairs])
