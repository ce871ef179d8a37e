"""The compression function of MD5 (RFC 1321)."""
from math import floor, sin

from revc import Bits, oracle

TURNS = [7, 12, 17, 22] * 4 + [5, 9, 14, 20] * 4 + [4, 11, 16, 23] * 4 + [6, 10, 15, 21] * 4
SINES = [floor(abs(sin(i + 1)) * 2 ** 32) for i in range(64)]
START = [0x67452301, 0xefcdab89, 0x98badcfe, 0x10325476]


@oracle
def md5(state: Bits[128], block: Bits[512]):
    words = block.split(32)
    a, b, c, d = start = state.split(32)
    for i in range(64):
        if i < 16:
            mixed, word = ((c ^ d) & b) ^ d, i
        elif i < 32:
            mixed, word = ((b ^ c) & d) ^ c, (5 * i + 1) % 16
        elif i < 48:
            mixed, word = b ^ c ^ d, (3 * i + 5) % 16
        else:
            mixed, word = c ^ ~(~b & d), 7 * i % 16
        turned = (a + mixed + SINES[i] + words[word]).rotate_left(TURNS[i])
        a, b, c, d = d, b + turned, b, c
    return [x + y for x, y in zip(start, [a, b, c, d])]
