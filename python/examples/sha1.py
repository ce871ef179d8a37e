"""The compression function of SHA-1 (FIPS 180-4, section 6.1.2).

Words stand first word lowest, as in the standard's lists H0 to H4 and M0 to M15.
"""
from revc import Bits, function, oracle

START = [0x67452301, 0xefcdab89, 0x98badcfe, 0x10325476, 0xc3d2e1f0]
K = [0x5a827999, 0x6ed9eba1, 0x8f1bbcdc, 0xca62c1d6]


@function
def choice(b, c, d):
    return ((c ^ d) & b) ^ d


@function
def majority(b, c, d):
    return ((b ^ d) & (c ^ d)) ^ d


@oracle
def sha1(state: Bits[160], block: Bits[512]):
    words = list(block.split(32))
    for t in range(16, 80):
        words.append((words[t - 3] ^ words[t - 8] ^ words[t - 14] ^ words[t - 16]).rotate_left(1))
    a, b, c, d, e = start = state.split(32)
    for t in range(80):
        if t < 20:
            mixed = choice(b, c, d)
        elif 40 <= t < 60:
            mixed = majority(b, c, d)
        else:
            mixed = b ^ c ^ d
        turned = a.rotate_left(5) + mixed + e + K[t // 20] + words[t]
        a, b, c, d, e = turned, a, b.rotate_left(30), c, d
    return [x + y for x, y in zip(start, [a, b, c, d, e])]
