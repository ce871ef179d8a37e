"""The compression function of BLAKE2s (RFC 7693, section 3.2).

Words stand first word lowest: the state h, the block m, the count t of bytes, and the flag f, all ones for the last block.
"""
from revc import Bits, Const, function, oracle

START = [0x6a09e667, 0xbb67ae85, 0x3c6ef372, 0xa54ff53a, 0x510e527f, 0x9b05688c, 0x1f83d9ab, 0x5be0cd19]
SIGMA = [
    [0, 1, 2, 3, 4, 5, 6, 7, 8, 9, 10, 11, 12, 13, 14, 15], [14, 10, 4, 8, 9, 15, 13, 6, 1, 12, 0, 2, 11, 7, 5, 3],
    [11, 8, 12, 0, 5, 2, 15, 13, 10, 14, 3, 6, 7, 1, 9, 4], [7, 9, 3, 1, 13, 12, 11, 14, 2, 6, 5, 10, 4, 0, 15, 8],
    [9, 0, 5, 7, 2, 4, 10, 15, 14, 1, 11, 12, 6, 8, 3, 13], [2, 12, 6, 10, 0, 11, 8, 3, 4, 13, 7, 5, 15, 14, 1, 9],
    [12, 5, 1, 15, 14, 13, 4, 10, 0, 7, 6, 3, 9, 2, 8, 11], [13, 11, 7, 14, 12, 1, 3, 9, 5, 0, 15, 4, 8, 6, 2, 10],
    [6, 15, 14, 9, 11, 3, 0, 8, 12, 2, 13, 7, 1, 4, 10, 5], [10, 2, 8, 4, 7, 6, 1, 5, 15, 11, 9, 14, 3, 12, 13, 0]]
COLUMNS = [(0, 4, 8, 12), (1, 5, 9, 13), (2, 6, 10, 14), (3, 7, 11, 15)]
DIAGONALS = [(0, 5, 10, 15), (1, 6, 11, 12), (2, 7, 8, 13), (3, 4, 9, 14)]


@function
def mix(a, b, c, d, x, y):
    a = a + b + x
    d = (d ^ a).rotate_right(16)
    c = c + d
    b = (b ^ c).rotate_right(12)
    a = a + b + y
    d = (d ^ a).rotate_right(8)
    c = c + d
    b = (b ^ c).rotate_right(7)
    return a, b, c, d


@oracle
def blake2s(h: Bits[256], m: Bits[512], t: Bits[64], f: Bits[32]):
    state, block, count = h.split(32), m.split(32), t.split(32)
    v = list(state) + [Const(word, 32) for word in START]
    v[12], v[13], v[14] = count[0] ^ START[4], count[1] ^ START[5], f ^ START[6]
    for order in SIGMA:
        for i, places in enumerate(COLUMNS + DIAGONALS):
            mixed = mix(*[v[place] for place in places], block[order[2 * i]], block[order[2 * i + 1]])
            for place, word in zip(places, mixed):
                v[place] = word
    return [word ^ low ^ high for word, low, high in zip(state, v[:8], v[8:])]
