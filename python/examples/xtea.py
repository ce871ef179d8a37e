"""XTEA, 32 cycles (Needham and Wheeler, TEA extensions, 1997).

The text is the words v0 and v1; the key is its four words, the first one lowest.
"""
from revc import Bits, oracle

DELTA = 0x9e3779b9


def mixed(v):
    return ((v << 4) ^ (v >> 5)) + v


@oracle
def xtea(text: Bits[64], key: Bits[128]):
    v0, v1 = text.split(32)
    words = key.split(32)
    for i in range(32):
        before, behind = DELTA * i % 2 ** 32, DELTA * (i + 1) % 2 ** 32
        v0 = v0 + (mixed(v1) ^ (words[before & 3] + before))
        v1 = v1 + (mixed(v0) ^ (words[(behind >> 11) & 3] + behind))
    return [v0, v1]
