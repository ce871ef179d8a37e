"""Speck32/64 (Beaulieu and others, The SIMON and SPECK families of lightweight block ciphers, 2013, section 4).

The text is the words y and x, x being the upper one; the key is k0 and then l0, l1, l2.
"""
from revc import Bits, Cat, oracle


@oracle
def speck32_64(text: Bits[32], key: Bits[64]):
    y, x = text.split(16)
    k, *l = key.split(16)
    for i in range(22):
        x = (x.rotate_right(7) + y) ^ k
        y = y.rotate_left(2) ^ x
        l.append((l[i].rotate_right(7) + k) ^ i)
        k = k.rotate_left(2) ^ l[-1]
    return Cat(y, x)
