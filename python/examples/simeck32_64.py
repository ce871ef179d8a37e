"""Simeck32/64 (Yang, Zhu, Suder, Aagaard and Gong, The Simeck family of lightweight block ciphers, CHES 2015).

The text is the words y and x, x being the upper one; the key is its four words, the first one lowest. The key schedule goes by
the round function too.
"""
from revc import Bits, Cat, oracle


def changed(x):
    return (x & x.rotate_left(5)) ^ x.rotate_left(1)


def constants():
    """The bits of the sequence z0, by a register of five bits that starts with ones."""
    register = [1] * 5
    while True:
        yield 0xfffc ^ register[0]
        register = register[1:] + [register[0] ^ register[2]]


@oracle
def simeck32_64(text: Bits[32], key: Bits[64]):
    y, x = text.split(16)
    k, *t = key.split(16)
    for _, constant in zip(range(32), constants()):
        x, y = y ^ changed(x) ^ k, x
        k, t = t[0], t[1:] + [k ^ changed(t[0]) ^ constant]
    return Cat(y, x)
