"""Simon64/128 (Beaulieu and others, The SIMON and SPECK families of lightweight block ciphers, 2013, section 3).

The text is the words y and x, x being the upper one; the key is k0 to k3.
"""
from revc import Bits, Cat, oracle

Z3 = "11011011101011000110010111100000010010001010011100110100001111"


@oracle
def simon64_128(text: Bits[64], key: Bits[128]):
    y, x = text.split(32)
    k = key.split(32)
    for i in range(44):
        if i >= 4:
            t = k[i - 1].rotate_right(3) ^ k[i - 3]
            t = t ^ t.rotate_right(1)
            k.append(k[i - 4] ^ t ^ (0xfffffffc ^ int(Z3[(i - 4) % 62])))
        x, y = y ^ (x.rotate_left(1) & x.rotate_left(8)) ^ x.rotate_left(2) ^ k[i], x
    return Cat(y, x)
