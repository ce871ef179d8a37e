"""The permutation Ascon-p12 (Dobraunig, Eichlseder, Mendel, Schlaeffer: Ascon v1.2, 2021, section 2.6): five words of 64
bits, x0 lowest."""
from revc import Bits, Const, function, oracle

ROTATIONS = [(19, 28), (61, 39), (1, 6), (10, 17), (7, 41)]


@function
def ascon_round(x, c):
    x0, x1, x2, x3, x4 = x
    x2 = x2 ^ c  # the constant
    x0 = x0 ^ x4; x4 = x4 ^ x3; x2 = x2 ^ x1  # the S-box, bit-sliced
    t = [~a & b for a, b in zip([x0, x1, x2, x3, x4], [x1, x2, x3, x4, x0])]
    x0, x1, x2, x3, x4 = x0 ^ t[1], x1 ^ t[2], x2 ^ t[3], x3 ^ t[4], x4 ^ t[0]
    x1 = x1 ^ x0; x0 = x0 ^ x4; x3 = x3 ^ x2; x2 = ~x2
    return [v ^ v.rotate_right(a) ^ v.rotate_right(b) for v, (a, b) in zip([x0, x1, x2, x3, x4], ROTATIONS)]


@oracle
def ascon_p12(state: Bits[320]):
    x = state.split(64)
    for i in range(12):
        x = ascon_round(x, Const(0xf0 - 15 * i, 64))
    return x
