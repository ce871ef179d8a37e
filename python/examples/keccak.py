"""The permutations Keccak-f[200] and Keccak-f[800] (Bertoni, Daemen, Peeters, Van Assche: The Keccak reference, 2011,
section 1.2): 25 lanes of 8 and 32 bits, lane (x, y) at place x + 5 y.

Keccak-f[1600] has more inputs than the 1,024 that the language takes.
"""
from typing import List

from revc import Bits, Const, function, oracle


def round_constants(rounds: int, width: int) -> List[int]:
    """By the linear feedback shift register of the reference, cut to the width of a lane."""
    state, found = 1, []
    for _ in range(rounds):
        value = 0
        for j in range(7):
            state = (state << 1 ^ (state >> 7) * 0x71) % 256
            value ^= (state >> 1 & 1) << (1 << j) - 1
        found.append(value & (1 << width) - 1)
    return found


@function
def keccak_round(a, rc):
    c = [a[x] ^ a[x + 5] ^ a[x + 10] ^ a[x + 15] ^ a[x + 20] for x in range(5)]  # theta
    d = [c[(x + 4) % 5] ^ c[(x + 1) % 5].rotate_left(1) for x in range(5)]
    b, x, y, k = [a[0] ^ d[0]] * 25, 1, 0, 0
    for t in range(24):  # rho and pi
        k += t + 1
        b[y + 5 * ((2 * x + 3 * y) % 5)] = (a[x + 5 * y] ^ d[x]).rotate_left(k)
        x, y = y, (2 * x + 3 * y) % 5
    e = [b[i] ^ (~b[i // 5 * 5 + (i + 1) % 5] & b[i // 5 * 5 + (i + 2) % 5]) for i in range(25)]  # chi
    return [e[0] ^ rc] + e[1:]  # iota


@oracle
def keccak_f200(state: Bits[200]):
    a = state.split(8)
    for rc in round_constants(18, 8):
        a = keccak_round(a, Const(rc, 8))
    return a


@oracle
def keccak_f800(state: Bits[800]):
    a = state.split(32)
    for rc in round_constants(22, 32):
        a = keccak_round(a, Const(rc, 32))
    return a
