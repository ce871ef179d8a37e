"""The compression function of SHA-256 (FIPS 180-4, section 6.2.2), and SHA-256 of one block as a preimage oracle.

Words stand first word lowest, as in the standard's lists H0 to H7 and M0 to M15.
"""
from hashlib import sha256 as hashed
from typing import List

from revc import Bits, Const, function, oracle


def roots(root: int, count: int) -> List[int]:
    """The first 32 bits of the fractional parts of the square (2) or cube (3) roots of the first primes."""
    primes = [n for n in range(2, 312) if all(n % d for d in range(2, n))][:count]
    found = []
    for prime in primes:
        low, high = 0, 1 << 37
        while high - low > 1:
            middle = (low + high) // 2
            low, high = (middle, high) if middle ** root <= prime << 32 * root else (low, middle)
        found.append(low % (1 << 32))
    return found


K, START = roots(3, 64), roots(2, 8)


@function
def schedule(w0, w1, w9, w14):
    s0 = w1.rotate_right(7) ^ w1.rotate_right(18) ^ (w1 >> 3)
    s1 = w14.rotate_right(17) ^ w14.rotate_right(19) ^ (w14 >> 10)
    return (s1 + w9) + (s0 + w0)


@function
def step(s, k, w):
    a, b, c, d, e, f, g, h = s
    sum1 = e.rotate_right(6) ^ e.rotate_right(11) ^ e.rotate_right(25)
    ch = ((f ^ g) & e) ^ g
    t1 = h + sum1 + ch + k + w
    sum0 = a.rotate_right(2) ^ a.rotate_right(13) ^ a.rotate_right(22)
    maj = ((a ^ c) & (b ^ c)) ^ c
    return t1 + (sum0 + maj), d + t1


def compressed(state, block):
    w, s = list(block), list(state)
    for t in range(16, 64):
        w.append(schedule(w[t - 16], w[t - 15], w[t - 7], w[t - 2]))
    for t in range(64):
        a, e = step(s, Const(K[t], 32), w[t])
        s = [a] + s[:3] + [e] + s[4:7]
    return [x + y for x, y in zip(state, s)]


@oracle
def sha256_compression(state: Bits[256], block: Bits[512]):
    return compressed(state.split(32), block.split(32))


SOUGHT = int.from_bytes(hashed(b"a secret of 16 b").digest()[:8], "big")  # the first 64 bits of a digest


@oracle
def sha256_preimage(message: Bits[128], sought=SOUGHT):
    """1 where SHA-256 of these 16 bytes, the first byte highest in the first word, begins with the sought 64 bits."""
    padding = [Const(1 << 31, 32)] + [Const(0, 32)] * 10 + [Const(128, 32)]
    digest = compressed([Const(each, 32) for each in START], message.split(32) + padding)
    return (digest[0] == sought >> 32) & (digest[1] == sought & 0xffffffff)
