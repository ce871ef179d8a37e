"""The block function of ChaCha20 (RFC 8439, section 2.3): key, counter and nonce to the sixteen words of the key stream."""
from revc import Bits, Const, function, oracle

CONSTANTS = [0x61707865, 0x3320646e, 0x79622d32, 0x6b206574]
COLUMNS = [(0, 4, 8, 12), (1, 5, 9, 13), (2, 6, 10, 14), (3, 7, 11, 15)]
DIAGONALS = [(0, 5, 10, 15), (1, 6, 11, 12), (2, 7, 8, 13), (3, 4, 9, 14)]


@function
def quarter(a, b, c, d):
    a = a + b; d = (d ^ a).rotate_left(16)
    c = c + d; b = (b ^ c).rotate_left(12)
    a = a + b; d = (d ^ a).rotate_left(8)
    c = c + d; b = (b ^ c).rotate_left(7)
    return a, b, c, d


@oracle
def chacha20(key: Bits[256], counter: Bits[32], nonce: Bits[96]):
    start = [Const(each, 32) for each in CONSTANTS] + key.split(32) + [counter] + nonce.split(32)
    state = list(start)
    for _ in range(10):
        for places in COLUMNS + DIAGONALS:
            for i, word in zip(places, quarter(*[state[i] for i in places])):
                state[i] = word
    return [x + y for x, y in zip(state, start)]
