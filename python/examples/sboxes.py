"""AES's S-box by five formulas that share no product: each circuit is proved to compute each of the others."""
from functools import reduce
from operator import xor

from revc import Bits, Cat, Const, Mux, function, oracle, table
from revc.lib import aes_sbox

FIELD = 0x11b  # x^8 + x^4 + x^3 + x + 1


def product(a, b):
    """The product of two elements of the field, as numbers."""
    total = reduce(xor, [a << i for i in range(8) if b >> i & 1], 0)
    for i in range(14, 7, -1):
        total ^= FIELD << i - 8 if total >> i & 1 else 0
    return total


def turned(x):
    """The linear part of the map behind the inverse; 0x63 is added to it."""
    return reduce(xor, [(x << i | x >> 8 - i) & 255 for i in range(5)])


SBOX = [turned(next((y for y in range(256) if product(x, y) == 1), 0)) ^ 0x63 for x in range(256)]


def sums(bits, masks):
    """For each mask the sum of the bits that it has."""
    return Cat([reduce(xor, [bit for i, bit in enumerate(bits) if mask >> i & 1], Const(0, 1)) for mask in masks])


def linear(x, image):
    """The linear map that takes 1 << i, for each place i of x, to this image of it."""
    return sums(x, [sum((image(1 << i) >> k & 1) << i for i in range(8)) for k in range(8)])


@function
def times(a: Bits[8], b: Bits[8]):
    return reduce(xor, [linear(Cat([bit & b[i] for bit in a]), lambda e: product(e, 1 << i)) for i in range(8)])


def power(x, count):
    """x to the power 2^count, which is a linear map."""
    return linear(x, lambda e: reduce(lambda p, _: product(p, p), range(count), e))


@oracle
def by_circuit(x: Bits[8]):
    return aes_sbox(x)


@oracle
def by_table(x: Bits[8]):
    return table(x, SBOX)


@oracle
def by_choices(x: Bits[8]):
    entries = [Const(entry, 8) for entry in SBOX]
    for bit in x:
        entries = [Mux(bit, one, zero) for zero, one in zip(entries[::2], entries[1::2])]
    return entries[0]


@oracle
def by_monomials(x: Bits[8]):
    monomials, masks = [Const(1, 1)], list(SBOX)
    for i, bit in enumerate(x):
        monomials += [bit if at == 0 else each & bit for at, each in enumerate(monomials)]
        masks = [mask ^ (masks[e ^ 1 << i] if e >> i & 1 else 0) for e, mask in enumerate(masks)]
    return sums(monomials, [sum((mask >> k & 1) << e for e, mask in enumerate(masks)) for k in range(8)])


@oracle
def by_powers(x: Bits[8]):
    x3 = times(x, power(x, 1))
    x12 = power(x3, 2)
    x252 = times(power(times(x3, x12), 4), x12)
    return linear(times(x252, power(x, 1)), turned) ^ 0x63  # of x^254, the inverse
