"""Numbers: a product, a sum modulo N, the factors of a number, and a Hamming weight."""
from revc import Bits, Mux, add, oracle, popcount, sub


@oracle
def multiply32(x: Bits[32], y: Bits[32]):
    return x * y


@oracle
def add_modulo(x: Bits[32], y: Bits[32], modulus=(1 << 32) - 5):
    """x + y modulo N, for x and y below N: the comparison with N is the borrow of the subtraction."""
    total = add(x, y, carry=True)
    less = sub(total, modulus, borrow=True)
    return Mux(less[33], total, less[:33])[:32]


@oracle
def factors16(x: Bits[16], y: Bits[16], number=65519 * 65521):
    return x * y == number


@oracle
def weight64(x: Bits[64]):
    return popcount(x)
