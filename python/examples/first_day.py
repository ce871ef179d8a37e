from revc import Bits, Cat, Switch, oracle, popcount, table

@oracle
def weight(x: Bits[16]):
    return popcount(x)

@oracle
def alu(op: Bits[2], a: Bits[4], b: Bits[4]):
    return Switch(op, {0: a + b, 1: a - b, 2: a & b, 3: a ^ b})

@oracle
def cipher(x: Bits[4], y: Bits[4]):
    for k in (0x5, 0xb, 0x6):
        x = (x.rotate_right(3) + y) ^ k
        y = y.rotate_left(1) ^ x
    return x, y

@oracle
def sbox(x: Bits[4]):
    return table(x, [0xC, 5, 6, 0xB, 9, 0, 0xA, 0xD, 3, 0xE, 0xF, 8, 4, 7, 1, 2])

@oracle
def factors(a: Bits[8], b: Bits[8]):
    return a * b == 143

@oracle
def row(a: Bits[2], b: Bits[2], c: Bits[2], d: Bits[2]):
    pairs = [(a, b), (a, c), (a, d), (b, c), (b, d), (c, d)]
    return Cat([x != y for x, y in pairs]).all()
