from revc import Bits, clean, lib, oracle

@oracle
def in_a_row(a: Bits[32], b: Bits[32]):
    return a + b

@oracle
def by_prefixes(a: Bits[32], b: Bits[32]):
    return lib.add(a, b)

@oracle
def same(x: Bits[64]):
    a, b = x[::2], x[1::2]
    clean(lib.add(a, b) ^ (a + b))
    return x
