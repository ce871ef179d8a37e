from revc import Bits, oracle

@oracle
def factors(a: Bits[8], b: Bits[8]):
    return a * b == 143
