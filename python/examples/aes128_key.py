"""Grover's oracle for a key of AES-128: 1 where the key takes two known texts to their cipher texts (FIPS 197, C.1, and
the text 0 under the same key)."""
from aes128 import encrypted
from revc import Bits, Cat, Const, oracle

PAIRS = [("00112233445566778899aabbccddeeff", "69c4e0d86a7b0430d8cdb78070b4c55a"),
         ("00000000000000000000000000000000", "c6a13b37878f5b826f4f8162a1c8d879")]


@oracle
def aes128_key(key: Bits[128]):
    texts = [[Const(each, 8) for each in bytes.fromhex(text)] for text, _ in PAIRS]
    wanted = [Const(int.from_bytes(bytes.fromhex(cipher), "little"), 128) for _, cipher in PAIRS]
    first, second = encrypted(key.split(8), texts)
    return (Cat(first) == wanted[0]) & (Cat(second) == wanted[1])
