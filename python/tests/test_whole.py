"""Whole ciphers and hashes: their circuits give the published vectors, in both formats, and their texts are those kept."""
import hashlib
import sys
import unittest
from pathlib import Path

sys.path.insert(0, str(Path(__file__).resolve().parent.parent / "examples"))

from aes128_key import aes128_key
from blake2s import START as BLAKE2S_START, blake2s
from md5 import START, md5
from sha1 import START as SHA1_START, sha1
from simeck32_64 import simeck32_64
from whole import FOLDER, WHOLE, joined, words
from xtea import xtea


class Wholes(unittest.TestCase):
    @unittest.skipUnless((3, 9) <= sys.version_info < (3, 14), "another Python may know fewer of the author's names")
    def test_texts(self) -> None:
        for each in WHOLE:
            self.assertEqual((FOLDER / (each.oracle.name + ".revs")).read_text(), each.oracle.text, each.oracle.name)
            self.assertLess(len(each.oracle.text), 65536)

    def test_vectors(self) -> None:
        for each in WHOLE:
            circuit, cases = each.oracle.compile(), each.cases()
            for form in ("real", "qasm"):
                found = circuit.run_many([row for row, _ in cases], form)
                self.assertEqual(found, [wanted for _, wanted in cases], f"{each.oracle.name}, {form}")

    def test_programs_of_one_script(self) -> None:
        block = b"abc\x80" + bytes(52) + (24).to_bytes(8, "little")
        found = md5(state=joined(START, 32), block=int.from_bytes(block, "little"))
        self.assertEqual(found, words(hashlib.md5(b"abc").digest(), 4, "little"))
        block = b"abc\x80" + bytes(52) + (24).to_bytes(8, "big")
        found = sha1(state=joined(SHA1_START, 32), block=joined(words(block), 32))
        self.assertEqual(found, words(hashlib.sha1(b"abc").digest()))
        start = [BLAKE2S_START[0] ^ 0x01010020] + BLAKE2S_START[1:]
        found = blake2s(h=joined(start, 32), m=int.from_bytes(b"abc", "little"), t=3, f=(1 << 32) - 1)
        self.assertEqual(found, words(hashlib.blake2s(b"abc").digest(), 4, "little"))
        key, text = words(bytes(range(16))), words(b"ABCDEFGH")
        self.assertEqual(xtea(text=joined(text, 32), key=joined(key, 32)), [0x497df3d0, 0x72612cb5])
        key = [0x0100, 0x0908, 0x1110, 0x1918]
        self.assertEqual(simeck32_64(text=0x65656877, key=joined(key, 16)), 0x770d2c76)

    def test_key_search(self) -> None:
        right = int.from_bytes(bytes(range(16)), "little")
        found = aes128_key.compile().run_many([dict(key=right), dict(key=right ^ 1), dict(key=0)])
        self.assertEqual(found, [1, 0, 0])


if __name__ == "__main__":
    unittest.main()
