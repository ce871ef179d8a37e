"""Whole algorithms, computed by circuits of their rounds, and what is known of their results."""
import hashlib
from typing import Callable, Dict, List

from circuits import CIRCUITS, Circuit, digits, numbers, rotated_right


class Rounds:
    """The circuits of the programs, as functions of the numbers of their parameters."""

    def __init__(self, compiled: Callable[[Circuit, List[str]], bytes], run: Callable[[bytes, List[str]], List[str]]):
        self.compiled, self.run = compiled, run
        self.circuits = {circuit.name: circuit for circuit in CIRCUITS}
        self.files: Dict[str, bytes] = {}

    def each(self, name: str, values: List[List[int]]) -> List[List[int]]:
        """The outputs of a circuit for each list of inputs."""
        circuit = self.circuits[name]
        if name not in self.files:
            self.files[name] = self.compiled(circuit, ["--plan", "pebble"])
        words = [digits(value, circuit.inputs) for value in values]
        return [numbers(line[circuit.bits:], circuit.outputs) for line in self.run(self.files[name], words)]

    def one(self, name: str, *values: int) -> List[int]:
        return self.each(name, [list(values)])[0]


def sha256_abc(rounds: Rounds) -> str:
    """The digest of `abc`, which is one block (FIPS 180-4, section 6.2)."""
    primes = [number for number in range(2, 312) if all(number % less for less in range(2, number))]
    start = [int_root(prime << 64, 2) % (1 << 32) for prime in primes[:8]]
    block = b"abc\x80" + bytes(52) + (24).to_bytes(8, "big")
    words, state = [int.from_bytes(block[at:at + 4], "big") for at in range(0, 64, 4)], start
    for at in range(64):
        constant = int_root(primes[at] << 96, 3)
        state = rounds.one("sha256", *state, (words[at] + constant) % (1 << 32))
        words.append((words[at] + small(words[at + 1], 7, 18, 3) + words[at + 9] + small(words[at + 14], 17, 19, 10))
                     % (1 << 32) if at < 48 else 0)
    return "".join("%08x" % ((old + new) % (1 << 32)) for old, new in zip(start, state))


def int_root(value: int, degree: int) -> int:
    """The greatest number whose power is at most the value."""
    root = 0
    for place in reversed(range(value.bit_length() // degree + 1)):
        if (root + (1 << place)) ** degree <= value:
            root += 1 << place
    return root


def small(word: int, first: int, second: int, shift: int) -> int:
    return rotated_right(word, first, 32) ^ rotated_right(word, second, 32) ^ word >> shift


def sha3_abc(rounds: Rounds) -> str:
    """The digest of `abc` by SHA3-256, all rows of a round at once (FIPS 202)."""
    block = (b"abc\x06" + bytes(132)).ljust(200, b"\0")
    block = block[:135] + bytes([block[135] | 0x80]) + block[136:]
    lanes = [int.from_bytes(block[8 * at:8 * at + 8], "little") for at in range(25)]
    register = 1
    for _ in range(24):
        lanes = rows_by(rounds, moved(lanes))
        for place in range(7):
            lanes[0] ^= (register & 1) << (1 << place) - 1
            register = register << 1 ^ (register >> 7) * 0x171
    return b"".join(lane.to_bytes(8, "little") for lane in lanes[:4]).hex()


def moved(lanes: List[int]) -> List[int]:
    """Theta, rho and pi of Keccak: lane x + 5y is that of the column x and the row y."""
    columns = [lanes[x] ^ lanes[x + 5] ^ lanes[x + 10] ^ lanes[x + 15] ^ lanes[x + 20] for x in range(5)]
    mixed = [lanes[at] ^ columns[(at - 1) % 5] ^ rotated_right(columns[(at + 1) % 5], 63, 64) for at in range(25)]
    result, x, y = [mixed[0]] + [0] * 24, 1, 0
    for step in range(24):
        count = (step + 1) * (step + 2) // 2 % 64
        lane = mixed[x + 5 * y]
        x, y = y, (2 * x + 3 * y) % 5
        result[x + 5 * y] = rotated_right(lane, (64 - count) % 64, 64)
    return result


def rows_by(rounds: Rounds, lanes: List[int]) -> List[int]:
    """Chi of Keccak on 320 rows."""
    rows = [[sum((lanes[5 * y + x] >> z & 1) << x for x in range(5))] for y in range(5) for z in range(64)]
    done = [row for (row,) in rounds.each("chi5", rows)]
    return [sum((done[64 * y + z] >> x & 1) << z for z in range(64)) for y in range(5) for x in range(5)]


def speck_block(rounds: Rounds) -> str:
    """The test vector of Speck32/64: the key 1918 1110 0908 0100 and the block 6574 694c. The rounds of the key are
    those of the block, with the number of the round as their key."""
    key, later, block = 0x0100, [0x0908, 0x1110, 0x1918], [0x6574, 0x694C]
    for number in range(22):
        block = rounds.one("speck", *block, key)
        added, key = rounds.one("speck", later.pop(0), key, number)
        later.append(added)
    return "%04x %04x" % tuple(block)


def present_block(rounds: Rounds) -> str:
    """The first test vector of PRESENT: the block 0 under the key 0, of 80 bits."""
    key, block = 0, 0
    for number in range(1, 32):
        block = placed([nibble for (nibble,) in rounds.each("present", nibbles(block ^ key >> 16))])
        key = rotated_right(key, 19, 80)
        top = rounds.one("present", key >> 76)[0]
        key = (top << 76 | key % (1 << 76)) ^ number << 15
    return "%016x" % (block ^ key >> 16)


def nibbles(block: int) -> List[List[int]]:
    return [[block >> 4 * at & 15] for at in range(16)]


def placed(values: List[int]) -> int:
    """The layer of PRESENT that moves bit i to 16i mod 63, and leaves bit 63."""
    bits = [value >> place & 1 for value in values for place in range(4)]
    return sum(bit << (16 * at % 63 if at < 63 else 63) for at, bit in enumerate(bits))


WHOLE = [
    ("SHA-256 of `abc`", sha256_abc, hashlib.sha256(b"abc").hexdigest()),
    ("SHA3-256 of `abc`", sha3_abc, hashlib.sha3_256(b"abc").hexdigest()),
    ("a block of Speck32/64", speck_block, "a868 42f2"),
    ("a block of PRESENT", present_block, "5579c1387b228445"),
]
