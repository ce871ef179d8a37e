"""Programs by which plans are measured: a multiplier, AES-128, rounds of SHA-256 and of Keccak-f.

The lowest place of a number is its first; the bytes of a block stand in their order, as do words.
"""
from typing import List

# Boyar and Peralta, A small depth-16 circuit for the AES S-box, 2012; 0 to 7 are its inputs
SBOX = """
    T1=0+3; T2=0+5; T3=0+6; T4=3+5; T5=4+6; T6=T1+T5; T7=1+2; T8=7+T6; T9=7+T7; T10=T6+T7; T11=1+5; T12=2+5;
    T13=T3+T4; T14=T6+T11; T15=T5+T11; T16=T5+T12; T17=T9+T16; T18=3+7; T19=T7+T18; T20=T1+T19; T21=6+7; T22=T7+T21;
    T23=T2+T22; T24=T2+T10; T25=T20+T17; T26=T3+T16; T27=T1+T12; M1=T13*T6; M2=T23*T8; M3=T14+M1; M4=T19*7; M5=M4+M1;
    M6=T3*T16; M7=T22*T9; M8=T26+M6; M9=T20*T17; M10=M9+M6; M11=T1*T15; M12=T4*T27; M13=M12+M11; M14=T2*T10;
    M15=M14+M11; M16=M3+M2; M17=M5+T24; M18=M8+M7; M19=M10+M15; M20=M16+M13; M21=M17+M15; M22=M18+M13; M23=M19+T25;
    M24=M22+M23; M25=M22*M20; M26=M21+M25; M27=M20+M21; M28=M23+M25; M29=M28*M27; M30=M26*M24; M31=M20*M23;
    M32=M27*M31; M33=M27+M25; M34=M21*M22; M35=M24*M34; M36=M24+M25; M37=M21+M29; M38=M32+M33; M39=M23+M30;
    M40=M35+M36; M41=M38+M40; M42=M37+M39; M43=M37+M38; M44=M39+M40; M45=M42+M41; M46=M44*T6; M47=M40*T8; M48=M39*7;
    M49=M43*T16; M50=M38*T9; M51=M37*T17; M52=M42*T15; M53=M45*T27; M54=M41*T10; M55=M44*T13; M56=M40*T23;
    M57=M39*T19; M58=M43*T3; M59=M38*T22; M60=M37*T20; M61=M42*T1; M62=M45*T4; M63=M41*T2; L0=M61+M62; L1=M50+M56;
    L2=M46+M48; L3=M47+M55; L4=M54+M58; L5=M49+M61; L6=M62+L5; L7=M46+L3; L8=M51+M59; L9=M52+M53; L10=M53+L4;
    L11=M60+L2; L12=M48+M51; L13=M50+L0; L14=M52+M61; L15=M55+L1; L16=M56+L0; L17=M57+L1; L18=M58+L8; L19=M63+L4;
    L20=L0+L1; L21=L1+L7; L22=L3+L12; L23=L18+L2; L24=L15+L9; L25=L6+L10; L26=L7+L9; L27=L8+L10; L28=L11+L14;
    L29=L11+L17; S0=L6+L24; S1=L16-L26; S2=L19-L28; S3=L6+L21; S4=L20+L22; S5=L25+L29; S6=L13-L27; S7=L6-L23"""
FORMS = {"+": "%s <> %s", "*": "%s && %s", "-": "true <> %s <> %s"}
LARGEST = 1 << 32


# ---- Parts


def register(places: List[str]) -> str:
    return "reg [%s]" % "; ".join(places)


def zeros(bits: int) -> str:
    return register(["false"] * bits)


def constant(number: int, bits: int) -> str:
    return register(["true" if number >> place & 1 else "false" for place in range(bits)])


def cut(name: str, at: int, bits: int) -> str:
    """The place `at` of a register that is cut into words of so many bits."""
    return "%s.[%d..%d]" % (name, at * bits, at * bits + bits - 1)


def joined(parts: List[str]) -> str:
    text, *others = parts
    for other in others:
        text = "append (%s) (%s)" % (text, other)
    return text


def places(head: str, bits: int, term: str) -> str:
    """A function on registers, place by place: `i` is the place in its term."""
    return "let %s = { let r = z false; for i in 0 .. %d do { r.[i] <- %s; }; r };" % (head, bits - 1, term)


def program(parameters: str, lines: List[str], output: str) -> bytes:
    return ("revs 2\nmain %s = {\n  %s\n  %s\n}\n" % (parameters, "\n  ".join(lines), output)).encode()


# ---- Programs


def multiplier(bits: int) -> bytes:
    """The product of two numbers, by rows of ANDs that are added to the sum so far."""
    last = bits - 1
    lines = ["let carry x y c = (x <> c) && (y <> c) <> c;", "let p = %s;" % zeros(2 * bits)]
    lines += ["let %s = %s;" % (name, zeros(bits)) for name in ("row", "sum", "c")]
    lines += ["for i in 0 .. %d do { p.[i] <- a.[i] && b.[0]; };" % last,
              "for j in 1 .. %d do {" % last,
              "  for i in 0 .. %d do { row.[i] <- a.[i] && b.[j]; };" % last,
              "  for i in 0 .. %d do { c.[i + 1] <- carry p.[i + j] row.[i] c.[i]; };" % (last - 1),
              "  for i in 0 .. %d do { sum.[i] <- p.[i + j] <> row.[i] <> c.[i]; };" % last,
              "  p.[j + %d] <- carry p.[j + %d] row.[%d] c.[%d];" % (bits, last, last, last),
              "  for i in 0 .. %d do { p.[i + j] <- sum.[i]; };" % last,
              "};"]
    return program("(a : bool[%d]) (b : bool[%d])" % (bits, bits), lines, "p")


def sbox() -> List[str]:
    lines = ["let sbox x = {"]
    for step in SBOX.split(";"):
        name, term = step.strip().split("=")
        sign = next(sign for sign in FORMS if sign in term)
        operands = ["x.[%d]" % (7 - int(each)) if each.isdigit() else each for each in term.split(sign)]
        lines.append("  let %s = %s;" % (name, FORMS[sign] % tuple(operands)))
    return lines + ["  " + register(["S%d" % (7 - place) for place in range(8)]) + " };"]


def aes_sbox() -> bytes:
    return program("(x : bool[8])", sbox(), "sbox x")


def shifted(at: int, more: int) -> int:
    """The byte that ShiftRows brings to the place so many below, in the same column."""
    row = (at + more) % 4
    return row + 4 * ((at // 4 + row) % 4)


def mixed(a: str, b: str, c: str, d: str) -> str:
    """A byte of MixColumns."""
    return "add (add (xtime (add %s %s)) %s) (add %s %s)" % (a, b, b, c, d)


def aes(rounds: int = 10) -> bytes:
    """AES with so many rounds of the ten of AES-128; only the tenth has no MixColumns."""
    xtime = [7, (0, 7), 1, (2, 7), (3, 7), 4, 5, 6]
    doubled = ["x.[%d] <> x.[%d]" % each if isinstance(each, tuple) else "x.[%d]" % each for each in xtime]
    lines = sbox() + ["let z u = %s;" % zeros(8), places("add x y", 8, "x.[i] <> y.[i]"),
                      "let xtime x = %s;" % register(doubled)]
    lines += ["let k0_%d = %s;" % (at, cut("key", at, 8)) for at in range(16)]
    lines += ["let s0_%d = add %s k0_%d;" % (at, cut("text", at, 8), at) for at in range(16)]
    factor = 1
    for number in range(1, rounds + 1):
        before = number - 1
        for at in range(16):
            turned = "(sbox k%d_%d)" % (before, 12 + (at + 1) % 4) if at < 4 else "k%d_%d" % (number, at - 4)
            key = "add k%d_%d %s" % (before, at, turned)
            key = "add (%s) (%s)" % (key, constant(factor, 8)) if at == 0 else key
            lines.append("let k%d_%d = %s;" % (number, at, key))
        factor = factor << 1 ^ (0x11B if factor & 0x80 else 0)
        lines += ["let b%d = sbox s%d_%d;" % (at, before, at) for at in range(16)]
        for at in range(16):
            column = ["b%d" % shifted(at, more) for more in range(4)]
            lines.append("let m%d = %s;" % (at, column[0] if number == 10 else mixed(*column)))
        lines += ["let s%d_%d = add m%d k%d_%d;" % (number, at, at, number, at) for at in range(16)]
    return program("(key : bool[128]) (text : bool[128])", lines, joined(["s%d_%d" % (rounds, at) for at in range(16)]))


def primes(count: int) -> List[int]:
    found, number = [], 2
    while len(found) < count:
        found += [number] if all(number % prime for prime in found) else []
        number += 1
    return found


def cube_root(number: int) -> int:
    """The greatest whole number whose cube is at most this one."""
    root = 0
    for place in reversed(range(number.bit_length() // 3 + 1)):
        root += 1 << place if (root + (1 << place)) ** 3 <= number else 0
    return root


def sha256(rounds: int = 64) -> bytes:
    """The compression function of SHA-256, or so many of its 64 rounds, with their part of the schedule."""
    carried = "let t = x.[i] <> c; r.[i] <- t <> y.[i]; c <- t && (y.[i] <> c) <> c;"
    lines = ["let z u = %s;" % zeros(32),
             "let sum x y = { let r = z false; let c = false; for i in 0 .. 31 do { %s }; r };" % carried,
             places("xor x y", 32, "x.[i] <> y.[i]"),
             places("ch e f g", 32, "e.[i] && (f.[i] <> g.[i]) <> g.[i]"),
             places("maj a b c", 32, "(a.[i] <> c.[i]) && (b.[i] <> c.[i]) <> c.[i]"),
             "let S0 x = xor (xor (rotate 2 x) (rotate 13 x)) (rotate 22 x);",
             "let S1 x = xor (xor (rotate 6 x) (rotate 11 x)) (rotate 25 x);",
             "let s0 x = xor (xor (rotate 7 x) (rotate 18 x)) (append x.[3..31] (%s));" % zeros(3),
             "let s1 x = xor (xor (rotate 17 x) (rotate 19 x)) (append x.[10..31] (%s));" % zeros(10)]
    lines += ["let w%d = %s;" % (at, cut("m", at, 32)) for at in range(16)]
    lines += ["let w%d = sum (sum (s1 w%d) w%d) (sum (s0 w%d) w%d);" % (at, at - 2, at - 7, at - 15, at - 16)
              for at in range(16, rounds)]
    lines += ["let %s0 = %s;" % (name, cut("h", at, 32)) for at, name in enumerate("abcdefgh")]
    for at, prime in enumerate(primes(rounds)):
        names = {name: "%s%d" % (name, at) for name in "abcdefghw"}
        added = "sum (sum (sum {h} (S1 {e})) (sum (ch {e} {f} {g}) {w})) (%s)"
        lines.append("let x = %s;" % (added.format(**names) % constant(cube_root(prime << 96) % LARGEST, 32)))
        new = ["sum x (sum (S0 {a}) (maj {a} {b} {c}))", "{a}", "{b}", "{c}", "sum {d} x", "{e}", "{f}", "{g}"]
        lines += ["let %s%d = %s;" % (name, at + 1, term.format(**names)) for name, term in zip("abcdefgh", new)]
    return program("(h : bool[256]) (m : bool[512])", lines,
                   joined(["sum %s0 %s%d" % (name, name, rounds) for name in "abcdefgh"]))


def keccak(rounds: int, bits: int) -> bytes:
    """So many rounds of Keccak-f on five by five lanes of so many bits."""
    lines = ["let z u = %s;" % zeros(bits), places("add x y", bits, "x.[i] <> y.[i]"),
             places("chi x y v", bits, "x.[i] <> (true <> y.[i]) && v.[i]")]
    lanes = [(x, y) for y in range(5) for x in range(5)]
    lines += ["let l0_%d%d = %s;" % (x, y, cut("s", x + 5 * y, bits)) for x, y in lanes]
    turns, (x, y) = {(0, 0): 0}, (1, 0)
    for number in range(24):
        turns[x, y] = (number + 1) * (number + 2) // 2 % bits
        x, y = y, (2 * x + 3 * y) % 5
    state = 1
    for number in range(rounds):
        flips = 0
        for power in range(7):
            state = state << 1 ^ (0x171 if state & 0x80 else 0)
            flips |= (state >> 1 & 1) << ((1 << power) - 1)
        for x in range(5):
            column = "l%d_%d0" % (number, x)
            for y in range(1, 5):
                column = "add (%s) l%d_%d%d" % (column, number, x, y)
            lines.append("let c%d = %s;" % (x, column))
        lines += ["let d%d = add c%d (rotate %d c%d);" % (x, (x + 4) % 5, bits - 1, (x + 1) % 5) for x in range(5)]
        for y, x in lanes:
            lane = "rotate %d (add l%d_%d%d d%d)" % (-turns[x, y] % bits, number, x, y, x)
            lines.append("let b%d%d = %s;" % (y, (2 * x + 3 * y) % 5, lane))
        for y, x in lanes:
            lane = "chi b%d%d b%d%d b%d%d" % (x, y, (x + 1) % 5, y, (x + 2) % 5, y)
            lane = "add (%s) (%s)" % (lane, constant(flips % (1 << bits), bits)) if (x, y) == (0, 0) else lane
            lines.append("let l%d_%d%d = %s;" % (number + 1, x, y, lane))
    return program("(s : bool[%d])" % (25 * bits), lines, joined(["l%d_%d%d" % (rounds, x, y) for x, y in lanes]))
