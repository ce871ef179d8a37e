"""Programs on bits."""
from typing import List

from .texts import LONG, ROTATED, Row

BAD_BITS = "revc: bad bits in word 1\n"

# Bits and words.
WORDS: List[Row] = [
    ("eval 10", "main (a : bool) (b : bool) = true && a", 0, "1\n"),
    ("eval 02", "main (a : bool) (b : bool) = { let r = reg [a; b]; r.[0] <- b; a }", 12, BAD_BITS),
    ("eval ", "main (a : bool) (b : bool) = { let r = reg [a; b]; r.[0] <- b; a }", 12, BAD_BITS),
]

# Claims.
CLAIMS: List[Row] = [
    ("eval 10", "main (a : bool) (b : bool) = { assert a; clean b; true }", 0, "1\n"),
    ("eval 11", "main (a : bool) (b : bool) = { assert a; clean b; true }", 4, "revc: claim 2 at 1:42 fails on 11\n"),
    ("eval 01", "main (a : bool) (b : bool) = { assert a; clean b; true }", 4, "revc: claim 1 at 1:32 fails on 01\n"),
    ("eval 00", "main (a : bool) (b : bool) = { let t = a && b; clean t; t <- a; t }", 3, "revc: 1:57 Gone\n"),
]

# Names that stand for one location, and registers that copy no bit.
ALIASES: List[Row] = [
    ("eval 01", "main (a : bool) (b : bool) = { let r = reg [a; b]; let s = r; s.[0] <- b; r }", 0, "11\n"),
    ("eval 10", "main (a : bool) (b : bool) = { let r = reg [a; b]; let s = r; s.[0] <- b; r }", 0, "00\n"),
    ("eval 01", "main (a : bool) (b : bool) = { let t = a; a <- b; b <- t; reg [a; b] }", 0, "11\n"),
    ("eval 01", "main (a : bool) (b : bool) = { let t = a && a; a <- b; b <- t; reg [a; b] }", 0, "10\n"),
    ("eval 01", "main (a : bool) (b : bool) = a <> { a <- b; a }", 0, "0\n"),
    ("eval 10", "main (r : bool[2]) = { let s = rotate 1 r; s.[0] <- s.[1]; r }", 0, "11\n"),
    ("eval 011", "main (a : bool) (r : bool[2]) = { let s = append (reg [a]) r; s.[2] <- s.[0]; r }", 0, "10\n"),
]

# Functions as values, with the locations that they were made with.
FUNCTIONS: List[Row] = [
    ("eval 01", "main (a : bool) (b : bool) = { let f x = x <> a; a <- b; f b }", 0, "0\n"),
    ("eval 11", "main (a : bool) (b : bool) = { let f = { let h = a && b; fun x -> x <> h }; f a }", 0, "0\n"),
    ("eval 10", "main (a : bool) (b : bool) = { let f x y = x <> (x && y); let g = f a; g b }", 0, "1\n"),
    ("eval 11", "main (a : bool) (b : bool) = (fun x -> fun y -> x && y) a b", 0, "1\n"),
    ("eval 11",
     "main (a : bool) (b : bool) = { let twice f x = f (f x); let flip x = x <> true; reg [twice flip a; flip b] }",
     0, "10\n"),
    ("eval 01", "main (r : bool[2]) = { let put x = x.[0] <- x.[1]; put r; r }", 0, "11\n"),
]

# Nearer names hide farther ones.
NEARER: List[Row] = [
    ("eval 01", "main (a : bool) (b : bool) = (fun x x -> x) a b", 0, "1\n"),
    ("eval 01", "main (a : bool) (b : bool) = { let x = a; let y = { let x = b; x }; reg [x; y] }", 0, "01\n"),
    ("eval 01", "main (a : bool) (b : bool) = { let x = b; let x = x <> a; x }", 0, "1\n"),
    ("eval 10", "main (a : bool) (b : bool) = { let x = a; let f y = x <> y; let x = b; f x }", 0, "1\n"),
]

# Registers.
REGISTERS: List[Row] = [
    ("eval 1000", "main (r : bool[4]) = rotate 1 r", 0, "0001\n"),
    ("eval 0010", "main (r : bool[4]) = r.[1..3].[1..2]", 0, "10\n"),
    ("eval 1000", "main (r : bool[4]) = append (rotate 1 r) r.[0..1]", 0, "000110\n"),
    ("eval 000", "main (r : bool[3]) = rotate 3 r", 3, "revc: 1:22 Rotate\n"),
    ("eval 0", "main (r : bool[1024]) = append r r", 3, "revc: 1:25 Outputs\n"),
    ("eval ", "main (a : bool) = z", 3, "revc: 1:19 Unbound\n"),
    ("eval 00", "main (a : bool) (a : bool) = a", 3, "revc: 1:18 TwoParams\n"),
    ("eval 0", "main (a : bool) = { let t = false; clean t; t }", 3, "revc: 1:19 Gone\n"),
    ("eval 0", "main (a : bool) = (fun x -> x x) (fun x -> x x)", 3, "revc: 1:44 Depth\n"),
]

# A body behind a bit `a` and a register `r` of three bits, and its refusal.
STUCK: List[Row] = [
    ("eval 0000", "main (a : bool) (r : bool[3]) = r && a", 3, "revc: 1:33 NotBit\n"),
    ("eval 0000", "main (a : bool) (r : bool[3]) = a && r", 3, "revc: 1:38 NotBit\n"),
    ("eval 0000", "main (a : bool) (r : bool[3]) = a.[0]", 3, "revc: 1:34 NotRegister\n"),
    ("eval 0000", "main (a : bool) (r : bool[3]) = append r a", 3, "revc: 1:42 NotRegister\n"),
    ("eval 0000", "main (a : bool) (r : bool[3]) = r.[3]", 3, "revc: 1:34 Index\n"),
    ("eval 0000", "main (a : bool) (r : bool[3]) = r.[2..1]", 3, "revc: 1:34 Slice\n"),
    ("eval 0000", "main (a : bool) (r : bool[3]) = a a", 3, "revc: 1:35 NotFunction\n"),
    ("eval 0000", "main (a : bool) (r : bool[3]) = { clean a; a <> a }", 3, "revc: 1:44 Gone\n"),
    ("eval 0000", "main (a : bool) (r : bool[3]) = { a <- r.[0] }", 3, "revc: 1:33 NoOutput\n"),
]

# Programs in pieces, each repeated so many times.
LONG_VALUES: List[Row] = [
    ("eval 0", LONG + "{\nlet s = append r r;\nlet t = append s s;\nappend t t;\nr.[0] }", 3, "revc: 4:1 Length\n"),
    ("eval 0", "main (a : bool) = {\n" + "assert a;\n" * 4097 + "a }", 3, "revc: 4098:1 Claims\n"),
    ("eval 0",
     "main (a : bool) = {\nlet f x = x" +
     " <> x" * 256 +
     ";\n" +
     "f a;\n" * 1025 +
     "a }",
     3, "revc: 2:16 Writes\n"),
    ("eval 0", ROTATED, 3, "revc: 4095:1 Work\n"),
]
