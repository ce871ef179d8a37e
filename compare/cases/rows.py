"""Texts whose answers were worked out by hand, each with its words: the lines and gates of a file, the lines that
another command writes, or the line of a fault."""
from models.commands import Answer

BIT = "main (a : bool) = "
BITS = "main (a : bool) (b : bool) = "
THREE = "main (r : bool[3]) = "
NOT = "{ let n = true <> a; %s }"
LONG = ["let s = append r r;", "let t = append s s;"] + ["rotate 0 t;"] * 5_000 + ["r.[0]", "}"]
MOST_SHOWN = 100  # gates
AND = "x0 x1 y0 w0: t3 x0 x1 w0, t2 w0 y0, t3 x0 x1 w0"
UNCLEANED = "{ let t = a && b; clean t; a }"
CLEANED = "{ let t = a <> b; t <- t <> (a <> b); clean t; a && b }"
FIVE = BITS + "{ let t = a && b; assert (true <> t <> t); t }"
ALIASED = BITS + "{ let r = reg [a; b]; r.[0] <- b; a }"

# ---- Compiling

COMPILED = [
    (BITS + "a && b", AND),
    (BITS + "a <> b", "x0 x1 y0 w0: t2 x0 w0, t2 x1 w0, t2 w0 y0, t2 x1 w0, t2 x0 w0"),
    (BITS + "a <> b && a", "x0 x1 y0 w0 w1: t3 x1 x0 w0, t2 x0 w1, t2 w0 w1, t3 x1 x0 w0, t2 w1 y0, t3 x1 x0 w0, "
     "t2 w0 w1, t2 x0 w1, t3 x1 x0 w0"),
    (BIT + "a", "x0 y0: t2 x0 y0"),
    (BIT + "(" * 99 + "a" + ")" * 99, "x0 y0: t2 x0 y0"),
    (BITS + "{ let r = reg [a; b]; r.[0] <- b; a }", "x0 x1 y0: t2 x1 y0"),
    (THREE + "rotate 0 r", "x0 x1 x2 y0 y1 y2: t2 x0 y0, t2 x1 y1, t2 x2 y2"),
    (THREE + "rotate 2 r", "x0 x1 x2 y0 y1 y2: t2 x2 y0, t2 x0 y1, t2 x1 y2"),
    (THREE + "r.[0..0]", "x0 x1 x2 y0: t2 x0 y0"),
    # Each way of folding
    (BIT + "true", "x0 y0: t1 y0"),
    (BIT + "false", "x0 y0: "),
    (BIT + "true <> true", "x0 y0: "),
    (BIT + "true <> false", "x0 y0: t1 y0"),
    (BIT + "false <> a", "x0 y0: t2 x0 y0"),
    (BIT + "a <> false", "x0 y0: t2 x0 y0"),
    (BIT + "true <> a", "x0 y0 w0: t2 x0 w0, t1 w0, t2 w0 y0, t1 w0, t2 x0 w0"),
    (BIT + "a <> true", "x0 y0 w0: t2 x0 w0, t1 w0, t2 w0 y0, t1 w0, t2 x0 w0"),
    (BIT + "a <> a", "x0 y0: "),
    (BIT + "true && true", "x0 y0: t1 y0"),
    (BIT + "true && false", "x0 y0: "),
    (BIT + "false && a", "x0 y0: "),
    (BIT + "a && false", "x0 y0: "),
    (BIT + "true && a", "x0 y0: t2 x0 y0"),
    (BIT + "a && true", "x0 y0: t2 x0 y0"),
    (BIT + "a && a", "x0 y0: t2 x0 y0"),
    # Bases that are nodes, and several outputs
    (BIT + NOT % "n && n", "x0 y0 w0: t2 x0 w0, t1 w0, t2 w0 y0, t1 w0, t2 x0 w0"),
    (BIT + NOT % "n <> n", "x0 y0: "),
    (BIT + NOT % "reg [n; true; false; a; n]",
     "x0 y0 y1 y2 y3 y4 w0: t2 x0 w0, t1 w0, t2 w0 y0, t1 y1, t2 x0 y3, t2 w0 y4, t1 w0, t2 x0 w0"),
    (BITS + "reg [a && b; a && b]",
     "x0 x1 y0 y1 w0 w1: t3 x0 x1 w0, t3 x0 x1 w1, t2 w0 y0, t2 w1 y1, t3 x0 x1 w1, t3 x0 x1 w0"),
    # Nodes that no output rests on go, and the others are numbered anew
    (BITS + "{ let t = a <> b; let u = true <> a; let v = t && u; u }",
     "x0 x1 y0 w0: t2 x0 w0, t1 w0, t2 w0 y0, t1 w0, t2 x0 w0"),
    (BITS + "{ let t = a <> b; let u = t && a; let v = true <> b; let w = u <> t; v && a }",
     "x0 x1 y0 w0 w1: t2 x1 w0, t1 w0, t3 w0 x0 w1, t2 x1 w0, t1 w0, t2 w1 y0, t1 w0, t2 x1 w0, t3 w0 x0 w1, t1 w0, "
     "t2 x1 w0"),
    (BITS + CLEANED, AND),
    # Faults
    (BIT + "{ assert a; a }", "revc: claim 1 at 1:21 fails on 0"),
    (BITS + UNCLEANED, "revc: claim 1 at 1:48 fails on 11"),
    (BIT + "{ let t = false; clean t; t }", "revc: 1:19 Gone"),
    (BIT + "(fun x -> x x) (fun x -> x x)", "revc: 1:44 Depth"),
    (THREE + "rotate 3 r", "revc: 1:22 Rotate"),
    (BIT + "{ clean a; a }", "revc: 1:19 Gone"),
    ("\n".join(["main (r : bool[1024]) = {"] + LONG), "revc: 4095:1 Work"),
    ("", "revc: 1:1 Syntax"),
    (BIT + "a & a", "revc: 1:21 BadByte"),
    (BIT + "z", "revc: 1:19 Unbound"),
    ("main (a : bool) (a : bool) = a", "revc: 1:18 TwoParams"),
    ("main (a : bool[1025]) = a.[0]", "revc: 1:7 Inputs"),
    (BIT + "(" * 100, "revc: 1:118 Nesting"),
    (BIT + "fun x -> x", "revc: 1:19 NoOutput"),
    (" " * 1_048_577, "revc: source over 1048576 bytes"),
]

# ---- Plans and budgets

ROW_OF_65 = "main (a : bool[65]) = " + " && ".join("a.[%d]" % place for place in range(65))
SUMS = " && ".join("(a.[%d] <> b.[%d])" % (place, place) for place in range(6))
OF_65_MONOMIALS = "main (a : bool[6]) (b : bool[6]) (c : bool) (d : bool) = { let t = %s <> c; t && d }" % SUMS
FOUR = "main (a : bool) (b : bool) (c : bool) (d : bool) = "
PLAIN = "compile --plan pebble"

PLANNED = [
    # The first two of three products have their last use before the end: the second is cleaned by its one monomial
    ("compile", FOUR + "a && b && c && d",
     "x0 x1 x2 x3 y0 w0 w1: t3 x0 x1 w0, t3 w0 x2 w1, t3 x0 x1 w0, t3 w1 x3 w0, "
     "t3 x2 w0 w1, t3 x0 x1 w0, t3 x2 w0 w1, t3 x0 x1 w0, t2 w0 y0, "
     "t3 x2 w0 w1, t3 x0 x1 w0, t3 x2 w0 w1, t3 x0 x1 w0, "
     "t3 w1 x3 w0, t3 x0 x1 w0, t3 w0 x2 w1, t3 x0 x1 w0"),
    (PLAIN, FOUR + "a && b && c && d", "x0 x1 x2 x3 y0 w0 w1 w2: t3 x0 x1 w0, t3 w0 x2 w1, t3 w1 x3 w2, t2 w2 y0, "
     "t3 w1 x3 w2, t3 w0 x2 w1, t3 x0 x1 w0"),
    # In blocks of two nodes the third one stands alone, and the first is only there while the second changes
    (PLAIN + " --lines 7", FOUR + "a && b && c && d",
     "x0 x1 x2 x3 y0 w0 w1: t3 x0 x1 w0, t3 w0 x2 w1, t3 x0 x1 w0, t3 w1 x3 w0, t2 w0 y0, "
     "t3 w1 x3 w0, t3 x0 x1 w0, t3 w0 x2 w1, t3 x0 x1 w0"),
    # The two monomials a and ab are one cube with a negative literal
    ("compile", FOUR + "(a <> a && b) && c && d",
     "x0 x1 x2 x3 y0 w0 w1: t3 x0 x1 w0, t2 x0 w1, t2 w0 w1, t3 x0 x1 w0, t3 w1 x2 w0, "
     "t1 x1, t3 x0 x1 w1, t1 x1, t3 w0 x3 w1, "
     "t1 x1, t3 x2 w1 w0, t3 x0 x1 w1, t3 x2 w1 w0, t3 x0 x1 w1, t1 x1, t2 w1 y0, "
     "t1 x1, t3 x2 w1 w0, t3 x0 x1 w1, t3 x2 w1 w0, t3 x0 x1 w1, t1 x1, "
     "t3 w0 x3 w1, t1 x1, t3 x0 x1 w1, t1 x1, t3 w1 x2 w0, t3 x0 x1 w0, t2 w0 w1, t2 x0 w1, t3 x0 x1 w0"),
    (PLAIN, BITS + "a <> b && a",
     "x0 x1 y0 w0 w1: t3 x1 x0 w0, t2 x0 w1, t2 w0 w1, t2 w1 y0, t2 w0 w1, t2 x0 w1, t3 x1 x0 w0"),
    # One line a write, or one for each of the six halvings and one more at its end
    (PLAIN, ROW_OF_65, "lines 130, gates 129, x 0, cx 1, ccx 128"),
    (PLAIN + " --lines 73", ROW_OF_65, "lines 73, gates 731, x 0, cx 1, ccx 730"),
    (PLAIN + " --lines 72", ROW_OF_65, "revc: lines 73 over 72"),
    ("compile --plan eager --lines 68", ROW_OF_65, "lines 68, gates 26675, x 0, cx 1, ccx 26674"),
    ("compile --plan eager --lines 67", ROW_OF_65, "revc: lines 68 over 67"),
    # A value of 65 monomials stays on its line
    ("compile --plan eager", OF_65_MONOMIALS, "lines 18, gates 3209, x 0, cx 53, ccx 3156"),
    ("compile", BITS + " <> ".join(["a && b"] * 2_047), "lines 6, gates 18417, x 0, cx 8185, ccx 10232"),
    ("compile", BITS + " <> ".join(["a && b"] * 2_048), "lines 6, gates 18427, x 0, cx 8189, ccx 10238"),
    (PLAIN, BITS + " <> ".join(["a && b"] * 2_047), "lines 4096, gates 12279, x 0, cx 8185, ccx 4094"),
    # Budgets: what every plan needs comes first, and lines before gates
    ("compile --lines 3", BITS + "a && b", "revc: lines 4 over 3"),
    ("compile --lines 2", BITS + "a && b", "revc: lines 3 over 2"),
    ("compile --lines 1", BITS + "a && b", "revc: lines 3 over 1"),
    ("compile --gates 2", BITS + "a && b", "revc: more than 2 gates"),
    ("compile --gates 1 --lines 3", BITS + "a && b", "revc: lines 4 over 3"),
    ("compile --lines 4 --gates 3", BITS + "a && b", AND),
    ("compile --gates 1", BIT + "a", "x0 y0: t2 x0 y0"),
    ("compile --lines 2", BIT + "false", "x0 y0: "),
    ("compile --lines 1", BIT + "false", "revc: lines 2 over 1"),
    # Borrowed lines
    ("compile --borrow 1", BITS + "a && b", AND.replace("w0:", "w0 b0:")),
    ("compile --borrow 2 --lines 4", BITS + "a && b", "revc: lines 5 over 4"),
    ("compile --borrow 2 --lines 5", BITS + "a && b", "revc: lines 6 over 5"),
    ("compile --borrow 64 --lines 16384", BIT + "a",
     "x0 y0 " + " ".join("b%d" % line for line in range(64)) + ": t2 x0 y0"),
    # The idle lines of a wide gate are taken from the last one on, and so are those that are borrowed
    ("compile --borrow 1", FOUR + "a && b && c && d",
     "x0 x1 x2 x3 y0 w0 w1 b0: t3 x0 x1 w0, t3 w0 x2 w1, t3 x0 x1 w0, t3 w1 x3 w0, "
     "t3 x2 b0 w1, t3 x0 x1 b0, t3 x2 b0 w1, t3 x0 x1 b0, t2 w0 y0, "
     "t3 x2 b0 w1, t3 x0 x1 b0, t3 x2 b0 w1, t3 x0 x1 b0, "
     "t3 w1 x3 w0, t3 x0 x1 w0, t3 w0 x2 w1, t3 x0 x1 w0"),
]

# ---- Lean plans

LEAN = "compile --plan lean"
AND_OF_5 = "main (a : bool[5]) = a.[0] && a.[1] && a.[2] && a.[3] && a.[4]"
OF_FIVE = ("main (a : bool[6]) = { let s = a.[0] <> a.[1] <> a.[2] <> a.[3] <> a.[4]; reg [s && a.[5]; s] }")
FULL_ADDER = ("main (a : bool) (b : bool) (c : bool) = { let sum x y c = x <> y <> c; "
              "let carry x y c = (x && y) <> (c && (x <> y)); reg [sum a b c; carry a b c] }")

LEANED = [
    (LEAN, BITS + "a && b", "x0 x1 y0: t3 x0 x1 y0"),
    (LEAN, "main (a : bool) (b : bool) (c : bool) = (a && b) <> (b && c) <> (a && c)",
     "x0 x1 x2 y0: t2 x1 y0, t2 x1 x0, t2 x1 x2, t3 x0 x2 y0, t2 x1 x2, t2 x1 x0"),
    (LEAN, BITS + "true <> ((true <> a) && (true <> b))", "x0 x1 y0: t2 x0 y0, t2 x1 y0, t3 x0 x1 y0"),
    (LEAN, "main (a : bool[4]) = a.[0] && a.[1] && a.[2] && a.[3]",
     "x0 x1 x2 x3 y0 w0 w1: t3 x0 x1 w0, t3 x2 w0 w1, t3 x3 w1 y0, t3 x2 w0 w1, t3 x0 x1 w0"),
    (LEAN, OF_FIVE, "x0 x1 x2 x3 x4 x5 y0 y1 w0: t2 x0 w0, t2 x1 w0, t2 x2 w0, t2 x3 w0, t2 x4 w0, t3 x5 w0 y0, "
     "t2 w0 y1, t2 x4 w0, t2 x3 w0, t2 x2 w0, t2 x1 w0, t2 x0 w0"),
    (LEAN, "main (a : bool[2]) = true", "x0 x1 y0: t1 y0"),
    (LEAN, FULL_ADDER, "x0 x1 x2 y0 y1: t2 x0 y0, t2 x2 y1, t2 x1 y0, t2 x2 x0, t2 x2 x1, t2 x2 y0, t3 x0 x1 y1, "
     "t2 x2 x1, t2 x2 x0"),
    # A product, a part of it, and the same sum twice
    (LEAN, BITS + "a && (a <> b)", "x0 x1 y0: t2 x0 y0, t3 x0 x1 y0"),
    (LEAN, BITS + "reg [a && b; b && a; true <> a && b]",
     "x0 x1 y0 y1 y2: t3 x0 x1 y0, t1 y2, t3 x0 x1 y1, t3 x0 x1 y2"),
    (LEAN, BITS + "a && b <> b && a", "x0 x1 y0: "),
    # With a line for each of three products, and with one line less
    (LEAN, AND_OF_5, "x0 x1 x2 x3 x4 y0 w0 w1 w2: t3 x0 x1 w0, t3 x2 w0 w1, t3 x3 w1 w2, t3 x4 w2 y0, t3 x3 w1 w2, "
     "t3 x2 w0 w1, t3 x0 x1 w0"),
    (LEAN + " --lines 8", AND_OF_5, "x0 x1 x2 x3 x4 y0 w0 w1: t3 x0 x1 w0, t3 x2 w0 w1, t3 x0 x1 w0, t3 x3 w1 w0, "
     "t3 x4 w0 y0, t3 x3 w1 w0, t3 x0 x1 w0, t3 x2 w0 w1, t3 x0 x1 w0"),
    (LEAN + " --lines 7", AND_OF_5, "revc: lines 8 over 7"),
    (LEAN + " --gates 8 --lines 8", AND_OF_5, "revc: lines 9 over 8"),
    (LEAN + " --gates 6", AND_OF_5, "revc: more than 6 gates"),
    (LEAN + " --gates 1 --lines 5", AND_OF_5, "revc: lines 6 over 5"),
    (LEAN + " --borrow 2 --lines 8", AND_OF_5, "revc: lines 9 over 8"),
]

# ---- Shallow plans: their refusals are those of lean ones

SHALLOW = "compile --plan shallow"
SHALLOWED = [
    (SHALLOW, BITS + "a && b", "x0 x1 y0: t3 x0 x1 y0"),
    (SHALLOW, "main (a : bool[2]) = true", "x0 x1 y0: t1 y0"),
    (SHALLOW + " --lines 2", BITS + "a && b", "revc: lines 3 over 2"),
    (SHALLOW + " --lines 6", AND_OF_5, "revc: lines 7 over 6"),
    (SHALLOW + " --gates 6", AND_OF_5, "revc: more than 6 gates"),
    (SHALLOW + " --gates 1 --lines 5", AND_OF_5, "revc: lines 6 over 5"),
    (SHALLOW + " --borrow 2 --lines 8", AND_OF_5, "revc: lines 9 over 8"),
]
SHALLOW_EXAMPLES = ["adder8", "chi5", "present", "speck", "weight7"]  # whose circuits are verified

# Lines, gates and Toffoli gates of examples, at most
LEAN_SIZES = {"adder": (5, 9, 1), "majority": (4, 6, 1), "chi5": (10, 15, 5), "present": (14, 40, 13),
              "comparator": (11, 41, 9), "multiplier4": (44, 195, 54), "speck": (95, 312, 30),
              "sha256": (878, 4_851, 496)}

# ---- Claims

PLACES = ["a.[%d]" % place for place in range(64)]
PARITIES = "\n".join(["main (a : bool[64]) = {", "let t = %s;" % " <> ".join(PLACES),
                      "let u = %s;" % " <> ".join(PLACES[::-1]), "clean (t <> u);", "a.[0] }"])
MIXED = "main (r : bool[2]) (s : bool) = "
WIDE = "main (p : bool) (q : bool[3]) (r : bool[2]) = "

CHECKED = [
    ("check", BITS + UNCLEANED, "revc: claim 1 at 1:48 fails on 11"),
    ("eval 10", BITS + UNCLEANED, "1"),
    ("eval 11", BITS + UNCLEANED, "revc: claim 1 at 1:48 fails on 11"),
    ("check", BITS + CLEANED, "claims 1"),
    ("check", BIT + "a", "claims 0"),
    ("check", BIT + "a & a", "revc: 1:21 BadByte"),
    ("check --nodes 1", MIXED + "{ clean (r.[0] && false); s }", "claims 1"),
    ("check", MIXED + "{ clean (r.[1] <> s); s }", "revc: claim 1 at 1:35 fails on 010"),
    ("check", MIXED + "{ clean (r.[1] <> s); z }", "revc: 1:55 Unbound"),
    # The order of the variables is p, q0, r0, q1, r1, q2
    ("check", WIDE + "{ clean (q.[2] <> r.[1]); p }", "revc: claim 1 at 1:49 fails on 000100"),
    ("check", WIDE + "{ clean ((q.[1] <> r.[0]) && q.[0]); p }", "revc: claim 1 at 1:49 fails on 011000"),
    ("check", WIDE + "{ assert (true <> p && q.[0] && r.[0] && q.[1] && r.[1] && q.[2]); p }",
     "revc: claim 1 at 1:49 fails on 111111"),
    ("check", WIDE + "{ assert (true <> p); assert p; p }", "revc: claim 1 at 1:49 fails on 100000"),
    # Five functions: a, b, a && b, and the negations of the last two
    ("compile --nodes 2", FIVE, "revc: claim 1 at 1:48 passes 2 nodes"),
    ("compile --nodes 4", FIVE, "revc: claim 1 at 1:48 passes 4 nodes"),
    ("compile --nodes 5", FIVE, AND),
    ("check --nodes 4", FIVE, "revc: claim 1 at 1:48 passes 4 nodes"),
    ("check --nodes=5", FIVE, "claims 1"),
    # A claim that is broken and over the limit at once is over it; one that is broken before is broken
    ("check --nodes 2", BITS + UNCLEANED, "revc: claim 1 at 1:48 passes 2 nodes"),
    ("check --nodes 3", BITS + UNCLEANED, "revc: claim 1 at 1:48 fails on 11"),
    ("check --nodes 1", BITS + "{ assert a; clean b; a }", "revc: claim 1 at 1:32 fails on 00"),
    ("check --nodes 1", BITS + "{ clean (a <> a); clean b; a }", "revc: claim 2 at 1:48 passes 1 nodes"),
    ("check --nodes 2", BITS + "{ clean (a <> a); clean b; a }", "revc: claim 2 at 1:48 fails on 01"),
    # Sums that begin at place 0, and both signs of the other sums of neighbouring places
    ("check --nodes 4096", PARITIES, "claims 1"),
    ("check --nodes 4095", PARITIES, "revc: claim 1 at 4:1 passes 4095 nodes"),
]

# ---- Evaluation

EVALUATED = [("eval " + word, text, worked) for word, text, worked in [
    ("01", ALIASED, "1"),
    ("10", ALIASED, "0"),
    ("2", ALIASED, "revc: bad bits in word 1"),
    ("1", ALIASED, "revc: bad bits in word 1"),
]]

# ---- Loops and sums of numbers

LOOP = "revs 2 main (a : bool) = "
LOOP_OF_2 = "revs 2 main (a : bool[2]) = "
LOOP_OF_4 = "revs 2 main (a : bool[4]) = "
PARITY = LOOP_OF_4 + "{ let t = reg [false]; for i in 0 .. 3 do { t.[0] <- t.[0] <> a.[i]; }; t.[0] }"
BACKWARD = ("revs 2 main (a : bool[3]) = { let get i = a.[2 - i]; let t = reg [false]; "
            "for i in 0 .. 1 do { t.[0] <- t.[0] <> get i; }; t.[0] }")
RIPPLED = ("revs 2 main (a : bool[3]) (b : bool[3]) = { let s = reg [false; false; false; false]; for i in 0 .. 2 do "
           "{ let c = s.[i]; s.[i + 1] <- (a.[i] <> c) && (b.[i] <> c) <> c; s.[i] <- a.[i] <> b.[i] <> c; }; s }")
CLAIMED_TWICE = LOOP_OF_2 + "{ for i in 0 .. 1 do { clean a.[i]; }; true }"
TURNED = ("revs 2 main (r : bool[1024]) = { let s = append r r; let t = append s s; "
          "for i in 1 .. 4090 do { rotate i t; }; r.[0%s] }")


def nested(loops: int) -> str:
    """Loops within loops, the items of the last of 98 having level 100."""
    return LOOP + "{ " + "for i in 0 .. 0 do { " * loops + "a;" + " };" * loops + " a }"


def deep(last: int, loop: str) -> str:
    """A loop at depth `last` + 4."""
    functions = ["let f0 x = { %s x };" % loop] + ["let f%d x = f%d x;" % (k + 1, k) for k in range(last)]
    return LOOP + "{ " + " ".join(functions) + " f%d a }" % last


LOOPED = [
    ("eval 1011", PARITY, "1"),
    ("compile", PARITY,
     "x0 x1 x2 x3 y0 w0 w1: t2 x0 w0, t2 x1 w0, t2 w0 w1, t2 x2 w1, t2 x0 w0, t2 x1 w0, t2 w1 w0, t2 x3 w0, t2 x0 w1, "
     "t2 x1 w1, t2 x2 w1, t2 w0 y0, t2 x2 w1, t2 x1 w1, t2 x0 w1, t2 x3 w0, t2 w1 w0, t2 x1 w0, t2 x0 w0, t2 x2 w1, "
     "t2 w0 w1, t2 x1 w0, t2 x0 w0"),
    ("eval 001", BACKWARD, "1"),
    ("eval 011", BACKWARD, "0"),
    ("eval 110011", RIPPLED, "1001"),
    ("eval 111111", RIPPLED, "0111"),
    ("compile", LOOP + "{ for i in 1 .. 0 do { clean a; }; a }", "x0 y0: t2 x0 y0"),
    ("compile", LOOP + "a", "x0 y0: t2 x0 y0"),
    ("compile", "revs 0002 main (a : bool) = a", "x0 y0: t2 x0 y0"),
    ("compile", LOOP_OF_2 + "rotate 2 - 1 a", "x0 x1 y0 y1: t2 x1 y0, t2 x0 y1"),
    ("compile", LOOP_OF_2 + "a.[0 - 9999 + 9999]", "x0 x1 y0: t2 x0 y0"),
    ("compile", LOOP_OF_4 + "{ for i in 0 - 1 .. 1 do { a.[i + 1] <- a.[i + 2]; }; a.[0..2] }",
     "x0 x1 x2 x3 y0 y1 y2: t2 x1 y0, t2 x2 y1, t2 x3 y2"),
    # Sentences
    ("compile", "revs 1 main (a : bool) = a", "revc: 1:6 Syntax"),
    ("compile", "revs main (a : bool) = a", "revc: 1:6 Syntax"),
    ("compile", "revs 2", "revc: 1:7 Syntax"),
    ("compile", BIT + "{ for i in 0 .. 0 do { a; }; a }", "revc: 1:21 Syntax"),
    ("compile", "main (a : bool[2]) = a.[0+1]", "revc: 1:26 Syntax"),
    ("compile", BIT + "{ let i = a; a.[i] }", "revc: 1:35 Syntax"),
    ("compile", LOOP + "{ for i in 0 .. 0 do { }; a }", "revc: 1:49 Syntax"),
    ("compile", LOOP + "{ for i in 0 .. 0 do { a }; a }", "revc: 1:51 Syntax"),
    ("compile", LOOP + "{ for i in 0 .. 0 do { a; } a }", "revc: 1:54 Syntax"),
    ("compile", LOOP + "{ for i in 0 .. 0 do { a; }; }", "revc: 1:55 Syntax"),
    ("compile", "revs 2 main (a : bool[1 + 1]) = a", "revc: 1:25 Syntax"),
    ("compile", LOOP_OF_2 + "a.[-1]", "revc: 1:32 Syntax"),
    ("check", nested(98), "claims 0"),
    ("check", nested(99), "revc: 1:2105 Nesting"),
    ("check", nested(98).replace("a;", "(a);"), "revc: 1:2086 Nesting"),
    # Scope
    ("compile", LOOP + "{ for i in i .. 1 do { a; }; a }", "revc: 1:37 Unbound"),
    ("compile", LOOP + "{ for i in 0 .. 0 do { a; }; i }", "revc: 1:55 Unbound"),
    ("compile", LOOP + "{ for i in 0 .. 0 do { let t = a; t; }; t }", "revc: 1:66 Unbound"),
    ("compile", LOOP + "{ for a in 0 .. 0 do { let b = a; }; a }", "x0 y0: t2 x0 y0"),
    # Numbers
    ("compile", LOOP_OF_2 + "{ for i in 0 .. 2 do { a.[i]; }; a.[0] }", "revc: 1:53 Index"),
    ("compile", LOOP_OF_2 + "a.[a]", "revc: 1:32 NotNumber"),
    ("compile", LOOP_OF_2 + "a.[9999 + 1]", "revc: 1:39 Range"),
    ("compile", LOOP_OF_2 + "a.[9999 + 1 - 9999]", "revc: 1:39 Range"),
    ("compile", LOOP_OF_2 + "a.[0 - 9999 - 1 + 9999]", "revc: 1:43 Range"),
    ("compile", LOOP_OF_2 + "a.[0 - 1]", "revc: 1:30 Index"),
    ("compile", LOOP_OF_2 + "a.[1 .. 1 - 1]", "revc: 1:30 Slice"),
    ("compile", LOOP_OF_2 + "rotate 0 - 1 a", "revc: 1:29 Rotate"),
    ("compile", LOOP_OF_2 + "rotate 1 + 1 a", "revc: 1:29 Rotate"),
    ("compile", LOOP + "{ for i in 1 + a .. 0 do { a; }; a }", "revc: 1:41 NotNumber"),
    ("compile", LOOP + "{ for i in 0 .. 0 do { i <> a; }; a }", "revc: 1:49 NotBit"),
    ("compile", LOOP + "{ for i in 0 .. 0 do { i.[0]; }; a }", "revc: 1:50 NotRegister"),
    ("compile", LOOP + "{ for i in 0 .. 0 do { i a; }; a }", "revc: 1:51 NotFunction"),
    # A part's numbers are read behind its base, and that of a rotation before its operand
    ("compile", LOOP + "a.[9999 + 1]", "revc: 1:27 NotRegister"),
    ("compile", LOOP + "rotate 9999 + 1 a", "revc: 1:40 Range"),
    ("compile", LOOP + "rotate 5 a", "revc: 1:35 NotRegister"),
    # The turns of a claim have one place
    ("check", CLAIMED_TWICE, "revc: claim 1 at 1:52 fails on 10"),
    ("eval 01", CLAIMED_TWICE, "revc: claim 2 at 1:52 fails on 01"),
    ("eval 00", CLAIMED_TWICE, "1"),
    ("compile", LOOP + "{ for i in 0 .. 1 do { clean a; }; true }", "revc: 1:55 Gone"),
    # The loop, and then its item, at depth 401
    ("check", deep(396, "for i in 1 .. 0 do { x; };"), "claims 0"),
    ("check", deep(396, "for i in 0 .. 0 do { x; };"), "revc: 1:62 Depth"),
    ("check", deep(397, "for i in 1 .. 0 do { x; };"), "revc: 1:41 Depth"),
    # 10 units of work are left behind the loop: 12,295 come before it, 1 is its own, and each turn has 4,099
    ("check", TURNED % (" + 0" * 8), "claims 0"),
    ("check", TURNED % (" + 0" * 9), "revc: 1:152 Work"),
    ("compile", LOOP + "{ for i in 0 .. 9999 do { for j in 0 .. 9999 do { a; }; }; a }", "revc: 1:52 Work"),
]

# ---- Programs that compute with numbers, by their texts

THREE_TIMES = """main (a : bool[2]) = {
let carry x y c = (x && y) <> (c && (x <> y));
let plus p q = {
let s0 = p.[0] <> q.[0];
let c1 = p.[0] && q.[0];
let s1 = p.[1] <> q.[1] <> c1;
let c2 = carry p.[1] q.[1] c1;
reg [s0; s1; c2]
};
let r0 = reg [false; false];
let r1 = plus r0 a;
let r2 = append r1.[0..0] (plus r1.[1..2] a);
r2
}
"""
TWO_LESS = """main (a : bool[2]) (b : bool[2]) = {
let lend x y c = ((true <> x) && y) <> (c && (true <> x <> y));
let d0 = a.[0] <> b.[0];
let c1 = (true <> a.[0]) && b.[0];
let d1 = a.[1] <> b.[1] <> c1;
let c2 = lend a.[1] b.[1] c1;
reg [d0; d1; c2]
}
"""
TWO_NEXT = """main (a : bool[2]) = {
let s0 = true <> a.[0];
let c1 = a.[0];
let s1 = a.[1] <> c1;
let c2 = a.[1] && c1;
reg [s0; s1; c2]
}
"""
ONE_BELOW = """main (a : bool[1]) (b : bool[1]) = {
let lend x y c = ((true <> x) && y) <> (c && (true <> x <> y));
let c1 = (true <> a.[0]) && b.[0];
c1
}
"""
# The texts that a model of these programs has to write, by kind, bits and factor.
TEMPLATES = [("mul", 2, 3, THREE_TIMES), ("sub", 2, 0, TWO_LESS), ("inc", 2, 0, TWO_NEXT), ("less", 1, 0, ONE_BELOW)]
COMPUTED = [
    ("eval 11", THREE_TIMES, "1001"),
    ("eval 1001", TWO_LESS, "111"),
    ("eval 11", TWO_NEXT, "001"),
    ("compile", ONE_BELOW, "x0 x1 y0 w0 w1: t2 x0 w0, t1 w0, t3 w0 x1 w1, t2 x0 w0, t1 w0, t2 w1 y0, t1 w0, t2 x0 w0, "
     "t3 w0 x1 w1, t1 w0, t2 x0 w0"),
]

# ---- Circuit files

FILE = """.version 2.0
.numvars 4
.variables x0 x1 y0 w0
.inputs x0 x1 y0 w0
.outputs x0 x1 y0 w0
.constants --00
.garbage ----
.begin
t3 x0 x1 w0
t2 w0 y0
t3 x0 x1 w0
.end
"""
SUM = """# full adder part
.version 1.0
.numvars 4
.variables a b c d
.inputs a b "carry in" 0
.outputs g1 g2 "sum out" d
.constants ---0
.garbage 11--
.begin
t3 a b d
f3 -a b c
t2 c d
.end
""".replace("\n", "\r\n")
LEAST = ".numvars 1\n.variables a\n.begin\n.end\n"
NO_GATES = "lines 1, gates 0, x 0, cx 0, ccx 0, wide 0, swap 0, depth 0"
FILE_COUNTS = "lines 4, gates 3, x 0, cx 1, ccx 2, wide 0, swap 0, depth 3"

FILES = [
    ("stat", FILE, FILE_COUNTS),
    ("run 11 10", FILE, "1110, 1000"),
    ("run " + "11 " * 512 + "10", FILE, ", ".join(["1110"] * 512 + ["1000"])),
    ("stat", SUM, "lines 4, gates 3, x 0, cx 1, ccx 1, wide 0, swap 1, depth 3"),
    ("run 110 010 001 010", SUM, "01, 11, 00, 11"),
    ("stat", SUM[: SUM.index(".end")], "revc: circuit line 13"),
    ("stat", SUM.replace("t2 c d", "t2 c c"), "revc: circuit line 12"),
    ("run 11", SUM, "revc: bad bits in word 1"),
    ("run 110 01x", SUM, "revc: bad bits in word 2"),
    ("stat", ".version 2.0\n.numvars 16385\n", "revc: circuit line 2 over a limit"),
    ("stat", LEAST, NO_GATES),
    ("stat --from real", LEAST, NO_GATES),
    ("stat", LEAST + "x", "revc: circuit line 5"),
    ("stat", "", "revc: circuit line 1"),
]

# ---- OpenQASM files, and files that are converted

HEAD = 'OPENQASM 2.0;\ninclude "qelib1.inc";\n'
SPREAD = HEAD + "qreg a[2];\nqreg b[2];\ncreg m[2];\nx a;\ncx a,b;\nbarrier a,b;\nccx a[0],a[1],b;\n"
FULL = ".version 2.0\n.numvars 4\n.variables a b c d\n.begin\nt4 a b c d\n.end\n"
ROOMY = FULL.replace("numvars 4", "numvars 5").replace("b c d\n.begin", "b c d e\n.begin")
NAMES = " ".join("v%d" % line for line in range(16_384))
WIDEST = ".numvars 16384\n.variables %s\n.begin\nt16384 %s\n.end\n" % (NAMES, NAMES)
QASM_HEAD = 'OPENQASM 2.0;, include "qelib1.inc";, '

OTHERS = [
    ("stat --from qasm", SPREAD, "lines 4, gates 6, x 2, cx 2, ccx 2, wide 0, swap 0, depth 4"),
    ("run --from qasm 0000 0110", SPREAD, "1100, 1000"),
    ("stat --from=qasm", SPREAD.replace("cx a,b", "cx a,a"), "revc: circuit at 7:7"),
    ("convert --from=qasm", SPREAD.replace("cx a,b", "cx a,b[2]"), "revc: circuit at 7:8"),
    ("run --from qasm 1", HEAD + "qreg q[16385];\n", "revc: circuit at 3:8 over a limit"),
    ("stat --from qasm", HEAD, "revc: circuit at 3:1"),
    ("convert", FULL, QASM_HEAD + "qreg q[4];, qreg dirty[1];, ccx q[2],dirty[0],q[3];, ccx q[0],q[1],dirty[0];, "
     "ccx q[2],dirty[0],q[3];, ccx q[0],q[1],dirty[0];"),
    ("convert", ROOMY, QASM_HEAD + "qreg q[5];, ccx q[2],q[4],q[3];, ccx q[0],q[1],q[4];, ccx q[2],q[4],q[3];, "
     "ccx q[0],q[1],q[4];"),
    ("convert --to real", FULL, "l0 l1 l2 l3 l4: t3 l2 l4 l3, t3 l0 l1 l4, t3 l2 l4 l3, t3 l0 l1 l4"),
    ("convert", WIDEST, "revc: lines 16385 over 16384"),
]

# ---- Circuits that are tidied


def on_lines(names: str, *gates: str) -> str:
    head = ".version 2.0\n.numvars %d\n.variables %s\n.begin\n" % (len(names.split(" ")), names)
    return head + "".join(gate + "\n" for gate in gates) + ".end\n"


BACK_AND_FORTH = ["t2 a b", "t2 b a"]
FAN = on_lines("a b c d e f", "t2 a b", "t2 a c", "t2 a d", "t2 d e", "t2 e f")
TIDIED = [
    # Alike flips, over one that is free of them
    ("tidy --to real", on_lines("a b c d", "t3 a b c", "t2 a d", "t3 b a c"), "l0 l1 l2 l3: t2 l0 l3"),
    ("tidy --to real", on_lines("a b", *BACK_AND_FORTH * 2), "l0 l1: t2 l1 l0, t2 l0 l1"),
    ("tidy --to=real", on_lines("a b", *BACK_AND_FORTH * 3), "l0 l1: "),
    # Two X gates of two negative controls cancel
    ("tidy --to real", on_lines("a b c", "t2 -a b", "t2 -a c"), "l0 l1 l2: t1 l0, t2 l0 l1, t2 l0 l2, t1 l0"),
    ("tidy", FULL, QASM_HEAD + "qreg q[4];, qreg dirty[1];, ccx q[2],dirty[0],q[3];, ccx q[0],q[1],dirty[0];, "
     "ccx q[2],dirty[0],q[3];, ccx q[0],q[1],dirty[0];"),
    ("tidy --to real", on_lines("a", *["t1 a"] * 65_536), "l0: "),
    ("tidy --to real", on_lines("a", *["t1 a"] * 65_537), "revc: more than 65536 gates"),
    ("tidy", WIDEST, "revc: lines 16385 over 16384"),
    ("tidy --from qasm", FULL, "revc: circuit at 1:1"),
    ("tidy", ".end\n", "revc: circuit line 1"),
    # One line controls three flips: the one that others wait for goes first, and the depth falls from 5 to 3
    ("tidy --for depth --to real", FAN, "l0 l1 l2 l3 l4 l5: t2 l0 l3, t2 l0 l1, t2 l3 l4, t2 l0 l2, t2 l4 l5"),
    ("tidy --for=order --to=real", FAN, "l0 l1 l2 l3 l4 l5: t2 l0 l3, t2 l0 l1, t2 l3 l4, t2 l0 l2, t2 l4 l5"),
    ("tidy --for gates --to real", FAN, "l0 l1 l2 l3 l4 l5: t2 l0 l1, t2 l0 l2, t2 l0 l3, t2 l3 l4, t2 l4 l5"),
    # The same of Toffoli gates: from 3 to 2
    ("tidy --for depth --to real", on_lines("a b c d e f g", "t3 a b c", "t3 a d e", "t3 e f g"),
     "l0 l1 l2 l3 l4 l5 l6: t3 l0 l3 l4, t3 l0 l1 l2, t3 l4 l5 l6"),
    # Alike flips cancel, but for the order alone, in which none is better: line a is of three gates
    ("tidy --to real --for depth", on_lines("a b c d", "t3 a b c", "t2 a d", "t3 b a c"), "l0 l1 l2 l3: t2 l0 l3"),
    ("tidy --to real --for order", on_lines("a b c d", "t3 a b c", "t2 a d", "t3 b a c"),
     "l0 l1 l2 l3: t3 l0 l1 l2, t2 l0 l3, t3 l1 l0 l2"),
    # Gates that are split, on a line that is added, which all touch it: none can be early
    ("tidy --for order", FULL, QASM_HEAD + "qreg q[4];, qreg dirty[1];, ccx q[2],dirty[0],q[3];, ccx q[0],q[1],dirty[0];, "
     "ccx q[2],dirty[0],q[3];, ccx q[0],q[1],dirty[0];"),
    ("tidy --for depth --to real", on_lines("a", *["t1 a"] * 65_536), "l0: "),
    ("tidy --for depth --to real", on_lines("a", *["t1 a"] * 65_537), "revc: more than 65536 gates"),
    ("tidy --for order --to real", on_lines("a", *["t1 a"] * 65_537), "lines 1, gates 65537, x 65537, cx 0, ccx 0"),
    ("tidy --for order", WIDEST, "revc: lines 16385 over 16384"),
    ("tidy --for depth", ".end\n", "revc: circuit line 1"),
]

# ---- Circuits against programs

PARTED = BITS + "a && b\n---\n"
TWO_LINES = ".version 2.0\n.numvars 2\n.variables x0 y0\n.constants -0\n.begin\nt2 x0 y0\n.end\n"
UNDONE = FILE.replace("t2 w0 y0\nt3 x0 x1 w0", "t2 w0 y0")
TWICE = BITS + "reg [a && b; a && b]\n---\n"
COPIED = on_lines("a b y z", "t3 a b y", "t2 y z")
READ = on_lines("a b y w", "t3 a b y", "t3 a y w", "t3 a b w")
IN_QASM = HEAD + "qreg q[4];\nccx q[0],q[1],q[2];\n"
ONE_MORE = "main (x : bool[3]) = reg [true <> x.[0]; x.[0] <> x.[1]; x.[2] <> (x.[0] && x.[1])]\n---\n"
ONE_MORE_GATES = ["t3 a b c", "t2 a b", "t1 a"]
SWAPPED = "main (x : bool[2]) = reg [x.[1]; x.[0]]\n---\n"
SWAPS = ["t2 a b", "t2 b a", "t2 a b"]
ADDED = ("main (a : bool[2]) (b : bool[2]) = { let c = a.[0] && b.[0]; let x = a.[1] <> b.[1]; append a reg [a.[0] <> b.[0]; "
         "x <> c; (a.[1] && b.[1]) <> (c && x)] }\n---\n")
ONE_OF_TWO = "main (x : bool[2]) = reg [true <> x.[0]; x.[0] <> x.[1]]\n---\n" + on_lines("a b", "t2 a b", "t1 a")
CUCCARO = ["t2 a0 b0", "t2 a0 c", "t3 c b0 a0", "t2 a1 b1", "t2 a1 a0", "t3 a0 b1 a1", "t2 a1 z",
           "t3 a0 b1 a1", "t2 a1 a0", "t2 a0 b1", "t3 c b0 a0", "t2 a0 c", "t2 c b0"]

VERIFIED = [
    ("verify", PARTED + FILE, "verified"),
    ("verify", PARTED + UNDONE, "revc: circuit differs at line 4 on 11"),
    ("verify --borrow 1", PARTED + FILE, "revc: circuit differs at line 3 on 001"),
    # Three functions: a, b, and a && b
    ("verify --nodes 3", PARTED + FILE, "verified"),
    ("verify --nodes 2", PARTED + FILE, "revc: circuit passes 2 nodes"),
    ("verify", BITS + "a && b", "revc: no parting line"),
    ("verify", PARTED + TWO_LINES, "revc: circuit has 2 lines, needs 3"),
    ("verify", PARTED + FULL, "revc: gate 1 is not X, CX or CCX"),
    ("verify --from qasm", PARTED + IN_QASM, "verified"),
    ("verify --from qasm --borrow=1", PARTED + IN_QASM, "verified"),
    ("verify --from qasm --borrow=2", PARTED + IN_QASM, "revc: circuit has 4 lines, needs 5"),
    ("verify --from qasm", PARTED + IN_QASM + "x q[0];x q[3];x q[2];", "revc: circuit differs at line 1 on 00"),
    ("verify --from qasm", PARTED + IN_QASM + "cx q[1],q[3];x q[0];x q[0];", "revc: circuit differs at line 4 on 01"),
    # The parting line is the first that is `---` alone, and ends
    ("verify", "---\n" + FILE, "revc: 1:1 Syntax"),
    ("verify", PARTED[:-1], "revc: no parting line"),
    ("verify", "---", "revc: no parting line"),
    ("verify", "", "revc: no parting line"),
    ("verify", BITS + "a && b---\n" + FILE, "revc: no parting line"),
    ("verify", PARTED.replace("---", " ---") + FILE, "revc: no parting line"),
    ("verify", PARTED.replace("---", "--- ") + FILE, "revc: no parting line"),
    ("verify", PARTED.replace("---", "----") + FILE, "revc: no parting line"),
    ("verify", PARTED.replace("---\n", "---\r\r\n") + FILE, "revc: no parting line"),
    ("verify", PARTED.replace("---\n", "---\r\n") + FILE, "verified"),
    ("verify", (PARTED + FILE).replace("\n", "\r\n"), "verified"),
    ("verify", PARTED + "---\n" + FILE, "revc: circuit line 1"),
    ("verify", PARTED, "revc: circuit line 1"),
    # The first fault is that of the program's length, its text, the circuit's text, the claims, the lines, the gates
    ("verify", " " * 1_048_577 + "\n---\n", "revc: source over 1048576 bytes"),
    ("verify", BITS + "z\n---\nx", "revc: 1:30 Unbound"),
    ("verify", BITS + UNCLEANED + "\n---\nx", "revc: circuit line 1"),
    ("verify", BITS + UNCLEANED + "\n---\n" + LEAST, "revc: claim 1 at 1:48 fails on 11"),
    ("verify --nodes 2", FIVE + "\n---\n" + LEAST, "revc: claim 1 at 1:48 passes 2 nodes"),
    ("verify", BITS + "reg [a; b]\n---\n" + FULL.replace(".begin", ".begin\nt1 a"), "revc: gate 2 is not X, CX or CCX"),
    ("verify --borrow 1", BITS + "reg [a; b]\n---\n" + FULL, "revc: circuit has 4 lines, needs 5"),
    ("verify --nodes 2", PARTED + UNDONE, "revc: circuit passes 2 nodes"),
    # Output lines that may hold any bits have variables, behind the inputs and before the borrowed lines
    ("verify --outputs zero", PARTED + FILE, "verified"),
    ("verify --outputs any", PARTED + FILE, "verified"),
    ("verify --outputs=any", "main (a : bool) = a\n---\n" + on_lines("a y w", "t2 a y", "t2 y w", "t2 y w"), "verified"),
    ("verify", TWICE + COPIED, "verified"),
    ("verify --outputs any", TWICE + COPIED, "revc: circuit differs at line 4 on 0010"),
    ("verify", PARTED + READ, "verified"),
    ("verify --outputs any", PARTED + READ, "revc: circuit differs at line 4 on 101"),
    ("verify --outputs any --borrow 1", PARTED + FILE, "revc: circuit differs at line 3 on 0001"),
    # Seven functions: a, b, a && b, the bit c of the output line, !c, and c with b and with a && b added
    ("verify --outputs any --nodes 7", PARTED + FILE, "verified"),
    ("verify --outputs any --nodes 6", PARTED + FILE, "revc: circuit passes 6 nodes"),
    # Outputs in place of the inputs, and those beyond their number on output lines
    ("verify --outputs inputs", ONE_MORE + on_lines("a b c", *ONE_MORE_GATES), "verified"),
    ("verify --outputs inputs --by sums", ONE_MORE + on_lines("a b c w", *ONE_MORE_GATES), "verified"),
    ("verify --outputs inputs", ONE_MORE + on_lines("a b c", *ONE_MORE_GATES[:2]), "revc: circuit differs at line 1 on 000"),
    ("verify --outputs inputs", ONE_MORE + on_lines("a b c", *ONE_MORE_GATES[1:]), "revc: circuit differs at line 3 on 110"),
    ("verify --outputs inputs", SWAPPED + on_lines("a b", *SWAPS), "verified"),
    ("verify --outputs=inputs --by=both", SWAPPED + on_lines("a b", *SWAPS[1:]), "revc: circuit differs at line 1 on 10"),
    ("verify --outputs inputs", SWAPPED + on_lines("a b w", "t3 a b w", *SWAPS), "revc: circuit differs at line 3 on 11"),
    ("verify --outputs inputs --by sums", SWAPPED + on_lines("a b w", "t3 a b w", *SWAPS),
     "revc: circuit is not settled by sums"),
    ("verify --outputs inputs --borrow 1", SWAPPED + on_lines("a b l", *SWAPS), "verified"),
    ("verify --outputs inputs --borrow 1", SWAPPED + on_lines("a b l", "t2 l a", *SWAPS), "revc: circuit differs at line 2 on 001"),
    ("verify --outputs inputs --borrow 1", SWAPPED + on_lines("a b", *SWAPS), "revc: circuit has 2 lines, needs 3"),
    ("verify --outputs inputs", SWAPPED + on_lines("a b c", "f2 a b"), "revc: gate 1 is not X, CX or CCX"),
    ("verify --outputs inputs", ADDED + on_lines("a0 a1 b0 b1 z c", *CUCCARO), "verified"),
    ("verify --outputs inputs --by sums", ADDED + on_lines("a0 a1 b0 b1 z c", *CUCCARO), "verified"),
    ("verify --outputs inputs", ADDED + on_lines("a0 a1 b0 b1 z c", *CUCCARO[:-2]), "revc: circuit differs at line 6 on 1000"),
    ("verify --outputs inputs", ADDED + on_lines("a0 a1 b0 b1"), "revc: circuit has 4 lines, needs 5"),
    ("verify", ADDED + on_lines("a0 a1 b0 b1 z c", *CUCCARO), "revc: circuit has 6 lines, needs 9"),
    ("verify --outputs inputs", PARTED + TWO_LINES, "revc: 2 inputs have only 1 outputs"),
    ("verify --outputs inputs --borrow 64", PARTED + FULL, "revc: 2 inputs have only 1 outputs"),
    ("verify --outputs inputs", BITS + UNCLEANED + "\n---\n" + LEAST, "revc: claim 1 at 1:48 fails on 11"),
    # Five functions: a, b, !a, a with b added, and !b, which it is where a is 1
    ("verify --outputs inputs --nodes 5", ONE_OF_TWO, "verified"),
    ("verify --outputs inputs --nodes 4", ONE_OF_TWO, "revc: circuit passes 4 nodes"),
]

# ---- Claims that are taken for granted

UNDER_A = BITS + "{ assert a; clean (b && (true <> a)); a && b }"  # the second claim holds where the first does
NEVER = BITS + "{ assert a; clean (a && true); b }"
BOTH_BITS = BITS + "{ assert a; assert b; clean (true <> a && b); b }"
ASSERTED = BITS + "{ assert a; a && b }\n---\n"
ONE_HOT = "main (x : bool[2]) = { assert (x.[0] <> x.[1]); reg [x.[1]; x.[0]] }\n---\n"  # two negations are a swap there
COPY = on_lines("a b y", "t2 b y")

ASSUMED = [
    ("check", UNDER_A, "revc: claim 1 at 1:32 fails on 00"),
    ("check --assume 0", UNDER_A, "revc: claim 1 at 1:32 fails on 00"),
    ("check --assume 1", UNDER_A, "claims 2"),
    ("check --assume 2", UNDER_A, "claims 2"),
    ("check --assume=4096", UNDER_A, "claims 2"),
    ("check --assume 4096", BIT + "a", "claims 0"),
    # The first input at all on which the second fails is 01
    ("check --assume 1", BITS + "{ assert a; clean b; a }", "revc: claim 2 at 1:42 fails on 11"),
    ("check --assume 1", NEVER, "revc: claim 2 at 1:42 fails on 10"),
    ("check --assume 2", NEVER, "revc: no input meets the assumptions"),
    ("check --assume 1", BITS + "{ assert false; a }", "revc: no input meets the assumptions"),
    ("check --assume 1", BITS + "{ assert true; clean b; a }", "revc: claim 2 at 1:45 fails on 01"),
    ("check --assume 2", BOTH_BITS, "claims 3"),
    ("check --assume 1", BOTH_BITS, "revc: claim 2 at 1:42 fails on 10"),
    # The functions a, b and a && b, of the claims that are assumed; and with the third !(a && b) and !b
    ("check --assume 2 --nodes 2", BOTH_BITS, "revc: claim 2 at 1:42 passes 2 nodes"),
    ("check --assume 2 --nodes 3", BOTH_BITS, "revc: claim 3 at 1:52 passes 3 nodes"),
    ("check --assume 2 --nodes 5", BOTH_BITS, "claims 3"),
    # a alone of the first, and with the second !a, b and b && !a
    ("check --assume 1 --nodes 3", UNDER_A, "revc: claim 2 at 1:42 passes 3 nodes"),
    ("check --assume 1 --nodes 4", UNDER_A, "claims 2"),
    ("compile", UNDER_A, "revc: claim 1 at 1:32 fails on 00"),
    ("compile --assume 1", UNDER_A, AND),
    ("compile --assume 2", NEVER, "revc: no input meets the assumptions"),
    ("compile --assume 2 --lines 1", NEVER, "revc: no input meets the assumptions"),
    ("eval 01", UNDER_A, "revc: claim 1 at 1:32 fails on 01"),
    # The output is b where a holds
    ("verify --assume 1", ASSERTED + COPY, "verified"),
    ("verify --assume 1 --by both", ASSERTED + COPY, "verified"),
    ("verify --assume 1 --by sums", ASSERTED + COPY, "revc: circuit is not settled by sums"),
    ("verify --assume 1 --by sums", ASSERTED + on_lines("a b y", "t3 a b y"), "verified"),
    ("verify", ASSERTED + COPY, "revc: claim 1 at 1:32 fails on 00"),
    ("verify --assume 1 --outputs any", ASSERTED + COPY, "verified"),
    # Three functions: a, b and a && b, which is b where a holds
    ("verify --assume 1 --nodes 3", ASSERTED + COPY, "verified"),
    ("verify --assume 1 --nodes 2", ASSERTED + COPY, "revc: circuit passes 2 nodes"),
    # It differs on 00 too, which is not looked at
    ("verify --assume 1", ASSERTED + on_lines("a b y", "t1 y"), "revc: circuit differs at line 3 on 10"),
    ("verify --assume 1", ASSERTED + on_lines("a b y", "t2 a y"), "revc: circuit differs at line 3 on 10"),
    ("verify --assume 1", ASSERTED + on_lines("a b y w", "t2 b y", "t1 w", "t2 a w"), "verified"),
    ("verify --assume 1", ASSERTED + on_lines("a b y w", "t2 b y", "t3 a b w"), "revc: circuit differs at line 4 on 11"),
    ("verify --assume 1 --borrow 1", ASSERTED + on_lines("a b y l", "t2 b y", "t2 l y"),
     "revc: circuit differs at line 3 on 101"),
    ("verify --assume 2", NEVER + "\n---\n" + TWO_LINES, "revc: no input meets the assumptions"),
    ("verify --assume 2 --by sums", NEVER + "\n---\n" + COPY, "revc: no input meets the assumptions"),
    ("verify --assume 2", NEVER + "\n---\n", "revc: circuit line 1"),
    ("verify --assume 1 --outputs inputs", ONE_HOT + on_lines("a b", "t1 a", "t1 b"), "verified"),
    ("verify --outputs inputs", ONE_HOT + on_lines("a b", "t1 a", "t1 b"), "revc: claim 1 at 1:24 fails on 00"),
    ("verify --assume 1 --outputs inputs", ONE_HOT + on_lines("a b", "t1 a"), "revc: circuit differs at line 2 on 01"),
    ("compile --outputs inputs", BITS + "a && b", "revc: 2 inputs have only 1 outputs"),
    ("compile --outputs inputs", BITS + UNCLEANED, "revc: claim 1 at 1:48 fails on 11"),
    ("compile --outputs inputs --assume 2", BITS + "{ assert a; clean (a && true); reg [b; a] }",
     "revc: no input meets the assumptions"),
]

# ---- Adders

ADDERS = [
    ("gen 1", "", "main (a : bool[1]) (b : bool[1]) = {, let carry x y c = (x && y) <> (c && (x <> y));, "
     "let s0 = a.[0] <> b.[0];, let c1 = a.[0] && b.[0];, reg [s0; c1], }"),
    ("bench 2", "", "inputs 4, outputs 3, writes 8, width 5, lines 13, gates 57, depth 40"),
    ("bench 1", "", "inputs 2, outputs 2, writes 2, width 2, lines 6, gates 8, depth 7"),
    ("bench 16 --plan pebble", "", "inputs 32, outputs 17, writes 92, width 19, lines 141, gates 323, depth 99"),
    ("bench 16 --plan pebble --lines 48", "", "revc: lines 49 over 48"),
]

# ---- Programs that compute with numbers

ARITH = [
    ("arith mul 2 --by 3", "", ", ".join(THREE_TIMES.splitlines())),
    ("arith mul --by=3 --write program -- 0002", "", ", ".join(THREE_TIMES.splitlines())),
    ("arith sub 2", "", ", ".join(TWO_LESS.splitlines())),
    ("arith less 1 --write real", "", COMPUTED[-1][-1]),
]

# ---- Words

BAD = "revc: bad command line"
WORDS = [(words, BITS + "a && b", worked) for words, worked in [
    ("", BAD),
    ("compile x", BAD),
    ("compile -", BAD),
    ("compile --", AND),
    ("compile --nodes=5", AND),
    ("compile --nodes 0000005", AND),
    ("compile --nodes 00000005", BAD),
    ("compile --nodes 0", BAD),
    ("compile --nodes 1000000 --", AND),
    ("compile --nodes 1000001", BAD),
    ("compile --nodes +5", BAD),
    ("compile --nodes=", BAD),
    ("compile --nodes", BAD),
    ("compile --nodes --", BAD),
    ("compile --nodes 5 --nodes 5", BAD),
    ("compile --nodes 5 --nodes=5", BAD),
    ("compile -- --nodes 5", BAD),
    ("compile --from real", BAD),
    ("--help", BAD),
    ("check --help", BAD),
    ("check", "claims 0"),
    ("compile --plan auto --lines=4 --gates 0000003 --borrow 0 --nodes 1", AND),
    ("compile --lines=4", AND),
    ("compile --lines 0", BAD),
    ("compile --lines 16385", BAD),
    ("compile --lines 3 --lines 3", BAD),
    ("compile --gates 0", BAD),
    ("compile --gates 4000001", BAD),
    ("compile --gates 4000000 --lines 16384", AND),
    ("compile --gates 04000000", BAD),
    ("compile --borrow 65", BAD),
    ("compile --borrow -1", BAD),
    ("compile --borrow=", BAD),
    ("compile --plan x", BAD),
    ("compile --plan=x", BAD),
    ("compile --plan Eager", BAD),
    ("compile --plan", BAD),
    ("compile --plan eager --plan=eager", BAD),
    ("compile --plans eager", BAD),
    ("compile --plan= eager", BAD),
    ("compile eager", BAD),
    ("check --plan eager", BAD),
    ("check --lines 4", BAD),
    ("eval --gates 4 11", BAD),
    ("stat --borrow 1", BAD),
    ("run --lines 4 1", BAD),
    ("eval", BAD),
    ("eval 1 1", BAD),
    ("eval -1", BAD),
    ("eval --nodes 5 11", BAD),
    ("eval -- 11", "1"),
    ("eval 11 --", "1"),
    ("eval ", "revc: bad bits in word 1"),
    ("eval -", "revc: bad bits in word 1"),
    ("eval -- --", "revc: bad bits in word 1"),
    ("eval -- -1", "revc: bad bits in word 1"),
    ("stat x", BAD),
    ("stat --from qasm", "revc: circuit at 1:1"),
    ("stat --from x", BAD),
    ("convert --to", BAD),
    ("convert 1", BAD),
    ("convert --format real", BAD),
    ("gen", BAD),
    ("gen 0", BAD),
    ("gen 201", BAD),
    ("gen 1 1", BAD),
    ("gen --nodes 5 1", BAD),
    ("bench 1 --format real", BAD),
    ("bench --lines=3 1", "revc: lines 4 over 3"),
    ("arith add 2 --by 3", BAD),
    ("arith mul 2", BAD),
    ("arith mul 2 --by 0", BAD),
    ("arith mul 2 --by 10000", BAD),
    ("arith Add 2", BAD),
    ("arith add 201", BAD),
    ("arith add", BAD),
    ("arith 2 add", BAD),
    ("arith add 2 --write x", BAD),
    ("arith add 2 --plan eager", BAD),
    ("stat --nodes 5", BAD),
    ("stat", "revc: circuit line 1"),
    ("run", BAD),
    ("run -1", BAD),
    ("run --", BAD),
    ("run --from=real", BAD),
    ("verify x", BAD),
    ("verify --plan eager", BAD),
    ("verify --to qasm", BAD),
    ("verify --lines 4", BAD),
    ("verify --borrow 65", BAD),
    ("verify --outputs one", BAD),
    ("verify --outputs any --outputs any", BAD),
    ("compile --outputs any", BAD),
    ("compile --outputs zero", BAD),
    ("compile --outputs=", BAD),
    ("compile --assume 4096", AND),
    ("compile --assume 4097", BAD),
    ("compile --assume=0", AND),
    ("compile --assume -1", BAD),
    ("compile --assume 1 --assume 1", BAD),
    ("check --assume", BAD),
    ("check --outputs inputs", BAD),
    ("verify --assume x", BAD),
    ("eval --assume 1 11", BAD),
    ("bench --assume 1 1", BAD),
    ("tidy x", BAD),
    ("tidy --nodes 5", BAD),
    ("tidy --for", BAD),
    ("tidy --for x", BAD),
    ("tidy --for Depth", BAD),
    ("tidy --for=", BAD),
    ("tidy --for depth --for order", BAD),
    ("convert --for depth", BAD),
    ("compile --for depth", BAD),
    ("run 1 --from=real -- -1", "revc: circuit line 1"),
    ("run ", "revc: circuit line 1"),
]]

COMPILE = [("compile", text, worked) for text, worked in COMPILED]
WORKED = COMPILE + PLANNED + LEANED + SHALLOWED + CHECKED + EVALUATED + LOOPED + COMPUTED + FILES + OTHERS + TIDIED
WORKED += VERIFIED + ASSUMED + ADDERS + ARITH + WORDS


def shown(answer: Answer) -> str:
    """The lines and gates of the file that was written, or the counts of a long one; the lines that were written; or
    the line on standard error."""
    if answer.status != 0:
        return answer.err.decode().rstrip("\n")
    lines = answer.out.decode().splitlines()
    if lines[0] != ".version 2.0":
        return ", ".join(lines)
    names, gates = lines[2].partition(" ")[2], lines[lines.index(".begin") + 1 : -1]
    if len(gates) <= MOST_SHOWN:
        return "%s: %s" % (names, ", ".join(gates))
    kinds = [gate.partition(" ")[0] for gate in gates]
    counts = len(names.split(" ")), len(gates), kinds.count("t1"), kinds.count("t2"), kinds.count("t3")
    return "lines %d, gates %d, x %d, cx %d, ccx %d" % counts
