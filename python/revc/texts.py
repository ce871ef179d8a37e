"""The functions of a text: one for each operation and width, written where it is first used.

`I` and `O` are the constants true and false of each text. An operation has as few ANDs as are known for it, and no
write that it does not need: bitwise ones make no register of zeros, sums begin with the XOR of both numbers.
"""
from typing import TYPE_CHECKING, Any, Callable, Dict, Tuple, Union

if TYPE_CHECKING:
    from .trace import Program

Key = Union[int, Tuple[int, ...]]
ROW = 8  # places that stand in one `reg`; wider registers are made by halves


def operation(program: "Program", kind: str, key: Key) -> str:
    """The name of the function of an operation at a width, which is written into the text where it is not there."""
    name = kind + ("_".join(map(str, key)) if isinstance(key, tuple) else str(key) if key else "")
    return program.operation(name, lambda: BODIES[kind](program, key))


def places(low: int, high: int) -> str:
    return f".[{low}..{high - 1}]" if high - low > 1 else f".[{low}]"


def bitwise(kind: str, names: str, wide: str, each: str) -> Callable[["Program", int], str]:
    """Place by place. `names` are the arguments, those in `wide` are registers, and `each` says a place @."""
    def half(program: "Program", low: int, high: int) -> str:
        if high - low == 1:
            return "(reg [%s])" % each.replace("@", f".[{low}]")
        given = [name + places(low, high) if name in wide else name for name in names.split()]
        return f"({' '.join([operation(program, kind, high - low)] + given)})"

    def write(program: "Program", n: int) -> str:
        if n <= ROW:
            row = [each.replace("@", f".[{i}]") for i in range(n)]
            return f"{names} = reg [{'; '.join(row)}]"
        return f"{names} = append {half(program, 0, n - n // 2)} {half(program, n - n // 2, n)}"
    return write


def by_halves(kind: str, names: str, each: str, sign: str) -> Callable[["Program", int], str]:
    """One bit of all places, by halves, so that the depth is logarithmic."""
    def half(program: "Program", low: int, high: int) -> str:
        if high - low == 1:
            return each.replace("@", f".[{low}]")
        return " ".join([operation(program, kind, high - low)] + [name + places(low, high) for name in names.split()])

    def write(program: "Program", n: int) -> str:
        return f"{names} = {half(program, 0, n - n // 2)} {sign} {half(program, n - n // 2, n)}"
    return write


def zeros(program: "Program", n: int) -> str:
    """A function with an argument that is not used: its body makes new locations at each call."""
    if n <= 32:
        return f"u = reg [{'; '.join(['false'] * n)}]"
    high, low = operation(program, "zeros", n - n // 2), operation(program, "zeros", n // 2)
    return f"u = append ({high} u) ({low} u)"


# r begins as x XOR y. The carry of x + y is y where x and y are equal, else the carry c before; that of x - y is c
# where they are equal, else y. The order keeps a constant y cheap.
ADDER = """x y = {
  let r = %s x y;
  let c = false;
  for i in 0 .. %d do {
    let d = r.[i] && (y.[i] <> c) <> %s;
    r.[i] <- r.[i] <> c;
    c <- d; };
  %s }"""
LESS = """x y = {
  let c = false;
  for i in 0 .. %d do { c <- (x.[i] <> y.[i]) && (y.[i] <> c) <> c; };
  c }"""
PRODUCT = """x y = {
  let r = append (%s y.[0] x) (%s true);
  for i in 1 .. %d do {
    let c = false;
    for j in 0 .. %d do {
      let d = r.[i + j] <> x.[j] && y.[i];
      let e = d && (r.[i + j] <> c) <> r.[i + j];
      r.[i + j] <- d <> c;
      c <- e; };
    r.[i + %d] <- c; };
  r }"""


def adder(carry: str, result: str) -> Callable[["Program", int], str]:
    return lambda program, n: ADDER % (operation(program, "xor", n), n - 1, carry, result)


def product(program: "Program", key: Tuple[int, int]) -> str:
    n, m = key
    return PRODUCT % (operation(program, "scale", n), operation(program, "zeros", m), m - 1, n - 1, n)


BODIES: Dict[str, Callable[["Program", Any], str]] = {
    "zeros": zeros,
    "inv": bitwise("inv", "x", "x", "I <> x@"),
    "and": bitwise("and", "x y", "x y", "x@ && y@"),
    "xor": bitwise("xor", "x y", "x y", "x@ <> y@"),
    "or": bitwise("or", "x y", "x y", "x@ <> y@ <> x@ && y@"),
    "scale": bitwise("scale", "c x", "x", "c && x@"),
    "mux": bitwise("mux", "c x y", "x y", "c && (x@ <> y@) <> y@"),
    "add": adder("y.[i]", "r"),
    "addc": adder("y.[i]", "append r (reg [c])"),
    "sub": adder("c", "r"),
    "subc": adder("c", "append r (reg [c])"),
    "lt": lambda program, n: LESS % (n - 1),
    "eq": by_halves("eq", "x y", "(I <> x@ <> y@)", "&&"),
    "all": by_halves("all", "x", "x@", "&&"),
    "none": by_halves("none", "x", "(I <> x@)", "&&"),
    "parity": by_halves("parity", "x", "x@", "<>"),
    "mul": product,
    # bits a, b, c to their sum and their carry
    "full": lambda program, n: "a b c = { let t = a <> c; reg [t <> b; t && (b <> c) <> c] }",
}
