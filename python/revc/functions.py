"""Functions of Python as functions of the text, their parameters and results; and claims."""
import functools
import inspect
from typing import Any, Callable, Dict, List, Mapping, Sequence, Tuple, TypeVar, cast

from .errors import KindError, RevcError, WidthError
from .names import author
from .places import Const
from .trace import Node, current
from .values import Bits, Width, is_bits, said, scope

Shape = Any  # how the values of a result stand in tuples, lists and dicts; None for a single one
Function = TypeVar("Function", bound=Callable[..., Any])


def widths(func: Any) -> Dict[str, Width]:
    """What a function's annotations say, as `Bits[8]`, `Signed[8]` or `Annotated[Bits, 8]`."""
    space = dict(func.__globals__)
    if func.__closure__:
        cells = [(name, cell) for name, cell in zip(func.__code__.co_freevars, func.__closure__)]
        space.update((name, cell.cell_contents) for name, cell in cells if not is_empty(cell))
    found = {}
    for name, note in func.__annotations__.items():
        if isinstance(note, str):
            try:
                note = eval(note, space)
            except NameError as error:
                raise RevcError(f"the width {note} of `{name}`: {error} (with `from __future__ import annotations` it has "
                                "to be known in the module)") from None
        kind = getattr(note, "__origin__", note)
        if isinstance(kind, type) and issubclass(kind, Bits):
            if kind is note and name != "return":
                raise RevcError(f"`{name}: {kind.__name__}` has no width: write {name}: {kind.__name__}[8]")
            note = note if kind is note else kind[note.__metadata__[0]]
        if isinstance(note, Width):
            found[name] = note
    return found


def is_empty(cell: Any) -> bool:
    try:
        cell.cell_contents
    except ValueError:
        return True
    return False


def holds_bits(value: Any) -> bool:
    if isinstance(value, dict):
        value = list(value.values())
    return is_bits(value) or isinstance(value, (list, tuple)) and any(holds_bits(each) for each in value)


def flatten(value: Any, title: str) -> Tuple[List[Bits], Shape]:
    """The values in tuples, lists and dicts, one after another, and how they stood."""
    if is_bits(value):
        return [value], None
    if isinstance(value, (dict, tuple, list)):
        parts = [flatten(each, title) for each in (value.values() if isinstance(value, dict) else value)]
        keys = list(value) if isinstance(value, dict) else None
        return [each for flat, _ in parts for each in flat], (type(value), keys, [(len(f), s) for f, s in parts])
    if value is None:
        raise RevcError(f"`{title}` returns nothing: it wants a `return`")
    raise RevcError(f"`{title}` returns {value!r}, which is no Bits: give a number its width, Const({value!r}, n)")


def unflatten(shape: Shape, flat: Sequence[Any]) -> Any:
    if shape is None:
        return flat[0]
    kind, keys, parts = shape
    out, at = [], 0
    for count, inner in parts:
        out.append(unflatten(inner, flat[at:at + count]))
        at += count
    return dict(zip(keys, out)) if keys is not None else kind(*out) if hasattr(kind, "_fields") else kind(out)


def result_names(shape: Shape, flat: Sequence[Bits], title: str) -> List[str]:
    """What the results are called: by the keys of a dict, by the author's names, or by the function's name."""
    if shape is not None and shape[1] is not None:
        names = []
        for key, (count, _) in zip(shape[1], shape[2]):
            names += [str(key)] if count == 1 else [f"{key}_{i}" for i in range(count)]
        return names
    if len(flat) == 1:
        return [title]
    return [each.node.name or each.node.hint or f"{title}_{i}" for i, each in enumerate(flat)]


def function(func: Function) -> Function:
    """Make a function of Python one of the text. It is traced at each call, and the same text twice is one function.

    Arguments with Bits in them, also in lists, tuples and dicts, are its parameters; all others are known when it is
    traced. It may use values of the oracle that is traced, but none of another function.
    """
    signature = inspect.signature(func)

    @functools.wraps(func)
    def called(*args: Any, **named: Any) -> Any:
        bound = signature.bind(*args, **named)
        bound.apply_defaults()
        return traced_call(func, bound)
    return cast(Function, called)


def traced_call(func: Callable[..., Any], bound: inspect.BoundArguments) -> Any:
    """The results of a call: `func` is traced on its parameters, and what comes is called with the values given."""
    params: List[Tuple[str, int]] = []
    actual: List[Bits] = []
    shapes = {}
    for name, value in with_widths(func, bound.arguments).items():
        if holds_bits(value):
            flat, shape = flatten(value, func.__name__)
            shapes[name] = (len(actual), len(flat), shape)
            params += [(name if shape is None else f"{name}{i}", each.width) for i, each in enumerate(flat)]
            actual += flat

    def body(nodes: List[Node]) -> Tuple[List[Node], Shape]:
        for name, (at, count, shape) in shapes.items():
            given = [type(value)(node) for value, node in zip(actual[at:at + count], nodes[at:at + count])]
            bound.arguments[name] = unflatten(shape, given)
        flat, shape = flatten(func(*bound.args, **bound.kwargs), func.__name__)
        return [each.node for each in flat], (shape, [type(each) for each in flat])
    program = current()
    quiet, program.quiet = program.quiet, False
    try:
        title, results, (shape, kinds) = program.function(func.__name__, params, body)
    finally:
        program.quiet = quiet
    given = [each.node for each in actual] or [Const(0, 1).node]
    whole = Bits(scope().add("call", title, given, sum(each.width for each in results)))
    return unflatten(shape, [kind(part.node) for kind, part in zip(kinds, cut_results(whole, title, results))])


def with_widths(func: Callable[..., Any], arguments: Mapping[str, Any]) -> Dict[str, Any]:
    """The arguments, of which those with a width of their own are Bits of this width."""
    out, known = dict(arguments), widths(func)
    for name in known.keys() & out.keys():
        value, wanted = out[name], known[name]
        if not is_bits(value):
            out[name] = wanted.kind(Const(value, wanted.width).node)
        elif value.width != wanted.width:
            raise WidthError(f"`{name}` of `{func.__name__}` has {wanted.width} bits, and {said(value)} {value.width}")
        elif type(value) is not wanted.kind:
            raise KindError(f"`{name}` of `{func.__name__}` is {wanted!r}, and {said(value)} "
                            f"{Width(value.width, type(value))}: as_signed(..) or .as_unsigned() makes both the same")
    return out


def cut_results(whole: Bits, title: str, results: Sequence[Node]) -> List[Bits]:
    """The results of a call, which come as one register, under the author's names."""
    if len(results) == 1:
        return [whole]
    whole.node.hint = whole.node.hint or title
    names, _ = author(True)
    parts, at = [], 0
    for each in results:
        parts.append(whole[at:at + each.width])
        at += each.width
    if isinstance(names, list) and len(names) == len(parts):
        for part, own in zip(parts, names):
            part.named(own)
    return parts


def clean(x: Bits) -> None:
    """Claim that all bits of x are 0 on every input. `check` and `compile` prove it, and it costs no gate."""
    scope().add("clean", None, [x.node], x.width, "")


def aside(x: Bits) -> None:
    """Compute x beside the outputs, which do not need it: it costs no gate.

    `compile_in_place` looks whether its bits are equal to others, so an inverse that is computed aside leads back there:
    y = lib.aes_sbox(x), and then aside(lib.aes_sbox_inverse(y)). Nothing rests on that it is right.
    """
    scope().use(x.node).forced = True


def require(x: Bits) -> None:
    """Claim that the bit x is 1 on every input. `check` and `compile` prove it, and it costs no gate."""
    claim_bit(x, "require")


def claim_bit(x: Bits, name: str) -> None:
    if not is_bits(x) or x.width != 1:
        raise WidthError(f"{name}({said(x)}): one bit is claimed: a comparison, or .all()")
    scope().add("assert", None, [x.node], 1, "")


def assume(x: Bits) -> None:
    """Take for granted that the bit x is 1: inputs on which it is 0 are not looked at.

    It stands before all other claims of the oracle. In an oracle that another one calls, it is what that one has to prove.
    """
    program = current()
    if len(program.stack) == 1:
        claims = [node for node in program.scope.items
                  if node.kind in ("clean", "assert") or node.kind == "call" and node.data in program.claiming]
        if len(claims) > program.assumed:
            raise RevcError(f"assume({said(x)}) stands behind a claim: what is taken for granted comes first")
        claim_bit(x, "assume")
        program.assumed += 1
    else:
        claim_bit(x, "assume")
