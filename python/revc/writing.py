"""How the nodes of a scope are written as lines of a text."""
from typing import TYPE_CHECKING, List, Optional, Tuple

from .names import Place

if TYPE_CHECKING:
    from .trace import Node, Scope

ATOM, APPLIED, PRODUCT, SUM = 3, 2, 1, 0  # how tight a text binds
INLINE = 88  # the longest text that is written inside another one
SHORT = 24  # a slice or a rotation of at most so many letters is written wherever it is used

Line = Tuple[str, Optional[Place]]  # with the place in the author's file that wrote it


def drop_unused(scope: "Scope", last: "Node") -> None:
    """Takes out the nodes on which neither the last one nor a claim rests."""
    kept, claiming = [], scope.program.claiming
    for node in reversed(scope.items):
        stays = node.kind in ("name", "def", "clean", "assert") or node.kind == "call" and node.data in claiming
        if node.uses or node.forced or stays or node is last:
            kept.append(node)
        else:
            for each in node.args:
                each.uses -= 1
    scope.items = kept[::-1]


def scope_lines(scope: "Scope", last: "Node") -> List[Line]:
    """The lines of a scope whose value is the node `last`; what is short and used once stands inside of others."""
    drop_unused(scope, last)
    out: List[Line] = []
    for node in scope.items:
        if node.kind == "def":
            out += [("  " + line, place) for line, place in node.data]
        elif node.kind == "name":
            node.text = scope.name_of(node)
        elif node.kind in ("clean", "assert"):
            out.append((f"  {written(node, scope)[0]};", node.place))
        else:
            text, tight = written(node, scope)
            if has_own_line(node, last, text):
                out.append((f"  let {scope.name_of(node)} = {text};", node.place))
                text, tight = scope.name_of(node), ATOM
            node.text, node.tight = text, tight
    return out


def has_own_line(node: "Node", last: "Node", text: str) -> bool:
    if node.kind == "const" and not node.hint:
        own = node.width > 8 and node.uses > 1 or node.forced
        if own and not node.name:
            node.hint = f"k{node.data:x}"
        return own
    if node.kind in ("slice", "rotate") and not node.hint and not node.forced and len(text) < SHORT:
        return False
    return bool(node.hint) or node.forced or node.uses != 1 or len(text) > INLINE and node is not last


def written(node: "Node", scope: "Scope") -> Tuple[str, int]:
    """The text of a node, and how tight it binds."""
    def get(arg: "Node", least: int) -> str:
        text, tight = (arg.name or "", ATOM) if arg.scope is not scope else (arg.text, arg.tight)
        return text if tight >= least else "(" + text + ")"

    args, kind, width = node.args, node.kind, node.width
    if kind == "const":
        bits = ["OI"[node.data >> i & 1] for i in range(width)]
        return bits[0] if width == 1 else "reg [" + "; ".join(bits) + "]", ATOM
    if kind == "slice":
        low, high = node.data
        return "%s.[%s]" % (get(args[0], ATOM), low if width == 1 else f"{low}..{high - 1}"), ATOM
    if kind == "rotate":
        return f"rotate {node.data} {get(args[0], ATOM)}", APPLIED
    if kind == "reg":
        return "reg [" + "; ".join(get(each, SUM) for each in args) + "]", ATOM
    if kind in ("append", "call"):
        return " ".join([node.data or kind] + [get(each, ATOM) for each in args]), APPLIED
    if kind == "and":
        return " && ".join(get(each, APPLIED) for each in args), PRODUCT
    if kind == "xor":
        return " <> ".join(get(each, PRODUCT) for each in args), SUM
    assert kind in ("clean", "assert")
    # the claim is of a new bit, since a cleaned location holds nothing any more
    if args[0].width == 1:
        return f"{kind} (O <> {get(args[0], PRODUCT)})", SUM
    return f"for i in 0 .. {width - 1} do {{ {kind} (O <> {get(args[0], ATOM)}.[i]); }}", SUM
