"""A trace of a Python function, and the text that is written from it.

A value is a node of a scope: that of `main`, or that of a function of the text. A scope writes its nodes as lines.
"""
import functools
from typing import Any, Callable, Dict, List, Optional, Sequence, Set, Tuple, TypeVar, cast

from .errors import RevcError, WidthError
from .names import WORDS, Place, as_name, author
from .writing import ATOM, Line, scope_lines

WIDEST = 4096  # places of a register

Operation = TypeVar("Operation", bound=Callable[..., Any])


class Node:
    """A value: an operation, its operands, and how its text is written."""
    __slots__ = ("kind", "data", "args", "width", "scope", "hint", "name", "uses", "place", "forced", "text", "tight")

    def __init__(self, kind: str, data: Any, args: Tuple["Node", ...], width: int, scope: Optional["Scope"]):
        self.kind, self.data, self.args, self.width, self.scope = kind, data, args, width, scope
        self.hint: Optional[str] = None  # the author's name
        self.name: Optional[str] = None  # the name in the text
        self.place: Optional[Place] = None
        self.text, self.tight = "", ATOM
        self.uses, self.forced = 0, False  # forced: has to have a name

    @property
    def said(self) -> str:
        name = self.name or self.hint
        return f"`{name}`" if name else "this value"


class Scope:
    """The items of `main` or of one function, in order."""

    def __init__(self, program: "Program", title: str):
        self.program, self.title = program, title
        self.items: List[Node] = []
        self.names: Set[str] = set()
        self.outer: Set[str] = set()  # names of `main` that are used here
        self.counts: Dict[str, int] = {}
        self.constants: Dict[Tuple[int, int], Node] = {}
        self.claims = False

    # ---- Making nodes

    def parameter(self, hint: str, width: int) -> Node:
        node = Node("name", None, (), width, self)
        node.hint = hint
        self.items.append(node)
        return node

    def add(self, kind: str, data: Any, args: Sequence[Node], width: int, hint: Optional[str] = None) -> Node:
        if width > WIDEST:
            raise WidthError(f"a value of {width} bits: a register has at most 4,096 places")
        if self.program.scope is not self:
            raise RevcError(f"`{self.title}` is not being traced now")
        node = Node(kind, data, tuple(self.use(each) for each in args), width, self)
        if kind in ("clean", "assert") and width > 1:
            node.args[0].forced = True  # a loop goes over its places
        name, node.place = (None, self.program.place) if self.program.quiet else author()
        node.hint = name if hint is None else hint
        self.claims |= kind in ("clean", "assert") or kind == "call" and data in self.program.claiming
        self.items.append(node)
        return node

    def use(self, node: Node) -> Node:
        if node.kind == "const" and node.scope is not self:
            return self.use(self.constant(node.data, node.width))
        if node.scope is not self:
            main = self.program.stack[0]
            if node.scope is not main:
                owner = node.scope.title if node.scope else "?"
                raise RevcError(f"{node.said} belongs to `{owner}` and is used in `{self.title}`: give it as an argument, or "
                                "return it")
            node.forced = True
            self.outer.add(main.name_of(node))
        node.uses += 1
        return node

    def constant(self, value: int, width: int) -> Node:
        if (value, width) not in self.constants:
            node = self.constants[value, width] = Node("const", value, (), width, self)
            node.place, node.hint = self.program.place, ""
            self.items.append(node)
        return self.constants[value, width]

    # ---- Names

    def is_taken(self, name: str) -> bool:
        return any(name in names for names in (self.names, self.outer, self.program.functions, WORDS))

    def name_of(self, node: Node) -> str:
        """The name of a node in the text, a new one where it has none: the author's, or `t7`."""
        if node.name is None:
            base = as_name(node.hint) if node.hint else "t"
            k = self.counts.get(base, 0 if not node.hint else 1)
            name = base if node.hint else ""
            while not name or self.is_taken(name):
                k += 1
                name = f"{base}_{k}" if node.hint else f"t{k}"
            self.counts[base] = k
            self.names.add(name)
            self.program.every.add(name)
            node.name = name
        return node.name


class Program:
    """A text in the making: operations first, then functions and lines in the order of the trace."""

    def __init__(self, title: str):
        self.title = title
        self.functions: Set[str] = {"O", "I"}
        self.every: Set[str] = set()  # each name of a value, of any scope
        self.claiming: Set[str] = set()  # functions in which a claim stands
        self.assumed = 0  # claims of `main`, its first, that are taken for granted
        self.top: List[Line] = []
        self.operations: Dict[str, str] = {}
        self.bodies: Dict[str, str] = {}  # from a title and a text to the name of the function
        self.library: Dict[Any, Tuple[str, int]] = {}  # functions of the library: name and width
        self.quiet, self.place = False, None  # type: bool, Optional[Place]
        self.stack: List[Scope] = [Scope(self, title)]

    @property
    def scope(self) -> Scope:
        return self.stack[-1]

    def claim_name(self, wanted: str) -> str:
        name = base = as_name(wanted)
        k = 1
        while name in self.functions or name in self.every:
            k += 1
            name = f"{base}_{k}"
        self.functions.add(name)
        return name

    def operation(self, name: str, write: Callable[[], str]) -> str:
        if name not in self.operations:
            text = write()  # may ask for others, which then stand before it
            self.operations[name] = self.claim_name(name)
            self.top += [(line, None) for line in (f"let {self.operations[name]} {text};").split("\n")]
        return self.operations[name]

    def function(self, title: str, params: Sequence[Tuple[str, int]], body: Callable[[List[Node]], Any],
                 top: bool = False) -> Tuple[str, List[Node], Any]:
        """Trace `body` on fresh parameters. The same text twice is one function."""
        scope = Scope(self, title)
        self.stack.append(scope)
        try:
            nodes = [scope.parameter(hint, width) for hint, width in params]
            results, shape = body(nodes)
            if not results:
                raise RevcError(f"the function `{title}` returns no bits")
            packed = scope.use(pack(scope, results))
            place = self.place if top else author()[1]
            for node in nodes:
                scope.name_of(node)
            lines = scope_lines(scope, packed)
        finally:
            self.stack.pop()
        head, last = " ".join(node.name or "" for node in nodes) or "u", packed.name or packed.text
        if not lines and len(last) < 90:
            text: List[Line] = [(f"{head} = {last};", place)]
        else:
            text = [(f"{head} = {{", place)] + lines + [(f"  {last} }};", place)]
        key = title + " " + "\n".join(line for line, _ in text)
        if key not in self.bodies:
            self.bodies[key] = name = self.claim_name(title)
            text[0] = (f"let {name} {text[0][0]}", place)
            if scope.claims:
                self.claiming.add(name)
            if top:
                self.top += text
            else:
                self.stack[0].items.append(Node("def", text, (), 0, self.stack[0]))
        return self.bodies[key], results, shape

    def finish(self, params: Sequence[Node], results: List[Node]) -> List[Line]:
        """The lines of the whole text, each with the place in the author's file that wrote it."""
        scope = self.stack[0]
        packed = scope.use(pack(scope, results))
        lines = scope_lines(scope, packed)
        body = [("  " + text, place) for text, place in self.top] + lines + [("  " + (packed.name or packed.text), None)]
        heads = ["(%s : bool%s)" % (each.name, "" if each.width == 1 else f"[{each.width}]") for each in params]
        return ([(f"revs 2 main {' '.join(heads)} = {{", None), ("  let O = false; let I = true;", None)]
                + body + [("}", None)])


def pack(scope: Scope, parts: Sequence[Node]) -> Node:
    """The parts, lowest first, as one node: bits beside each other in a `reg`, and appends in a balanced tree."""
    parts = [scope.constant(each.data, each.width) if each.kind == "const" else each for each in parts]
    groups: List[Node] = []
    at = 0
    while at < len(parts):
        end = at
        while end < len(parts) and parts[end].width == 1:
            end += 1
        if end > at + 1 or end > at and len(parts) > 1:
            groups.append(scope.add("reg", None, parts[at:end], end - at, ""))
            at = end
        else:
            groups.append(parts[at])
            at += 1
    while len(groups) > 1:
        pairs = [groups[k:k + 2] for k in range(0, len(groups), 2)]
        groups = [scope.add("append", None, pair, pair[0].width + pair[1].width, "") if len(pair) > 1 else pair[0]
                  for pair in pairs]
    return groups[0]


programs: List[Program] = []  # those that are traced now, the inmost last


def current() -> Program:
    if not programs:
        raise RevcError("there is nothing to trace into here: Bits are made inside a function marked @oracle")
    return programs[-1]


def one_name(function: Operation) -> Operation:
    """An operation of the library, which may take several nodes: its last one has the author's name."""
    @functools.wraps(function)
    def called(*args: Any, **named: Any) -> Any:
        program = programs[-1] if programs else None
        if program is None or program.quiet:
            return function(*args, **named)
        names, program.place = author(True)
        scope = program.scope
        before, program.quiet = len(scope.items), True
        try:
            out = function(*args, **named)
        finally:
            program.quiet = False
        if not isinstance(names, list):
            names, nodes = [names], [out.node] if hasattr(out, "node") else []
        else:
            nodes = [each.node for each in out] if isinstance(out, (tuple, list)) and len(out) == len(names) else []
        new = {id(node) for node in scope.items[before:]}
        for node, name in zip(nodes, names):
            if name and not node.hint and node.name is None and id(node) in new:
                node.hint = name
        return out
    return cast(Operation, called)
