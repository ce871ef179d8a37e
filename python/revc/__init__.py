"""Functions on bits and numbers, from Python to reversible circuits that are proved.

    from revc import Bits, oracle

    @oracle
    def factors(a: Bits[8], b: Bits[8]):
        return a * b == 143

    circuit = factors.compile()
    circuit.qasm, circuit.cost, circuit.run(a=11, b=13)
"""
from . import types
from .arithmetic import popcount
from .choices import Switch
from .circuits import Circuit
from .costs import Costs, Row
from .counting import Ands, Cost
from .equality import equal
from .errors import (CircuitDiffers, CircuitRefused, ClaimFails, GatesExceeded, KindError, KnownLater, LinesExceeded,
                     NodesExceeded, OutOfMemory, PlaceError, ReadError, Refused, RevcError, TextRefused, TimedOut, Unsettled,
                     WidthError)
from .functions import aside, assume, clean, function, require
from .netlists import Netlist, read
from .operations import Mux, add, sub
from .oracles import Oracle, oracle
from .places import Cat, Const, widen
from .program import version
from .progress import Step
from .sources import Source, load
from .tables import table
from .types import *
from .values import Bits

__version__ = "1.1"
__all__ = ["Ands", "Bits", "Cat", "Circuit", "CircuitDiffers", "CircuitRefused", "ClaimFails", "Const", "Cost", "Costs",
           "GatesExceeded", "KindError", "KnownLater", "LinesExceeded", "Mux", "Netlist", "NodesExceeded", "Oracle",
           "OutOfMemory", "PlaceError", "ReadError", "Refused", "RevcError", "Row", "Source", "Step", "Switch",
           "TextRefused", "TimedOut", "Unsettled", "WidthError", "add", "aside", "assume", "clean", "equal", "function", "load",
           "oracle", "popcount", "read", "require", "sub", "table", "version", "widen"]
__all__ += types.__all__
