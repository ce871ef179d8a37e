"""Files of netlists, and the programs of Revs that compute the same."""
import sys
from pathlib import Path
from typing import Union

from .aiger import read_aiger
from .blif import read_blif
from .cells import cells_of
from .errors import RevcError
from .networks import Network, NetworkProgram

NETWORKS = (".blif", ".aag", ".aig")  # endings of names


def is_network(path: Union[str, Path]) -> bool:
    return str(path).endswith(NETWORKS)


def network_of(data: bytes, library: Union[str, Path, None] = None) -> Network:
    """The network of a netlist's bytes; `library` is the file of the cells to which it is mapped."""
    if data[:4] in (b"aag ", b"aig "):
        return read_aiger(data)
    cells = cells_of(Path(library).read_text()) if library else {}
    return read_blif(data.decode("ascii", "backslashreplace"), cells)


def network_text(path: Union[str, Path], library: Union[str, Path, None] = None) -> str:
    """The program of a netlist's file, or of standard input where the path is `-`."""
    data = sys.stdin.buffer.read() if path == "-" else Path(path).read_bytes()
    try:
        return NetworkProgram(network_of(data, library)).text()
    except RevcError as error:
        raise RevcError(f"{path}: {error}") from None
