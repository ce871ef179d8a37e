"""Gates that permute bits: X with any controls, and swaps with any controls."""
from typing import List, NamedTuple, Tuple

Control = Tuple[int, bool]


class Gate(NamedTuple):
    """Its controls, each a line and the bit that it has to hold, and the line that it flips or the two that it swaps."""

    controls: Tuple[Control, ...]
    targets: Tuple[int, ...]

    @property
    def lines(self) -> List[int]:
        return [line for line, _ in self.controls] + list(self.targets)
