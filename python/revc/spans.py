"""Sums of vectors over bits: a basis by Gauss's elimination."""
from typing import Dict, List, Sequence, Tuple


class Span:
    """A basis; each vector with the sum of generators that it is."""

    def __init__(self) -> None:
        self.rows: Dict[int, Tuple[int, int]] = {}

    def reduced(self, vector: int, how: int = 0) -> Tuple[int, int]:
        while vector:
            row = self.rows.get(vector.bit_length())
            if row is None:
                break
            vector, how = vector ^ row[0], how ^ row[1]
        return vector, how

    def add(self, vector: int, how: int = 0) -> bool:
        vector, how = self.reduced(vector, how)
        if vector:
            self.rows[vector.bit_length()] = (vector, how)
        return bool(vector)


def basis(vectors: Sequence[int], without: int) -> List[int]:
    """A basis of the vectors, from which the terms `without` are dropped."""
    span = Span()
    for vector in vectors:
        span.add(vector & ~without)
    return [row for row, _ in span.rows.values()]
