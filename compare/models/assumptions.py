"""A model of claims that are taken for granted: on which inputs the first of them hold, and the others on these.

Both are runs with more writes. Behind those of a run stand the constants 0 and 1, and then two writes for each claim: its
bit beside a constant, and the AND of this with the bit that the assumed claims are met.
"""
from typing import List, NamedTuple

from models.language import Claimed, Program, Run, Write


class Assumed(NamedTuple):
    """What the models of claims and of graphs see of a run."""

    program: Program
    bits: List[int]
    writes: List[Write]
    claims: List[Claimed]
    outputs: list


class Links:
    """The writes of a run, and those behind them, made one by one."""

    def __init__(self, run: Run):
        self.run, self.writes = run, list(run.writes)
        self.zero, self.one = self.write("0"), self.write("1")

    def write(self, operator: str, *operands: str) -> str:
        self.writes.append(Write(operator, operands))
        return "w%d" % (len(self.writes) - 1)

    def claimed(self, claim: Claimed) -> str:
        """The constant that a claim claims."""
        return self.one if claim.word == "assert" else self.zero

    def other(self, claim: Claimed) -> str:
        return self.zero if claim.word == "assert" else self.one

    def met(self, claims: List[Claimed]) -> str:
        """The bit that these claims hold."""
        met = self.one
        for claim in claims:
            met = self.write("&&", met, self.write("<>", claim.name, self.other(claim)))
        return met

    def broken(self, claim: Claimed, met: str) -> str:
        """The bit that a claim fails where the others are met."""
        return self.write("&&", met, self.write("<>", claim.name, self.claimed(claim)))

    def run_of(self, claims: List[Claimed], outputs: list) -> Assumed:
        return Assumed(self.run.program, self.run.bits, self.writes, claims, outputs)


def premise(run: Run, number: int) -> Assumed:
    """The run that puts out whether the first claims hold, and claims that they do not."""
    links = Links(run)
    met = links.met(run.claims[:number])
    return links.run_of([Claimed("clean", met, (1, 1), True)], [(1, met)])


def assuming(run: Run, number: int) -> Run:
    """The run whose claims say what those of this one say on the inputs on which the first hold."""
    if not run.claims[:number]:
        return run
    links, claims = Links(run), []
    met = links.met(run.claims[:number])
    for at, claim in enumerate(run.claims):
        name = links.zero if at < number else links.broken(claim, met)
        claims.append(Claimed("clean", name, claim.place, True))
    return links.run_of(claims, run.outputs)
