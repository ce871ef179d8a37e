"""Rows whose answers were worked out by hand, byte for byte."""
from typing import List

from . import adders, arith, circuits, claims, compiled, converted, counted, evaluated, lean, loops, planned, refused
from . import tidied, tokens, verified, words
from .texts import Row

ANSWERS: List[Row] = [
    *adders.CASES,
    *arith.CASES, *arith.SMALL,
    *circuits.CASES, *circuits.COMPILED, *circuits.RUN_ON_MANY,
    *claims.CASES, *claims.ASSUMED, *claims.FURTHER_CASES, *claims.LIMIT_CASES,
    *compiled.COMPILED, *compiled.REFUSED, *compiled.COMPILED_LONG,
    *converted.CASES, *converted.SIZES,
    *counted.COUNTED,
    *evaluated.WORDS, *evaluated.CLAIMS, *evaluated.ALIASES, *evaluated.FUNCTIONS, *evaluated.NEARER,
    *evaluated.REGISTERS, *evaluated.STUCK, *evaluated.LONG_VALUES,
    *lean.CASES,
    *loops.LOOPS,
    *planned.CASES, *planned.LONG_CASES, *planned.EXAMPLES,
    *refused.REFUSED,
    *tidied.CASES,
    *tokens.TOKENS,
    *verified.SOURCES, *verified.ANY, *verified.BY, *verified.ASSUMED,
    *words.NO_ORDERS,
]
