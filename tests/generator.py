"""Makes the tests of a seed: lists of calls, and pairs of them, and inputs for the programs."""

from __future__ import annotations

from collections.abc import Callable
from fractions import Fraction
from random import Random

import bad_journals
import ends_journals
import esri_journals
import grid_inputs
import journals
import mixed_calls
import pair_journals
import polygon_journals
import row_journals
from grid_inputs import GridInput
from journals import Journal
from pair_journals import Pair, Parts
from protocol import Call

# What one test is made of: a journal's calls, those of a pair, or an input of shepard_grid and
# shepard_esri.
Maker = Callable[[Random, int], list[Call] | Parts | bytes]
Test = Journal | Pair | GridInput

JOURNALS = (
    ("examples", journals.example_journal, 2),
    ("lookups", journals.lookup_journal, 400),
    ("mixed calls", mixed_calls.mixed_journal, 128),
    ("ends", ends_journals.ends_journal, 72),
    ("polygon", polygon_journals.polygon_journal, 60),
    ("full survey", journals.full_journal, 10),
    ("damaged files", journals.damaged_journal, 105),
    ("grids", journals.grid_journal, 70),
    ("widest grid", journals.widest_grid_journal, 2),
    ("bad journal", bad_journals.bad_journal, 60),
    ("esri texts", esri_journals.esri_journal, 90),
    ("widest esri texts", esri_journals.widest_esri_journal, 2),
    ("free lengths", esri_journals.free_journal, 40),
    ("rows", row_journals.row_journal, 96),
    ("free rows", row_journals.free_row_journal, 90),
    ("widest rows", row_journals.widest_row_journal, 2),
)
GRID_INPUTS = (
    ("whole case", grid_inputs.whole_case, 2),
    ("grid inputs", grid_inputs.sound_input, 116),
    ("empty surveys", grid_inputs.empty_input, 24),
    ("short preambles", grid_inputs.short_preamble_input, 20),
    ("damaged grid inputs", grid_inputs.damaged_input, 340),
    ("esri inputs", grid_inputs.like_input, 220),
    ("unlike steps", grid_inputs.unlike_input, 36),
)
PAIRS = (
    ("pairs of lookups", pair_journals.lookup_pair, 60),
    ("pairs of midpoints", pair_journals.midpoint_pair, 60),
    ("pairs of free answers", pair_journals.free_pair, 60),
    ("pairs of grids", pair_journals.grid_pair, 48),
)


def share_of(count: int, divisor: int) -> int:
    """So many of a kind for a smaller run; never fewer than two."""
    return max(2, count // divisor)


def make_test(rng: Random, kind: str, maker: Maker, index: int) -> Test:
    made = maker(rng, index)
    if isinstance(made, bytes):
        return GridInput(kind, made, maker is grid_inputs.damaged_input)
    if isinstance(made, tuple):
        return Pair(kind, *made)
    bad = bad_journals.bad_end(rng, index) if maker is bad_journals.bad_journal else b""
    return Journal(kind, made, bad)


def make(rng: Random, divisor: int = 1) -> list[Test]:
    """All tests of a run, each kind spread evenly over it."""
    spread: list[tuple[Fraction, Test]] = []
    for kind, maker, whole in JOURNALS + GRID_INPUTS + PAIRS:
        count = share_of(whole, divisor)
        for index in range(count):
            spread.append((Fraction(2 * index + 1, 2 * count), make_test(rng, kind, maker, index)))
    spread.sort(key=lambda each: each[0])
    return [test for _, test in spread]
