"""Makes lists of calls: lookups, grids, full surveys, damaged files and examples."""

from __future__ import annotations

from collections.abc import Sequence
from random import Random
from typing import NamedTuple

import damage
import protocol
import surveys
from exact import Point
from grids import full_side, grid_near, grid_of, improper_grid, proper_grid
from operations import BYTES, CELLS
from protocol import Call
from random_calls import ANY_GRID, ANY_SURVEY, entry, grid_calls, lookup_calls, with_ends


class Journal(NamedTuple):
    """Calls from a fresh survey, then bytes, if any, that make the journal a bad one."""

    kind: str
    calls: list[Call]
    bad: bytes = b""


def encode(journal: Journal) -> bytes:
    return b"".join(map(protocol.encode, journal.calls)) + journal.bad


# Lookups.


def lookup_journal(rng: Random, index: int) -> list[Call]:
    points, aimed = surveys.make(rng, surveys.KINDS[index % len(surveys.KINDS)])
    return entry(rng, points) + lookup_calls(rng, points, aimed, 70)


# Grids.


def grid_journal(rng: Random, index: int) -> list[Call]:
    points, _ = surveys.make(rng, rng.choice(surveys.KINDS))
    calls = grid_calls(rng, improper_grid(rng)) + grid_calls(rng, proper_grid(rng))
    calls += entry(rng, points)
    for _ in range(3):
        calls += grid_calls(rng, proper_grid(rng)) + grid_calls(rng, grid_near(rng, points))
        calls += grid_calls(rng, improper_grid(rng))
    return calls


def widest_grid_journal(rng: Random, index: int) -> list[Call]:
    """64 columns and 64 rows, with the most cells and bytes that may be lent."""
    points, _ = surveys.make(rng, rng.choice((surveys.uniform, surveys.lattice)))
    numbers = grid_of(full_side(rng), full_side(rng))
    return entry(rng, points) + [
        Call("g", (*numbers, 4095)),
        Call("g", (*numbers, (4096, CELLS.most)[index % 2])),
        Call("f", (*numbers, ANY_GRID - 1)),
        Call("f", (*numbers, (ANY_GRID, BYTES.most)[index % 2])),
    ]


# Full surveys.


def refused_adds(rng: Random, points: Sequence[Point]) -> list[Call]:
    """At a full survey: refusals 1, 2, 3 and 5, each before those that follow it."""
    taken = rng.choice(points)
    return [
        Call("a", (*surveys.off_domain(rng), 128)),
        Call("a", (taken.x, taken.y, -129)),
        Call("a", (taken.x, taken.y, 5)),
        Call("a", (0, 4095, 6)),
        Call("c", (0, 4095, 6)),
        Call("c", (taken.x, taken.y, 128)),
        Call("c", (0, 4095, -129)),
        Call("d", (0, 4095)),
        Call("d", surveys.off_domain(rng)),
    ]


def full_journal(rng: Random, index: int) -> list[Call]:
    """255, 256 and 257 adds; drops make room again; files of 256 points."""
    draw = lambda: (rng.randrange(1, 4096), rng.randrange(4096))
    points = surveys.with_values(rng, surveys.gather(257, draw))
    dropped = rng.choice(points[:255])
    written = [Call("w", (lent,)) for lent in (ANY_SURVEY - 1, ANY_SURVEY, ANY_SURVEY + 1)]
    looked = lambda: lookup_calls(rng, points, [points[255][:2], points[256][:2]], 6)
    calls = [Call("a", point) for point in points[:255]] + looked() + written
    calls += with_ends([Call("a", points[255])]) + looked()
    calls += with_ends([Call("a", points[256])]) + looked() + written
    calls += with_ends(refused_adds(rng, points[:256])) + looked()
    calls += with_ends([Call("d", dropped[:2]), Call("a", points[256]), Call("a", dropped)])
    calls += looked() + written + with_ends([Call("k"), Call("q", (5, 5))])
    calls += with_ends([protocol.load(damage.sound_file(rng, points[:256]))])
    calls += with_ends([protocol.load(damage.sound_file(rng, points), True)])
    return calls + written + looked() + with_ends(refused_adds(rng, points[:256]))


# Damaged files.


def shown(rng: Random, points: Sequence[Point]) -> Call:
    """A call that shows what the survey holds."""
    return rng.choice(
        (
            Call("w", (ANY_SURVEY,)),
            Call("e"),
            Call("q", surveys.location_near(rng, points)),
            Call("n", (*surveys.location_near(rng, points), 10)),
        )
    )


def damaged_journal(rng: Random, index: int) -> list[Call]:
    held = damage.few_points(rng)
    calls = entry(rng, held) if rng.randrange(8) else []
    for _ in range(20):
        points = damage.few_points(rng)
        calls.append(protocol.load(damage.damage(rng, damage.random_preamble(rng), points), True))
        calls.append(shown(rng, rng.choice((held, points))))
    return calls


# Document 01's examples.

TWELVE = [(100 + dx, 100 + dy) for dx, dy in surveys.circle(25)]
EXAMPLES = (
    ([(3000, 7, -7)], (0, 4095)),
    ([(3, 0, 0), (6, 0, 90)], (0, 0)),
    ([(0, 0, 0), (9, 0, 90)], (3, 0)),
    ([(0, 0, 0), (10, 0, 10)], (5, 0)),
    ([(105, 100, 0), (95, 100, 0), (100, 105, 0), (100, 95, 0), (103, 104, 98)], (100, 100)),
    ([(x, y, index + 1) for index, (x, y) in enumerate(sorted(TWELVE))], (100, 100)),
)


def example_journal(rng: Random, index: int) -> list[Call]:
    """The examples, and the limits of the domain, of the values and of lent lists; then no call."""
    if index == 1:
        return []
    calls = []
    for points, location in EXAMPLES:
        calls += [Call("a", point) for point in rng.sample(points, len(points))]
        calls += with_ends([Call("q", location), Call("n", (*location, 10)), Call("k")])
    calls += with_ends([Call(letter, (0, 0, 1, 1, 1, 1, 200)) for letter in "gfp"])
    calls += [Call("n", (0, 0, 9)), Call("n", (4096, 0, 0)), Call("w", (11,)), Call("w", (12,))]
    calls += [Call("a", point) for point in ((4095, 0, 127), (4096, 0, 127), (0, 4096, 128))]
    calls += [Call("a", (1, 1, z)) for z in (128, -129, -128)]
    calls += [Call("w", (BYTES.most,)), Call("q", (4095, 4095))]
    return calls + [protocol.load(damage.assemble(b"", [])), Call("q", (0, 0)), Call("w", (13,))]
