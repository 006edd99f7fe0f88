"""Makes inputs for the grid and the Esri program: sound, empty, damaged, with short preambles."""

from __future__ import annotations

from random import Random
from struct import pack
from typing import NamedTuple

import damage
import exact
import free_rounding
import surveys
from grids import (
    grid_near,
    improper_grid,
    improper_unlike_grid,
    like_grid,
    like_grid_near,
    proper_grid,
    unlike_grid,
    widest_grid,
)


class GridInput(NamedTuple):
    """A whole standard input of shepard_grid and of shepard_esri."""

    kind: str
    data: bytes
    damaged: bool = False


def grid_preamble(rng: Random) -> bytes:
    """The six numbers and, at times, more; or too few bytes."""
    numbers = pack(">6H", *(improper_grid(rng) if rng.randrange(4) == 0 else proper_grid(rng)))
    longer, shorter = numbers + damage.random_preamble(rng), numbers[: rng.randrange(12)]
    return rng.choice((numbers, numbers, longer, shorter))


def short_preamble_input(rng: Random, index: int) -> bytes:
    """Fewer than 12 bytes before the first record, which together with it read as a proper grid."""
    numbers = pack(">6H", *proper_grid(rng))
    rows = int.from_bytes(numbers[10:], "big")
    points = [exact.Point(rows, rng.randrange(4096), 3), exact.Point(4095, 9, -4)]
    if rng.randrange(2):
        return damage.assemble(numbers[:10], damage.records_of(points))
    # The high byte of the first x stands for the low byte of the rows.
    points[0] = exact.Point(256 * rng.randint(1, 8), 1, 2)
    return damage.assemble(numbers[:10] + b"\0", damage.records_of(points))


def sound_input(rng: Random, index: int) -> bytes:
    points, _ = surveys.make(rng, surveys.KINDS[index % len(surveys.KINDS)])
    preamble = pack(">6H", *grid_near(rng, points)) if rng.randrange(2) else grid_preamble(rng)
    return damage.assemble(preamble, damage.records_of(points))


def like_input(rng: Random, index: int) -> bytes:
    """Two steps alike: around a point, anywhere, rounded either way, and at first the widest."""
    points, _ = surveys.make(rng, surveys.KINDS[index % len(surveys.KINDS)])
    numbers = like_grid(rng) if index % 4 == 1 else like_grid_near(rng, points)
    if index % 3:
        points = surveys.with_narrow_values(rng, points)
    if index % 8 == 4:
        points, numbers = free_rounding.make(rng, index // 8)
    if index == 0:
        points, numbers = [exact.Point(4095, 4095, -128)], widest_grid(rng)
    preamble = pack(">6H", *numbers) + damage.random_preamble(rng)
    return damage.assemble(preamble, damage.records_of(points))


def unlike_input(rng: Random, index: int) -> bytes:
    """Two steps that differ, of a survey and of no points; every other grid breaks a rule too."""
    points, _ = surveys.make(rng, surveys.KINDS[index % len(surveys.KINDS)])
    numbers = improper_unlike_grid(rng) if index % 2 else unlike_grid(rng)
    return damage.assemble(pack(">6H", *numbers), damage.records_of(points if index % 3 else []))


def empty_input(rng: Random, index: int) -> bytes:
    """No record: 6, unless the grid or the preamble is at fault."""
    numbers = like_grid(rng) if index % 4 == 2 else proper_grid(rng)
    return damage.assemble(grid_preamble(rng) if index % 2 else pack(">6H", *numbers), [])


def damaged_input(rng: Random, index: int) -> bytes:
    return damage.damage(rng, grid_preamble(rng), damage.few_points(rng))


def whole_case(rng: Random, index: int) -> bytes:
    """Document 01's whole case, and no input at all."""
    case = "0000 0000 0001 0001 0002 0001 0003 0000 F9 0001 00000005 00FC 524C5331"
    return (bytes.fromhex(case), b"")[index]
