"""What shepard look must show, from the lookups of shepard_replay."""

from __future__ import annotations

from collections.abc import Iterable, Sequence
from struct import pack
from typing import NamedTuple

import hull
from texts import counted, steps
from tool import REPLAY, proved

KINDS = ("coincident", "inverse", "tapered", "edge")
OUTSIDE = "outside: a straight line parts it from every measured point\n"


class Found(NamedTuple):
    answer: int
    radius: int
    # x, y, z, distance and kind of each chosen point.
    records: list[tuple[int, ...]]


def journal(file: bytes, locations: Iterable[tuple[int, int]]) -> bytes:
    """A load and a lookup with neighbours at each location."""
    lookups = (b"n" + pack(">III", x, y, 10) for x, y in locations)
    return b"l" + pack(">I", len(file)) + file + b"".join(lookups)


def found(reply: str, records: str) -> Found:
    answer, count, radius = map(int, reply.split()[1:])
    chosen = records.split()[1 : 1 + count]
    return Found(answer, radius, [tuple(map(int, record.split(","))) for record in chosen])


def look_up(file: bytes, locations: Sequence[tuple[int, int]]) -> list[Found]:
    """The proved program's lookups; all locations are on the domain and the survey has points."""
    first, *lines = proved(REPLAY, journal(file, locations)).decode().splitlines()
    assert first == "ok" and len(lines) == 2 * len(locations), (first, len(lines))
    return [found(reply, records) for reply, records in zip(lines[::2], lines[1::2])]


def record_line(record: Sequence[int]) -> str:
    x, y, z, distance, kind = record
    return f"{x:6}{y:6}{z:6}  {steps(distance):16}{KINDS[kind]}\n"


def shown(at: tuple[int, int], lookup: Found, points: Sequence[Sequence[int]]) -> str:
    """All lines of a lookup."""
    lines = [
        f"at ({at[0]}, {at[1]}): {16 * at[0]} cycles, {4 * at[1]} hours\n",
        f"answer {steps(lookup.answer)} steps ({lookup.answer}/256)\n",
        f"radius {steps(lookup.radius)} steps ({lookup.radius}/256)\n",
        f"by {counted(len(lookup.records), 'point')}:\n",
        "     x     y     z  distance        kind\n",
        *map(record_line, lookup.records),
    ]
    return "".join(lines) + (OUTSIDE if hull.is_outside(at, points) else "")


def expected(points: Sequence[Sequence[int]], file: bytes, locations: Sequence[tuple[int, int]]) -> list[str]:
    """What look shows at each location."""
    return [shown(at, lookup, points) for at, lookup in zip(locations, look_up(file, locations))]
