"""The journal of shepard_replay's stored test: every call, every refusal, a bad end.

    python3 tests/stored_journal.py > crates/shepard_replay/stdin

What the program must write to it is kept in crates/shepard_replay/stdout; test_stored.py holds both
files to this list and to the exact-fraction program.
"""

from __future__ import annotations

import sys

import damage
import journals
import protocol
from protocol import Call
from random_calls import with_ends

GRID = (0, 0, 1, 1, 2, 1)
IMPROPER = (0, 0, 0, 1, 2, 1)
PAIR = damage.records_of([(3, 0, 0), (6, 0, 90)])
# A curve: many of the points are corners of the polygon.
FULL = [(16 * i, i * i // 16, i - 128) for i in range(256)]
FIVE = ((95, 100, 0), (100, 95, 0), (100, 105, 0), (103, 104, 98), (105, 100, 0))
SQUARE = ((0, 0, 0), (0, 40, 0), (40, 0, 0), (40, 40, 0))
# At the same distance from the square's centre.
IN_SQUARE = ((10, 20, 1), (20, 10, 2), (20, 30, 3), (28, 26, 50), (30, 20, 4))
# The four that are chosen at (200, 200), and one that is as far off as the last two.
AT_MIDPOINT = ((199, 200, 0), (200, 155, 5), (200, 245, 5), (215, 200, 4))
FAR_OFF = (227, 236)
# The last add lacks a byte.
BAD_END = protocol.encode(Call("a", (1, 1, 1)))[:-1]


def calls_of(letter: str, *arguments: tuple[int, ...]) -> list[Call]:
    return [Call(letter, numbers) for numbers in arguments]


def loads(*files: bytes) -> list[Call]:
    return [protocol.load(file) for file in files]


def full_file() -> bytes:
    return damage.assemble(b"", damage.records_of(FULL))


def on_none() -> list[Call]:
    """No point is present."""
    calls = calls_of("q", (0, 0), (4096, 0))
    calls += calls_of("n", (0, 0, 10), (0, 0, 0), (0, 4096, 2))
    calls += calls_of("w", (12,), (11,), (0,), (14,))
    calls += [Call("d", (1, 1)), Call("c", (1, 1, 1)), Call("k")]
    return calls + calls_of("g", (*GRID, 3), (*GRID, 0)) + calls_of("f", (*GRID, 5), (*GRID, 0))


def on_two() -> list[Call]:
    """Two points; refusals 1 to 4, at the limits of locations and values; lent bytes."""
    calls = calls_of("a", (3, 0, 0), (6, 0, 90)) + [Call("q", (0, 0))]
    calls += calls_of("n", (0, 0, 10), (0, 0, 12), (0, 0, 9), (0, 0, 0), (3, 0, 10))
    calls += [Call("q", (6, 0)), Call("a", (3, 0, 5))]
    calls += calls_of("a", (4096, 0, 0), (0, 4096, 0), (2**32 - 1, 0, 200))
    calls += [Call("a", (9, 9, z)) for z in (128, -129, 2**31 - 1, -(2**31))]
    calls += calls_of("a", (4095, 4095, 127), (0, 4095, -128))
    calls += calls_of("c", (4095, 4095, -1), (4095, 4094, -1), (4096, 0, 128), (3, 0, 128))
    calls += calls_of("d", (4095, 4095), (4095, 4095), (0, 65_536), (0, 4095))
    return calls + [Call("q", (2**32 - 1, 1))] + calls_of("w", (22,), (21,), (25,), (0,))


def files() -> list[Call]:
    """Accepted files, and refusals 9 to 15."""
    sound, beside = damage.assemble(b"", PAIR), damage.records_of([(5, 4095, 0), (5, 4096, 0)])
    descending = [*damage.records_of([(6, 0, 1)]), *damage.records_of([(3, 0, 1)])]
    calls = loads(sound, damage.assemble(b"notes", PAIR)) + [Call("q", (0, 0))]
    calls += loads(b"", bytes(11), bytes(12))
    calls += loads(damage.assemble(b"", [], count=257), damage.assemble(b"", [], count=1))
    calls += loads(damage.assemble(b"", PAIR, count=3, back=15))
    calls += loads(damage.assemble(b"", PAIR, total=sum(b"".join(PAIR)) + 1))
    calls += loads(damage.assemble(b"", damage.records_of([(4096, 0, 0)])))
    calls += loads(damage.assemble(b"", beside), damage.assemble(b"", descending))
    calls += loads(damage.assemble(b"", damage.records_of([(3, 0, 1), (3, 0, 2)])))
    calls += [Call("w", (22,)), *loads(damage.assemble(b"", [])), Call("q", (1, 1))]
    return calls + [Call("w", (12,))]


def on_full() -> list[Call]:
    """256 points: 5, and room again after a drop."""
    calls = loads(full_file()) + [Call("a", (1, 1, 1)), Call("d", FULL[1][:2])]
    calls += calls_of("a", (1, 1, 1), (2, 1, 1)) + calls_of("q", (1, 1), (2000, 2000))
    calls += calls_of("n", (2000, 2000, 10), (2000, 1000, 10), (4095, 0, 32))
    return calls + [Call("k"), Call("q", (1, 1))]


def rows() -> list[Call]:
    """The rows of five and of twelve points, all neighbours at the edge."""
    twelve = journals.EXAMPLES[-1][0]
    calls = calls_of("a", *FIVE) + [Call("n", (100, 100, 11)), Call("k")]
    return calls + calls_of("a", *twelve) + [Call("n", (100, 100, 10)), Call("q", (0, 0))]


def within_radius() -> list[Call]:
    """Five points within R0, all tapered; then ten, and eleven."""
    calls = [Call("k"), *calls_of("a", *SQUARE, *IN_SQUARE), Call("n", (20, 20, 10)), Call("k")]
    calls += calls_of("a", (1000, 1000, 100), *((x, 0, x) for x in range(1, 11)))
    return calls + [Call("n", (0, 0, 10)), Call("a", (11, 0, 11)), Call("n", (0, 0, 10))]


def grids() -> list[Call]:
    """7, 8, the tail of longer lists, and document 01's whole case."""
    calls = [Call("k"), Call("g", (0, 0, 0, 1, 2, 1, 2)), Call("a", (3, 0, -7))]
    calls += calls_of("g", (*GRID, 2), (*GRID, 1), (*GRID, 4))
    calls += calls_of("f", (*GRID, 24), (*GRID, 23), (*GRID, 27))
    calls += calls_of("g", (0, 0, 1, 1, 65, 1, 3), (4095, 0, 1, 1, 2, 1, 0))
    calls += calls_of("f", (0, 4096, 1, 1, 1, 1, 3), (*[65_535] * 6, 0))
    return calls + calls_of("g", (4094, 4095, 1, 9, 2, 1, 2))


def esri_texts() -> list[Call]:
    """7, 16, 6 and 8 in this order, the tail of longer bytes; signs, 0, the highest y first."""
    unlike = (0, 0, 1, 2, 1, 1)
    calls = [Call("k"), *calls_of("p", (*IMPROPER, 3), (*unlike, 3), (*GRID, 3), (*GRID, 0))]
    calls += [Call("a", (3, 0, -7))]
    calls += calls_of("p", (*GRID, 94), (*GRID, 93), (*GRID, 97), (*GRID, 0))
    calls += calls_of("p", (*IMPROPER, 2), (*unlike, 2), (4095, 0, 1, 2, 2, 1, 2))
    calls += calls_of("p", (4095, 4095, 65_535, 65_535, 1, 1, 92), (0, 0, 1, 65_535, 1, 1, 92))
    calls += [Call("k"), *calls_of("a", (0, 0, 0), (10, 0, -1), (0, 10, 127), (10, 10, -128))]
    calls += calls_of("p", (0, 0, 10, 10, 2, 2, 122), (0, 0, 5, 5, 3, 3, 200))
    calls += [Call("k"), *calls_of("a", (1, 0, 0), (16, 0, -1)), Call("p", (*GRID, 93))]
    return calls + [Call("w", (22,))]


def ends() -> list[Call]:
    """The ends after each call: of none to four points, of refused calls, of all that alter."""
    calls = [Call("k"), *calls_of("a", (0, 0, 5), (4095, 4095, -128), (0, 4095, 127), (4095, 0, 1))]
    calls += [Call("a", (4096, 0, 0)), Call("a", (5, 5, 128)), Call("a", (0, 0, -9))]
    calls += calls_of("c", (4095, 4095, 6), (0, 4095, 2), (0, 4096, 0), (0, 0, -129), (9, 9, -9))
    calls += calls_of("d", (4096, 0), (0, 4095), (0, 4095), (4095, 4095), (4095, 0), (0, 0))
    calls += loads(full_file(), bytes(12), b"")
    calls += calls_of("a", (1, 1, 1), FULL[1]) + calls_of("d", FULL[-1][:2], FULL[0][:2])
    calls += loads(damage.assemble(b"", PAIR), damage.assemble(b"", [], count=257))
    return with_ends(calls + [Call("q", (6, 0)), Call("k"), *loads(damage.assemble(b"", []))])


def polygon() -> list[Call]:
    """The ends of one line, of an odd area, and while corners come and go."""
    calls = [Call("k"), *calls_of("a", (10, 10, 1), (13, 12, 2), (19, 16, 3), (17, 15, 4))]
    calls += [Call("k"), *calls_of("a", (3, 0, 9), (3, 1, 7), (4, 0, 8)), Call("k")]
    calls += calls_of("a", (0, 0, 1), (12, 0, 2), (0, 12, 3), (3, 3, 4), (6, 6, 5), (0, 13, 6))
    calls += [Call("a", (4095, 4095, 7)), Call("c", (3, 3, -9))]
    calls += calls_of("d", (4095, 4095), (0, 12), (0, 0), (12, 0))
    return with_ends(calls)


def far_off() -> list[Call]:
    """A mean at a midpoint, and a value that has no say there."""
    asked = [Call("n", (200, 200, 10)), Call("g", (200, 200, 1, 1, 1, 1, 1)), Call("q", FAR_OFF)]
    calls = [Call("k"), *calls_of("a", *AT_MIDPOINT, (*FAR_OFF, 5)), *asked]
    return [*calls, Call("c", (*FAR_OFF, -126)), *asked]


def fill(*lents: int) -> list[Call]:
    """Rows, each lent so many cells."""
    return [Call("r", (lent,)) for lent in lents]


def begins() -> list[Call]:
    """17 with none begun and after the last row; 7, 6; 8, and the row is still the next."""
    calls = [Call("k"), *fill(0, 2), *calls_of("b", IMPROPER, GRID), *fill(2)]
    calls += [Call("a", (3, 0, -7)), *fill(2), Call("b", GRID), *fill(1, 0, 4, 2, 0)]
    calls += [*calls_of("b", IMPROPER, (0, 0, 1, 1, 2, 65)), *fill(2), Call("b", GRID), *fill(2, 2)]
    return [*calls, Call("k"), Call("b", GRID), *fill(2)]


def edits_between_rows() -> list[Call]:
    """Every edit, accepted and refused, and every question; begins that are refused."""
    six = (0, 0, 3, 1, 3, 6)
    calls = [Call("k"), *calls_of("a", (3, 0, 0), (6, 0, 90)), Call("g", (*six, 18))]
    calls += [Call("b", six), *calls_of("c", (6, 0, -90), (9, 9, 1)), *fill(3), Call("b", IMPROPER)]
    calls += [*calls_of("a", (0, 1, 127), (0, 1, 5), (4096, 0, 1)), *fill(2, 5), Call("q", (0, 1))]
    calls += [*calls_of("d", (3, 0), (3, 0)), *fill(3)]
    calls += [Call("k"), Call("b", GRID), Call("e"), *fill(3)]
    calls += [*loads(damage.assemble(b"", PAIR), bytes(12)), Call("g", (*GRID, 2)), *fill(0, 3)]
    calls += [Call("n", (0, 0, 10)), Call("f", (*GRID, 24)), Call("p", (*GRID, 97))]
    return [*calls, Call("w", (22,)), *fill(3, 3)]


def begun_anew() -> list[Call]:
    """In the middle, with the same six numbers and with others; of the survey as it then is."""
    six, within = (0, 0, 3, 3, 3, 2), (3, 0, 3, 3, 1, 3)
    calls = [Call("k"), *calls_of("a", (0, 0, 0), (9, 0, 90)), Call("b", six), *fill(3)]
    calls += [Call("c", (0, 0, 9)), Call("b", six), *fill(3), Call("b", within), *fill(1, 1)]
    return [*calls, Call("d", (9, 0)), Call("b", six), Call("d", (0, 0)), *fill(3, 3, 3)]


def full_rows() -> list[Call]:
    """64 columns of 256 points; R0 is that of the begin, not of the file that comes then."""
    calls = [*loads(full_file()), Call("b", (500, 3, 3, 16, 64, 64)), *fill(63, 64)]
    calls += [Call("a", (1, 1, 1)), Call("d", FULL[255][:2]), Call("a", (1, 1, 1))]
    return [*calls, *loads(damage.assemble(b"", PAIR)), *fill(65), Call("e")]


def make() -> journals.Journal:
    calls = [Call("e")] + on_none() + on_two() + files() + on_full() + rows() + within_radius()
    calls += grids() + esri_texts() + ends() + polygon() + far_off()
    calls += begins() + edits_between_rows() + begun_anew() + full_rows()
    return journals.Journal("stored", calls, BAD_END)


if __name__ == "__main__":
    sys.stdout.buffer.write(journals.encode(make()))
