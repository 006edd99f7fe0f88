"""Read-level maps by Shepard's interpolation: the proved library for Python 3.8 and later, standard library alone.

The library is needed as a shared object, which gcc makes from the static one:

    bash build.sh
    gcc -shared -o target/libshepard.so -Wl,--whole-archive target/staticlib/libshepard.a -Wl,--no-whole-archive
    export SHEPARD_LIBRARY=$PWD/target/libshepard.so PYTHONPATH=$PWD/python

It is looked for at the path that SHEPARD_LIBRARY names, else as libshepard.so beside this file, else by the loader.

x is the wear in steps of 16 program/erase cycles and y the rest in steps of 4 hours, both 0 to 4,095; z is the shift
in register steps, -128 to 127. Answers, cells, distances and radii count 256ths of a step.

    >>> import shepard
    >>> survey = shepard.Survey()
    >>> for x, y, z in [(100, 200, -3), (900, 250, -11), (1800, 2100, -30), (3900, 1200, -64)]:
    ...     survey.add(x, y, z)
    >>> survey.lookup(1000, 1000)
    Found(answer=-4065, count=4, radius=0)
    >>> survey.grid(shepard.Grid(x0=0, y0=0, step_x=1000, step_y=1000, columns=3, rows=1))
    [-987, -2848, -5658]
    >>> survey.add(100, 200, 0)
    Traceback (most recent call last):
    shepard.Refused: refused 3: a point is there already
"""

from __future__ import annotations

import ctypes
import functools
import operator
import os
import struct
from collections.abc import Iterable
from pathlib import Path
from typing import NamedTuple

OFF_DOMAIN = 1
OUT_OF_RANGE = 2
POINT_THERE = 3
NO_POINT_THERE = 4
FULL = 5
EMPTY = 6
GRID_RULE = 7
TOO_SHORT = 8
FILE_LENGTH = 9
FILE_MAGIC = 10
FILE_COUNT = 11
FILE_BACK = 12
FILE_SUM = 13
RECORD_DOMAIN = 14
RECORD_ORDER = 15
STEPS_DIFFER = 16

# Why a call is refused; 9 to 15 of a survey file.
TEXTS = {
    OFF_DOMAIN: "the location is off the domain",
    OUT_OF_RANGE: "the value is out of range",
    POINT_THERE: "a point is there already",
    NO_POINT_THERE: "no point is there",
    FULL: "256 points are present",
    EMPTY: "no point is present",
    GRID_RULE: "the grid breaks a rule",
    TOO_SHORT: "what is lent is too short",
    FILE_LENGTH: "it has under 12 or over 65,536 bytes",
    FILE_MAGIC: "its last four bytes are not RLS1",
    FILE_COUNT: "its count is above 256",
    FILE_BACK: "its back distance does not fit",
    FILE_SUM: "the sum of its record bytes differs",
    RECORD_DOMAIN: "a record is off the domain",
    RECORD_ORDER: "a record is not after the one before",
    STEPS_DIFFER: "the two steps of an Esri ASCII grid differ",
}

# Why a grid file is refused.
GRID_FILE_TEXTS = {
    **TEXTS,
    GRID_RULE: "its grid breaks a rule",
    FILE_LENGTH: "no grid file has its length",
    FILE_MAGIC: "its last four bytes are not RLG1",
    FILE_BACK: "its back distance or its length does not go with its six numbers",
}

KINDS = ("coincident", "inverse", "tapered", "edge")

# Bytes that are lent for a survey file, ten neighbour records, a grid file and an Esri ASCII grid: none has more.
FILE_MOST = 5 * 256 + 12
RECORDS_LENGTH = 100
GRID_FILE_MOST = 2 * 64 * 64 + 20
ESRI_MOST = 14 * 64 * 64 + 90


class Refused(Exception):
    """A call that the library refused: the method's number, and why in words."""

    def __init__(self, number: int, text: str) -> None:
        super().__init__(number, text)
        self.number = number
        self.text = text

    def __str__(self) -> str:
        return f"refused {self.number}: {self.text}"


class Point(NamedTuple):
    """A measured point."""

    x: int
    y: int
    z: int


class Found(NamedTuple):
    """What a lookup finds: the answer, the count of chosen points, and the radius R."""

    answer: int
    count: int  # type: ignore[assignment]
    radius: int


class Neighbour(NamedTuple):
    """A chosen point, its distance, and its kind, one of KINDS."""

    x: int
    y: int
    z: int
    distance: int
    kind: str


class Grid(NamedTuple):
    """A grid's six numbers: the first column and row stand at (x0, y0), the others a step apart."""

    x0: int
    y0: int
    step_x: int
    step_y: int
    columns: int
    rows: int


class GridFile(NamedTuple):
    """A grid file that was accepted: its grid, and its cells row by row, y ascending, x ascending within a row."""

    grid: Grid
    cells: list[int]


@functools.lru_cache(maxsize=None)
def _library() -> ctypes.CDLL:
    beside = Path(__file__).resolve().with_name("libshepard.so")
    path = os.environ.get("SHEPARD_LIBRARY") or (str(beside) if beside.exists() else "libshepard.so")
    try:
        return ctypes.CDLL(path)
    except OSError as error:
        raise OSError(f"no library, the head of shepard.py says how it is made: {error}") from None


def _call(name: str, *arguments: object, texts: dict[int, str] = TEXTS) -> None:
    function = getattr(_library(), name)
    function.restype = ctypes.c_uint8
    number = function(*arguments)
    if number:
        raise Refused(number, texts.get(number, "no such refusal"))


def _written(most: int, name: str, *arguments: object) -> bytes:
    """What a call writes to the front of the bytes that it is lent."""
    out = ctypes.create_string_buffer(most)
    length = ctypes.c_size_t()
    _call(name, *arguments, out, ctypes.c_size_t(most), ctypes.byref(length))
    return out.raw[: length.value]


def _handed(file: bytes) -> tuple[bytes, ctypes.c_size_t]:
    file = bytes(memoryview(file))
    return file, ctypes.c_size_t(len(file))


def _coordinate(number: int, most: int = 2**32 - 1) -> int:
    """The number, or where it does not fit the greatest that does, which is off the domain as well."""
    number = operator.index(number)
    return number if 0 <= number <= most else most


def _location(x: int, y: int) -> tuple[ctypes.c_uint32, ctypes.c_uint32]:
    return ctypes.c_uint32(_coordinate(x)), ctypes.c_uint32(_coordinate(y))


def _value(z: int) -> ctypes.c_int32:
    """The value, or where it does not fit the nearest that does, which is out of range as well."""
    return ctypes.c_int32(min(max(operator.index(z), -(2**31)), 2**31 - 1))


def _six(grid: Grid) -> list[ctypes.c_uint16]:
    for number in grid:
        if not 0 <= operator.index(number) < 2**16:
            raise ValueError(f"a grid's numbers are 0 to 65535, and {number} is not")
    return [ctypes.c_uint16(number) for number in grid]


class Survey:
    """At most 256 points, as the bytes of their survey file."""

    def __init__(self) -> None:
        self._file = _written(FILE_MOST, "shepard_fresh")

    @classmethod
    def from_file(cls, file: bytes) -> Survey:
        """The survey of a file's bytes. Refused with 9 to 15."""
        survey = cls()
        survey._file = _written(FILE_MOST, "shepard_rewrite", *_handed(file))
        return survey

    def as_file(self) -> bytes:
        """The survey file's bytes, with no preamble."""
        return self._file

    def __len__(self) -> int:
        count = ctypes.c_size_t()
        _call("shepard_check", *_handed(self._file), ctypes.byref(count))
        return count.value

    def points(self) -> list[Point]:
        """The points, ascending by x, then y."""
        return [Point(*record) for record in struct.iter_unpack(">HHb", self._file[: 5 * len(self)])]

    def add(self, x: int, y: int, z: int) -> None:
        """A new point. Refused with 1, 2, 3, 5."""
        self._file = _written(FILE_MOST, "shepard_add", *_handed(self._file), *_location(x, y), _value(z))

    def change(self, x: int, y: int, z: int) -> None:
        """Another value at a location. Refused with 1, 2, 4."""
        self._file = _written(FILE_MOST, "shepard_change", *_handed(self._file), *_location(x, y), _value(z))

    def drop(self, x: int, y: int) -> None:
        """A point taken out. Refused with 1, 4."""
        self._file = _written(FILE_MOST, "shepard_drop", *_handed(self._file), *_location(x, y))

    def clear(self) -> None:
        """All points taken out."""
        self._file = _written(FILE_MOST, "shepard_fresh")

    def lookup(self, x: int, y: int) -> Found:
        """The interpolated value at a location. Refused with 1, 6."""
        return self._found("shepard_lookup", x, y)

    def lookup_neighbours(self, x: int, y: int) -> tuple[Found, list[Neighbour]]:
        """The same, with the chosen points in order of choice. Refused with 1, 6."""
        records = ctypes.create_string_buffer(RECORDS_LENGTH)
        found = self._found("shepard_lookup_neighbours", x, y, records, ctypes.c_size_t(RECORDS_LENGTH))
        chosen = struct.iter_unpack(">HHbIB", records.raw[: 10 * found.count])
        return found, [Neighbour(x, y, z, distance, KINDS[kind]) for x, y, z, distance, kind in chosen]

    def _found(self, name: str, x: int, y: int, *lent: object) -> Found:
        answer, count, radius = ctypes.c_int16(), ctypes.c_size_t(), ctypes.c_uint32()
        results = (ctypes.byref(number) for number in (answer, count, radius))
        _call(name, *_handed(self._file), *_location(x, y), *lent, *results)
        return Found(answer.value, count.value, radius.value)

    def lookup_many(self, locations: Iterable[tuple[int, int]]) -> list[Found]:
        """Lookups at many locations, the file read once. Refused with 1, 6, as the first that is refused."""
        most = 2**16 - 1
        packed = b"".join(struct.pack(">HH", _coordinate(x, most), _coordinate(y, most)) for x, y in locations)
        out = ctypes.create_string_buffer(2 * len(packed) + 1)
        _call("shepard_lookup_many", *_handed(self._file), *_handed(packed), out, ctypes.c_size_t(2 * len(packed)))
        return [Found(*record) for record in struct.iter_unpack(">hHI", out.raw[: 2 * len(packed)])]

    def grid_file(self, grid: Grid) -> bytes:
        """The grid file's bytes. Refused with 7, 6."""
        return _written(GRID_FILE_MOST, "shepard_grid_file", *_handed(self._file), *_six(grid))

    def grid(self, grid: Grid) -> list[int]:
        """The grid's cells, row by row, y ascending, x ascending within a row. Refused with 7, 6."""
        return read_grid_file(self.grid_file(grid)).cells

    def esri(self, grid: Grid) -> str:
        """The Esri ASCII grid. Refused with 7, 16, 6."""
        return _written(ESRI_MOST, "shepard_esri", *_handed(self._file), *_six(grid)).decode("ascii")


def read_grid_file(file: bytes) -> GridFile:
    """The grid and the cells of a grid file's bytes. Refused with 9, 10, 7, 12."""
    six = [ctypes.c_uint16() for _ in Grid._fields]
    _call("shepard_grid_check", *_handed(file), *map(ctypes.byref, six), texts=GRID_FILE_TEXTS)
    grid = Grid(*(number.value for number in six))
    cells = (ctypes.c_int16 * (grid.columns * grid.rows))()
    count = ctypes.c_size_t()
    lent = (cells, ctypes.c_size_t(len(cells)), ctypes.byref(count))
    _call("shepard_grid_cells", *_handed(file), *lent, texts=GRID_FILE_TEXTS)
    return GridFile(grid, list(cells[: count.value]))
