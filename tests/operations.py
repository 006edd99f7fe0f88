"""The calls of a shepard_replay journal, a row for each: all that is told of a call by its letter.

A further call is a row here, a method of the exact survey that bears its name, and a row of
mixed_calls.GENERATORS, which test_operations.py asks for; rows of vectors.txt and a place in the
stored journal, which test_vectors.py and test_stored.py ask for; then faults of its own.
"""

from __future__ import annotations

from collections.abc import Callable
from struct import calcsize
from typing import NamedTuple

from exact_files import Grid
from outcomes import Unit


class Field(NamedTuple):
    """An argument: its numbers, each of a struct code's width and sign, and what they make."""

    name: str
    code: str
    count: int = 1
    make: Callable[..., object] = int


X, Y, Z = Field("x", "I"), Field("y", "I"), Field("z", "i")
SIX = Field("grid", "H", 6, Grid)


class Lent(NamedTuple):
    """What a call is lent: the word that opens its line, the most of it, one untouched unit."""

    word: str
    most: int
    untouched: Unit


BYTES = Lent("bytes", 65_536, b"\xa5")
RECORDS = Lent("records", 32, (165, 165, -91, 165, 165))
CELLS = Lent("values", 8_192, -23131)


class Operation(NamedTuple):
    """A call; `counted` is the name under which its accepted calls are counted, if they are.

    What a call fills is bytes, cells or records; of bytes, `text` tells that they are lines.
    An accepted call `alters` the points present, or `fills`: it alters the grid being filled.
    """

    letter: str
    name: str
    fields: tuple[Field, ...]
    reply: str
    lent: Lent | None = None
    alters: bool = False
    fills: bool = False
    file: bool = False
    text: bool = False
    counted: str = ""

    @property
    def method(self) -> str:
        """The exact survey's method for it."""
        return self.name.replace(" ", "_")

    @property
    def followed(self) -> bool:
        """Whether what later calls give can hang on it; all other calls only ask."""
        return self.alters or self.fills

    @property
    def layout(self) -> str:
        """All its numbers, high byte first; last how many bytes follow or how much is lent."""
        codes = "".join(field.code * field.count for field in self.fields)
        return ">" + codes + ("I" if self.file or self.lent else "")

    @property
    def length(self) -> int:
        """The bytes of its numbers."""
        return calcsize(self.layout)


TABLE = (
    Operation("a", "add", (X, Y, Z), "ok", alters=True),
    Operation("c", "change", (X, Y, Z), "ok", alters=True),
    Operation("d", "drop", (X, Y), "ok", alters=True),
    Operation("k", "clear", (), "ok", alters=True),
    Operation("l", "load", (), "ok", alters=True, file=True),
    Operation("w", "write", (), "wrote", BYTES),
    Operation("q", "lookup", (X, Y), "found", counted="lookups"),
    Operation("n", "lookup with neighbours", (X, Y), "found", RECORDS, counted="lookups"),
    Operation("g", "grid", (SIX,), "cells", CELLS, counted="grids"),
    Operation("f", "grid file", (SIX,), "wrote", BYTES, counted="grid files"),
    Operation("e", "read ends", (), "ends", counted="ends"),
    Operation("p", "esri text", (SIX,), "wrote", BYTES, text=True, counted="esri texts"),
    Operation("b", "begin grid", (SIX,), "ok", fills=True, counted="begins"),
    Operation("r", "next row", (), "row", CELLS, fills=True, counted="rows"),
)
BY_LETTER = {operation.letter: operation for operation in TABLE}
