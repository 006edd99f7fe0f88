"""Makes random scripts for edit: changes, undos and writes, and lines that are refused or not understood."""

from __future__ import annotations

from collections.abc import Sequence
from random import Random

import grids
import surveys

SPACES = (" ", ",", "\t", "  ", ", ")
GARBAGE = (
    "x",
    "add",
    "add 1 2",
    "add 1 2 3 4",
    "add a 1 1",
    "add 1 1 1.5",
    "change 1 2",
    "drop",
    "drop 1 b",
    "look 5",
    "load",
    "list-all",
    "Undo",
    "add 4096 0 0",
    "add 0 0 200",
    "drop 0 99999999999999999999",
    "look 4096 0",
)


class Script:
    """A script that grows, and a guess of which points are there, so that lines meet them."""

    def __init__(self, rng: Random, points: Sequence[Sequence[int]], others: Sequence[str]) -> None:
        self.rng = rng
        self.side = rng.choice((3, 12, 4096))
        self.met = [(point[0], point[1]) for point in points]
        self.others = others
        self.lines: list[str] = []

    def location(self) -> tuple[int, int]:
        """One that was met before, or any."""
        if self.met and self.rng.randrange(2):
            return self.rng.choice(self.met)
        return self.anywhere()

    def anywhere(self) -> tuple[int, int]:
        return self.rng.randrange(self.side), self.rng.randrange(self.side)

    def line(self, name: str, *numbers: int) -> str:
        space = self.rng.choice(SPACES)
        return f"{name} " + space.join(map(str, numbers))

    def add(self) -> str:
        x, y = self.location() if self.rng.randrange(3) == 0 else self.anywhere()
        self.met.append((x, y))
        return self.line("add", x, y, self.rng.randint(-130, 129))

    def change(self) -> str:
        return self.line("change", *self.location(), self.rng.randint(-130, 129))

    def drop(self) -> str:
        return self.line("drop", *self.location())

    def look(self) -> str:
        return self.line("look", *self.location())

    def grid(self) -> str:
        maker = self.rng.choice((grids.proper_grid, grids.like_grid, grids.improper_grid))
        return "grid " + ",".join(map(str, maker(self.rng)))

    def load(self) -> str:
        return "load " + self.rng.choice(self.others)

    def write(self) -> str:
        return self.rng.choice(("write", "write", "write copy.rls"))

    def fixed(self) -> str:
        return self.rng.choice(("list", "grid", "clear", "", "# a remark", "  "))

    def garbage(self) -> str:
        return self.rng.choice(GARBAGE)

    def undo(self) -> str:
        return "undo"


KINDS = (
    *[Script.add] * 9,
    *[Script.change] * 3,
    *[Script.drop] * 4,
    *[Script.undo] * 6,
    Script.look,
    Script.grid,
    Script.load,
    Script.write,
    Script.fixed,
    Script.garbage,
)


def make(rng: Random, points: Sequence[Sequence[int]], others: Sequence[str]) -> list[str]:
    script = Script(rng, points, others)
    length = rng.choice((0, 1, 3, 10, 10, 40, 80))
    lines = [rng.choice(KINDS)(script) for _ in range(length)]
    return lines + rng.choice(([], [], ["quit"], ["write"], ["write", "quit", "clear"]))


def start(rng: Random) -> list[tuple[int, int, int]]:
    """The points of the file that is edited; at times a full survey."""
    kind = rng.choice((surveys.uniform, surveys.lattice, surveys.diagonal, surveys.crowded))
    return [tuple(point) for point in surveys.make(rng, kind)[0]]
