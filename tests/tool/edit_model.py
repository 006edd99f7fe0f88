"""What edit must do and say, line by line, as a dictionary of points and a list of what stood before each change."""

from __future__ import annotations

import re
from collections.abc import Callable, Sequence
from struct import unpack

import files
import lookups
from texts import BROKEN_FRONT, GRID_RULES, refused, shown, survey_of
from tool import grid_file

import exact_files
import exact_survey
from exact import Refused

FEWER_THAN_TWELVE = "refused 7: fewer than 12 bytes stand before its first record"
NEEDS = {"add": "X Y Z", "change": "X Y Z", "drop": "X Y", "look": "X Y", "load": "PATH"}

# The points and what stands before the records.
State = tuple[dict[tuple[int, int], int], bytes]


class NotDone(Exception):
    """Why a line is not done, and the status that comes of it."""

    def __init__(self, why: str, status: int = 1) -> None:
        super().__init__(why)
        self.why = why
        self.status = status


def numbers_of(words: Sequence[str]) -> list[int]:
    for word in words:
        if not re.fullmatch("[+-]?[0-9]+", word):
            raise NotDone(f"'{word}' is no whole number")
    return [int(word) for word in words]


class Editor:
    """A survey file under edit, in a script; `disk` is all the files that there are."""

    def __init__(self, name: str, disk: dict[str, bytes]) -> None:
        self.name = name
        self.disk = dict(disk)
        self.output: list[str] = []
        self.errors: list[str] = []
        self.status = 0
        self.changes = 0
        self.history: list[tuple[int, State]] = []
        self.written_history: list[int] = []
        self.state = self.read()
        self.written = self.file()

    def read(self) -> State:
        if self.name not in self.disk:
            self.errors.append(f"{self.name}: a new survey\n")
            return {}, b""
        data = self.disk[self.name]
        points = exact_files.read_survey_file(data)
        return {(x, y): z for x, y, z in points}, data[: len(data) - 12 - 5 * len(points)]

    def points(self) -> list[tuple[int, int, int]]:
        return sorted((x, y, z) for (x, y), z in self.state[0].items())

    def file(self) -> bytes:
        return files.survey(self.points(), (), self.state[1])

    def own_grid(self) -> tuple[int, ...] | None:
        """The six numbers that the file begins with, where they keep the rules."""
        before = self.state[1]
        numbers = unpack(">6H", before[:12]) if len(before) >= 12 else ()
        return numbers if numbers and files.is_proper(numbers) else None

    def change_to(self, values: dict[tuple[int, int], int], before: bytes) -> None:
        self.changes += 1
        self.history.append((self.changes, self.state))
        self.state = values, before
        self.output.append("ok\n")

    def call(self, name: str, numbers: Sequence[int]) -> None:
        survey = exact_survey.Survey()
        survey.replace(self.points())
        try:
            getattr(survey, name)(*numbers)
        except Refused as refusal:
            raise NotDone(refused(refusal.number)) from None
        self.change_to(dict(survey.values), self.state[1])

    def do_add(self, words: list[str]) -> None:
        self.call("add", numbers_of(words))

    def do_change(self, words: list[str]) -> None:
        self.call("change", numbers_of(words))

    def do_drop(self, words: list[str]) -> None:
        self.call("drop", numbers_of(words))

    def do_clear(self, words: list[str]) -> None:
        self.change_to({}, self.state[1])

    def do_load(self, words: list[str]) -> None:
        path = " ".join(words)
        if path not in self.disk:
            raise NotDone(f"{path}: No such file or directory (os error 2)", 2)
        try:
            points = exact_files.read_survey_file(self.disk[path])
        except Refused as refusal:
            raise NotDone(f"{path}: {refused(refusal.number)}") from None
        self.change_to({(x, y): z for x, y, z in points}, self.state[1])

    def do_grid(self, words: list[str]) -> None:
        if not words:
            self.output.append(self.cells())
            return
        numbers = numbers_of(words)
        if not files.is_proper(numbers):
            raise NotDone(f"refused 7: {GRID_RULES}")
        kept = self.state[1][12 if self.own_grid() else 0 :]
        self.change_to(self.state[0], b"".join(number.to_bytes(2, "big") for number in numbers) + kept)

    def do_undo(self, words: list[str]) -> None:
        if not self.history:
            raise NotDone("nothing to undo")
        _, self.state = self.history.pop()
        self.output.append("ok\n")

    def cells(self) -> str:
        if len(self.state[1]) < 12:
            raise NotDone(FEWER_THAN_TWELVE)
        grid = self.own_grid()
        if grid is None:
            raise NotDone(f"refused 7: {BROKEN_FRONT.replace('--grid', 'grid')}")
        if not self.state[0]:
            raise NotDone(refused(6))
        return files.csv_of(grid_file(grid, self.file()))

    def do_look(self, words: list[str]) -> None:
        x, y = numbers_of(words)
        if not (0 <= x <= 4095 and 0 <= y <= 4095):
            raise NotDone(refused(1))
        if not self.state[0]:
            raise NotDone(refused(6))
        self.output += lookups.expected(self.points(), self.file(), [(x, y)])

    def do_list(self, words: list[str]) -> None:
        self.output.append(files.table(self.points()))

    def do_write(self, words: list[str]) -> None:
        path = " ".join(words) or self.name
        self.disk[path] = self.file()
        self.output.append(f"{path}: {survey_of(len(self.state[0]))}\n")
        if path == self.name:
            self.written = self.file()
            self.written_history = [change for change, _ in self.history]

    def perform(self, line: str) -> None:
        name, *words = line.replace(",", " ").split()
        does: Callable[[list[str]], None] | None = getattr(self, "do_" + name, None)
        if does is None:
            raise NotDone(f"no command '{name}'")
        if name in NEEDS and len(words) != len(NEEDS[name].split()):
            raise NotDone(f"{name} needs {NEEDS[name]}")
        does(words)

    def unwritten(self) -> int:
        """How many changes would have to be undone or done to be back at what was written."""
        if self.file() == self.written:
            return 0
        now = [change for change, _ in self.history]
        common = 0
        while now[common : common + 1] == self.written_history[common : common + 1] != []:
            common += 1
        return max(1, len(now) + len(self.written_history) - 2 * common)

    def run(self, lines: Sequence[str]) -> None:
        """All lines up to a quit, and the end."""
        for number, line in enumerate(lines, 1):
            if line.strip() == "quit":
                break
            if not line.strip() or line.startswith("#"):
                continue
            try:
                self.perform(line)
            except NotDone as reason:
                self.errors.append(f"line {number}: {shown(line.encode())}: {reason.why}\n")
                self.status = max(self.status, reason.status)
        left = self.unwritten()
        if left:
            verb = "change is" if left == 1 else "changes are"
            self.errors.append(f"{self.name}: {left} {verb} not written\n")
            self.status = max(self.status, 1)
