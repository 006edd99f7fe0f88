"""Builds tables line by line, together with what import must tell of each bad line."""

from __future__ import annotations

from collections.abc import Iterable
from random import Random

import files
from texts import REFUSALS, counted, shown

import exact_survey
from exact import Point, Refused

NEEDED = "where x, y and z are needed"
HUGE = "123456789012345678901234567890"

# A line, and why it is bad.
BAD_LINES: tuple[tuple[bytes, str], ...] = (
    (b"1", f"1 field {NEEDED}"),
    (b"word", f"1 field {NEEDED}"),
    (b"-5", f"1 field {NEEDED}"),
    (b"1,2", f"2 fields {NEEDED}"),
    (b"1;2", f"2 fields {NEEDED}"),
    (b"1\t2", f"2 fields {NEEDED}"),
    (b"1 2", f"2 fields {NEEDED}"),
    (b",", f"2 fields {NEEDED}"),
    (b"1,2,3,4", f"4 fields {NEEDED}"),
    (b"1,2,3,", f"4 fields {NEEDED}"),
    (b"1;2;3;4;5", f"5 fields {NEEDED}"),
    (b"1 2 3 4 5 6", f"6 fields {NEEDED}"),
    (b"\xff", f"1 field {NEEDED}"),
    (b"," * 200, f"201 fields {NEEDED}"),
    (b",,", "x is no whole number"),
    (b"1.5,2,3", "x is no whole number"),
    (b"one,2,3", "x is no whole number"),
    (b"one,two,three", "x is no whole number"),
    (b",2,3", "x is no whole number"),
    (b"+,2,3", "x is no whole number"),
    (b"--1,2,3", "x is no whole number"),
    (b"+-1,2,3", "x is no whole number"),
    (b"1e3,2,3", "x is no whole number"),
    (b"0x10,2,3", "x is no whole number"),
    (b"1_0,2,3", "x is no whole number"),
    (b"1 0,2,3", "x is no whole number"),
    (b"- 1,2,3", "x is no whole number"),
    (b'"",2,3', "x is no whole number"),
    ("é,2,3".encode(), "x is no whole number"),
    ("１,2,3".encode(), "x is no whole number"),
    ("١,2,3".encode(), "x is no whole number"),
    ("−1,2,3".encode(), "x is no whole number"),
    (b"\xe9,2,3", "x is no whole number"),
    (b"\xc3\x28,2,3", "x is no whole number"),
    (b"\xed\xa0\x80,2,3", "x is no whole number"),
    (b"\x00,2,3", "x is no whole number"),
    (b"x" * 300 + b",2,3", "x is no whole number"),
    (b"1,2.0,3", "y is no whole number"),
    (b"1,two,3", "y is no whole number"),
    (b"1,,3", "y is no whole number"),
    (b"1,,", "y is no whole number"),
    (b"1,\x1b[31m2,3", "y is no whole number"),
    (b"1,2\x7f,3", "y is no whole number"),
    (b"1,2\r,3", "y is no whole number"),
    (b"1;2/3;4", "y is no whole number"),
    (b"1 2- 3", "y is no whole number"),
    (b"1,2,3.5", "z is no whole number"),
    (b"1,2,", "z is no whole number"),
    (b"1,2,-", "z is no whole number"),
    (b"1,2,3z", "z is no whole number"),
    (b'1,2,"3', "z is no whole number"),
    (b"1,2,\xff3", "z is no whole number"),
    (b"1\t2\tz", "z is no whole number"),
    (b"1\t2\t", "z is no whole number"),
    (b"1\t\t3", "y is no whole number"),
    (b"1 2\t3\t4", "x is no whole number"),
    (b"1 2;3;4", "x is no whole number"),
    (b"1\t2\t\t3", f"4 fields {NEEDED}"),
    (b"\t1\t2\t3", f"4 fields {NEEDED}"),
    (b"1,2,NaN", "z is no whole number"),
    (b"4096,2,3", REFUSALS[1]),
    (b"1,4096,3", REFUSALS[1]),
    (b"-1,2,3", REFUSALS[1]),
    (b"1,-1,3", REFUSALS[1]),
    (b"4097 2 3", REFUSALS[1]),
    (b"65536,2,3", REFUSALS[1]),
    (b"1,65537,3", REFUSALS[1]),
    (b"4294967295,2,3", REFUSALS[1]),
    (b"4294967296,2,3", REFUSALS[1]),
    (b"-4294967295,2,3", REFUSALS[1]),
    (b"1,4294967297,3", REFUSALS[1]),
    (b"18446744073709551616,2,3", REFUSALS[1]),
    (b"1,340282366920938463463374607431768211456,3", REFUSALS[1]),
    (HUGE.encode() + b",2,3", REFUSALS[1]),
    (b"1,+" + HUGE.encode() + b",3", REFUSALS[1]),
    (b"-" + HUGE.encode() + b",2,3", REFUSALS[1]),
    (b"4096,2,128", REFUSALS[1]),
    (b"1,2,128", REFUSALS[2]),
    (b"1,2,-129", REFUSALS[2]),
    (b"1;2;256", REFUSALS[2]),
    (b"1,2,4294967296", REFUSALS[2]),
    (b"1,2,2147483648", REFUSALS[2]),
    (b"1,2,-2147483649", REFUSALS[2]),
    (b"1,2,18446744073709551616", REFUSALS[2]),
    (b"1,2," + HUGE.encode(), REFUSALS[2]),
    (b"1,2,-" + HUGE.encode(), REFUSALS[2]),
)


class Table:
    """A table's lines, the points of its good ones, and what is told of its bad ones."""

    def __init__(self) -> None:
        self.lines: list[bytes] = []
        self.told: list[str] = []
        self.survey = exact_survey.Survey()
        self.origin: dict[tuple[int, int], int] = {}

    def passed_over(self, line: bytes) -> None:
        """A header or a blank line."""
        self.lines.append(line)

    def bad(self, line: bytes, reason: str) -> None:
        self.lines.append(line)
        self.told.append(f"line {len(self.lines)}: {shown(line)}: {reason}\n")

    def point(self, x: int, y: int, z: int, line: bytes | None = None) -> None:
        """A line of three whole numbers: a point, or what the survey refuses."""
        line = f"{x},{y},{z}".encode() if line is None else line
        try:
            self.survey.add(x, y, z)
        except Refused as refusal:
            at = f" (line {self.origin[x, y]})" if refusal.number == 3 else ""
            self.bad(line, REFUSALS[refusal.number] + at)
        else:
            self.lines.append(line)
            self.origin[x, y] = len(self.lines)

    def points(self) -> list[Point]:
        return self.survey.points()

    def text(self, end: bytes = b"\n") -> bytes:
        return b"".join(line + end for line in self.lines)

    def messages(self, name: str, skipped: bool) -> str:
        """All that import tells, with its last line."""
        if not self.told:
            return ""
        last = "left out" if skipped else "nothing is written"
        parted = " " if skipped else ", "
        return "".join(self.told) + f"{name}: {counted(len(self.told), 'bad line')}{parted}{last}\n"

    def file(self) -> bytes:
        return files.survey(self.points())


def of_every_kind(rng: Random) -> Table:
    """Some 340 lines: a header, blank lines, 256 points, each of BAD_LINES, points twice, and points too many."""
    table = Table()
    table.passed_over(b"wear,rest,shift")
    bad, locations = list(BAD_LINES), rng.sample(range(10 * 4096, 4096 * 4096), 256)
    rng.shuffle(bad)
    for index, location in enumerate(locations):
        table.point(*divmod(location, 4096), rng.randint(-128, 127))
        if index % 3 == 0 and bad:
            table.bad(*bad.pop())
        if index % 50 == 0:
            table.passed_over(rng.choice((b"", b"  ", b" ")))
            table.point(*rng.choice(table.points())[:2], rng.randint(-128, 127))
    for line in ("4000 0 5", "0,0,5", "4096,0,5", "0,0,128"):
        x, y, z = map(int, line.replace(",", " ").split())
        table.point(x, y, z, line.encode())
    table.point(*divmod(locations[0], 4096), 7)
    return table


def spelled(rng: Random, number: int) -> str:
    """A whole number as it may stand in a table."""
    sign = rng.choice(("", "", "", "+")) if number >= 0 else "-"
    return sign + "0" * rng.choice((0, 0, 0, 1, 30)) + str(abs(number))


def spelled_line(rng: Random, numbers: Iterable[int]) -> bytes:
    """Three numbers as a line: any separator, quotes here and there, spaces around."""
    separator = rng.choice((",", ";", "\t", " ", ", ", " ;", "   "))
    words = [spelled(rng, number) for number in numbers]
    if rng.randrange(4) == 0:
        words = [f'"{word}"' if rng.randrange(2) else word for word in words]
    around = rng.choice(("", "", " ", "   "))
    return (around + separator.join(words) + around).encode()


def random_header(rng: Random, table: Table) -> bool:
    """At times a header; without one the first line must not look like it."""
    headers = (b"x,y,z", b"# a drive", b'"x";"y"', b"Zyklen\tStunden\tStufe", b"x")
    given = rng.randrange(2) == 0
    if given:
        table.passed_over(rng.choice(headers))
    return given


def random_numbers(rng: Random, side: int) -> tuple[int, int, int]:
    """A point, at times off the domain or out of range."""
    x, y, z = rng.randrange(side), rng.randrange(side), rng.randint(-128, 127)
    if rng.randrange(12):
        return x, y, z
    return rng.choice(((x + 4096, y, z), (x, -1 - y, z), (x, y, z + 256), (x, y, z - 1000)))


def random_table(rng: Random) -> Table:
    """Few or many lines, crowded enough that points meet, some of them bad."""
    table, side = Table(), rng.choice((3, 20, 4096))
    headed = random_header(rng, table)
    for index in range(rng.choice((1, 2, 5, 30, 30, 120, 400))):
        if rng.randrange(10) == 0 and (index or headed):
            table.bad(*rng.choice(BAD_LINES))
        elif rng.randrange(20) == 0:
            table.passed_over(b" " * rng.randrange(4))
        numbers = random_numbers(rng, side)
        table.point(*numbers, spelled_line(rng, numbers))
    return table
