"""Counts how many operations of each kind a lookup takes, by running the proved program, for whoever has another processor than x86.

    python3 bench/operations.py [POINTS]    POINTS: of each survey, 200 if left out

program.py prints the program, and mir.py runs it. Each operation counts in one line alone, and as one, whatever its width; copies, addresses of
locals, and jumps without a condition do not count. A compiler makes fewer: it takes in most calls and much of the index arithmetic, and may work out
several numbers at a time. Each answer is held to the exact-fraction program of tests/, and one that differs ends this with status 1.
"""

from __future__ import annotations

import subprocess
import sys
from collections import Counter
from collections.abc import Iterator, Sequence
from pathlib import Path
from random import Random
from typing import NamedTuple

import mir

ROOT = Path(__file__).parent.parent
sys.path.append(str(ROOT / "tests"))

import exact  # noqa: E402
import exact_files  # noqa: E402
import metric  # noqa: E402

POINTS = 200
SURVEYS, LOOKUPS_OF_EACH = 4, 8
ROOTS, DISTANCE = "root::distances", "root::distance_of"

PRODUCTS_BY_POWERS = "products by a literal power of two"
DIVISIONS_BY_POWERS = "divisions and remainders by a literal power of two"
INDEX = "index arithmetic"
READS, WRITES, BRANCHES, CALLS = "reads from arrays", "writes to arrays", "branches", "calls"
DISTANCES = "D's worked out"

# The lines of the table, each with the operations that it counts by their names alone.
LINES: dict[str, tuple[str, ...]] = {
    "products of whole numbers": ("mul",),
    PRODUCTS_BY_POWERS: (),
    "divisions and remainders of whole numbers": ("div", "rem"),
    DIVISIONS_BY_POWERS: (),
    "shifts": ("shl", "shr"),
    "additions and subtractions": ("add", "sub"),
    "comparisons of whole numbers": ("lt", "le", "eq", "ne"),
    "and, or, not": ("and", "or", "xor", "not"),
    "changes of width or sign": ("cast",),
    "float additions and subtractions": ("floatAdd", "floatSub"),
    "float products": ("floatMul",),
    "float divisions": ("floatDiv",),
    "float comparisons": ("floatEq", "floatNe", "floatLt", "floatLe"),
    "conversions between floats and whole numbers": ("intToFloat", "floatToInt", "floatToBits"),
    READS: (),
    WRITES: (),
    INDEX: ("offset",),
    BRANCHES: (),
    CALLS: (),
    DISTANCES: (),
}
LINE_OF = {name: line for line, names in LINES.items() for name in names}
MOVES = ("copy", "aggregate", "repeat")


class Wrong(Exception):
    """Why there is nothing to count by."""


class Found(NamedTuple):
    """What a lookup gives."""

    answer: int
    count: int
    radius: int


class Counts(NamedTuple):
    """How many of each line a lookup takes, and how many of these inside the roots."""

    lookup: Counter[str]
    roots: Counter[str]


# What a statement counts as.


def is_power(operand: mir.Operand) -> bool:
    """Whether it is a literal power of two."""
    return isinstance(operand, mir.Literal) and isinstance(operand.number, int) and operand.number.bit_count() == 1


def line_of(operation: mir.Assign) -> str:
    if operation.name == "mul" and any(map(is_power, operation.operands)):
        return PRODUCTS_BY_POWERS
    if operation.name in ("div", "rem") and is_power(operation.operands[1]):
        return DIVISIONS_BY_POWERS
    return LINE_OF[operation.name]


def index_products(body: mir.Body) -> Iterator[int]:
    """The numbers of the products, in a sequence of statements, of an index by the size of an element: by a literal, for an `offset` to take."""
    made: dict[int, mir.Statement] = {}
    for statement in body:
        if isinstance(statement, mir.Assign) and statement.name == "offset":
            taken = statement.operands[1]
            product = made.get(taken.place.start) if isinstance(taken, mir.Copy) else None
            if isinstance(product, mir.Assign) and product.name == "mul" and isinstance(product.operands[1], mir.Literal):
                yield product.number
        if statement.bodies:
            made.clear()
        elif statement.place is not None and not statement.place.hops:
            made[statement.place.start] = statement


def lines_of(statement: mir.Statement) -> Iterator[str]:
    """What a statement counts as, where it is no product of an index."""
    yield from (READS for operand in statement.operands if isinstance(operand, mir.Copy) and operand.place.hops)
    if statement.place is not None and statement.place.hops:
        yield WRITES
    if isinstance(statement, mir.If | mir.Switch):
        yield BRANCHES
    if isinstance(statement, mir.Call):
        yield from [CALLS, DISTANCES] if statement.name == DISTANCE else [CALLS]
    if isinstance(statement, mir.Assign) and statement.name not in MOVES:
        yield line_of(statement)


def lines_by_number(program: mir.Program) -> list[list[str]]:
    """What each statement counts as."""
    lines: list[list[str]] = [[] for _ in range(program.statements)]
    for function in program.functions.values():
        for body in mir.sequences(function.body):
            of_index = set(index_products(body))
            for statement in body:
                lines[statement.number] = [INDEX] if statement.number in of_index else list(lines_of(statement))
    return lines


# Counting.


class Meter(mir.Machine):
    """Has in `inside` how often each statement was run inside the roots."""

    def __init__(self, program: mir.Program) -> None:
        super().__init__(program)
        self.lines = lines_by_number(program)
        self.inside = self.times.copy()

    def call(self, name: str, arguments: Sequence[mir.Value]) -> mir.Value:
        before = self.times.copy() if name == ROOTS else self.times
        result = super().call(name, arguments)
        if name == ROOTS:
            self.inside = [inside + after - earlier for inside, after, earlier in zip(self.inside, self.times, before)]
        return result

    def restart(self) -> None:
        self.times = [0] * len(self.times)
        self.inside = self.times.copy()

    def tally(self, times: Sequence[int]) -> Counter[str]:
        """How many of each line these are."""
        tally: Counter[str] = Counter()
        for lines, number in zip(self.lines, times):
            tally.update({line: number * lines.count(line) for line in lines})
        return tally

    def counts(self) -> Counts:
        return Counts(self.tally(self.times), self.tally(self.inside))

    def parts(self, name: str, arguments: Sequence[mir.Value]) -> list[mir.Value]:
        """The parts of what a call gives."""
        result = self.call(name, arguments)
        assert isinstance(result, bytes)
        return self.functions[name].result.values(result)


def load(meter: Meter, points: Sequence[exact.Point]) -> mir.Value:
    """The survey that the library makes of a survey file."""
    file = meter.lend(exact_files.survey_file(points))
    refusal, survey = meter.parts("survey::load", (meter.call("survey::fresh", ()), file))
    if refusal:
        raise Wrong(f"a survey file of {len(points)} points: refused {refusal}")
    return survey


def look_up(meter: Meter, survey: mir.Value, at: metric.Location) -> Found:
    tag, *numbers = (int(part) for part in meter.parts("survey::lookup", (survey, *at)))
    if tag:
        raise Wrong(f"a lookup at {at}: refused {numbers[0]}")
    answer, count, radius = numbers
    return Found(mir.signed(answer, 16), count, radius)


def check(points: Sequence[exact.Point], at: metric.Location, found: Found) -> None:
    """Raises Wrong where document 01 does not permit what was found."""
    lookup = exact.look_up(points, exact.initial_radius(points), at, metric.PLAIN)
    answers = exact.permitted_answers(lookup)
    if found.answer not in answers or found[1:] != (len(lookup.neighbours), lookup.radius):
        raise Wrong(f"a lookup at {at}: {found}, but {[*answers]}, {len(lookup.neighbours)} and {lookup.radius} are right")


def make_points(rng: Random, count: int) -> list[exact.Point]:
    side = exact.GREATEST_COORDINATE + 1
    locations = sorted(divmod(place, side) for place in rng.sample(range(side * side), count))
    return [exact.Point(x, y, rng.randint(exact.LEAST_VALUE, exact.GREATEST_VALUE)) for x, y in locations]


def count_lookups(program: mir.Program, count: int) -> list[Counts]:
    """What each lookup in surveys of so many points takes."""
    for name in (ROOTS, DISTANCE):
        if name not in program.functions:
            raise Wrong(f"the program has no {name}")
    counted = []
    for seed in range(SURVEYS):
        rng, meter = Random(seed), Meter(program)
        points = make_points(rng, count)
        survey = load(meter, points)
        for _ in range(LOOKUPS_OF_EACH):
            at = rng.randint(0, exact.GREATEST_COORDINATE), rng.randint(0, exact.GREATEST_COORDINATE)
            meter.restart()
            check(points, at, look_up(meter, survey, at))
            counted.append(meter.counts())
    return counted


# The table.


def table(points: int, counted: Sequence[Counts]) -> list[str]:
    title = f"a lookup, {points} points, {len(counted)} lookups"
    rows = [f"{title:<52}{'mean':>10}{'least':>8}{'greatest':>10}{'in roots':>10}"]
    for line in LINES:
        numbers = [counts.lookup[line] for counts in counted]
        mean, of_roots = sum(numbers) / len(counted), sum(counts.roots[line] for counts in counted) / len(counted)
        rows.append(f"{line:<52}{mean:>10,.1f}{min(numbers):>8,}{max(numbers):>10,}{of_roots:>10,.1f}")
    return rows


def printed_program() -> str:
    done = subprocess.run([sys.executable, ROOT / "bench" / "program.py", "survey"], capture_output=True, text=True)
    if done.returncode:
        raise Wrong(f"program.py survey: status {done.returncode}\n{done.stderr}")
    return done.stdout


def main(arguments: Sequence[str]) -> int:
    if len(arguments) > 1 or not all(each.isdecimal() and 1 <= int(each) <= exact.MOST_POINTS for each in arguments):
        print(f"usage: operations.py [POINTS], POINTS from 1 to {exact.MOST_POINTS}")
        return 2
    points = int(arguments[0]) if arguments else POINTS
    try:
        counted = count_lookups(mir.read_program(printed_program()), points)
    except (OSError, Wrong, mir.Stuck, mir.Unknown) as reason:
        print(reason)
        return 1
    print("\n".join(table(points, counted)))
    return 0


if __name__ == "__main__":
    sys.exit(main(sys.argv[1:]))
