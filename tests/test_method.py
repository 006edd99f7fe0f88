"""Holds the figures of docs/METHOD.md to the exact-fraction program."""

from __future__ import annotations

import re
import unittest
from fractions import Fraction
from math import isqrt
from pathlib import Path
from struct import pack

import exact
import exact_files
import exact_survey
from metric import PLAIN
from outcomes import options, preferred

TEXT = (Path(__file__).parent.parent / "docs" / "METHOD.md").read_text("utf-8")
NUMBER = re.compile(r"-?\d+(?:,\d{3})*(?:\.\d+)?")
TITLE, LOCATION = "A lookup worked out", (100, 50)


def looked_up(points: list[exact.Point]) -> tuple[int, exact.Lookup]:
    """R0 of the points, and the lookup at LOCATION: all that is asked of exact.py's lookup."""
    initial = exact.initial_radius(points)
    return initial, exact.look_up(points, initial, LOCATION, PLAIN)


# What the page says.


def section(title: str) -> list[str]:
    """The lines of a section."""
    lines = TEXT.split("\n")
    start = lines.index(f"## {title}") + 1
    ends = [at for at in range(start, len(lines)) if lines[at].startswith("## ")]
    return lines[start : ends[0] if ends else len(lines)]


def cells(line: str) -> list[str]:
    return [cell.strip() for cell in re.split(r"(?<!\\)\|", line)[1:-1]]


def tables(title: str) -> list[list[list[str]]]:
    """The tables of a section, each a list of rows, and each row a list of cells."""
    found = []
    for line in section(title):
        if line.startswith("|---"):
            continue
        if not line.startswith("|"):
            found.append([])
        elif found:
            found[-1].append(cells(line))
    return [table for table in found if table]


def flat(text: str) -> str:
    return " ".join(text.split())


def prose(title: str) -> str:
    """The text of a section without its tables."""
    return flat("\n".join(line for line in section(title) if not line.startswith("|")))


def number(text: str) -> Fraction:
    return Fraction(text.replace(",", ""))


def numbers(row: list[str]) -> list[Fraction]:
    return [number(cell) for cell in row]


def hexadecimal(title: str) -> list[bytes]:
    """The indented blocks of a section as bytes."""
    blocks = re.split(r"\n(?:(?! {4}).*\n)+", "\n" + "\n".join(section(title)) + "\n")
    return [bytes.fromhex(block) for block in blocks if block.strip()]


# The page's steps in 64-bit floats.


def factor_in_floats(each: exact.Neighbour, radius: int) -> float:
    if each.kind == exact.INVERSE:
        return 1.0 / float(each.distance)
    whole, inside = float(radius), float(radius - each.distance)
    return 27.0 * (inside * inside) / (4.0 * (whole * (whole * whole)))


def in_floats(lookup: exact.Lookup, at: tuple[int, int], least: int) -> int:
    """The answer where no point is at the location and not all are at the edge."""
    chosen = lookup.neighbours
    s = [factor_in_floats(each, lookup.radius) for each in chosen]
    total = 0.0
    for each in s:
        total += each
    weights = values = 0.0
    for i, one in enumerate(chosen):
        term = 0.0
        for j, other in enumerate(chosen):
            product = one.distance * other.distance
            inner = (one.x - at[0]) * (other.x - at[0]) + (one.y - at[1]) * (other.y - at[1])
            ratio = float(abs(product - 65_536 * inner)) / float(product)
            term += 0.0 if i == j else s[j] * ratio
        weight = s[i] * s[i] * (1.0 + term / total)
        weights += weight
        values += weight * float(one.z - least)
    return 256 * least + (int(512.0 * (values / weights)) + 1) // 2


class Figures(unittest.TestCase):
    def assert_printed(self, printed: str, exactly: Fraction) -> None:
        """A printed number is the exact one, rounded to the digits that it has."""
        digits = len(printed.partition(".")[2])
        self.assertLessEqual(abs(number(printed) - exactly), Fraction(1, 2 * 10**digits), printed)
        if exactly.denominator == 1:
            self.assertEqual(number(printed), exactly)
        else:
            self.assertGreaterEqual(digits, 3)


class Small(Figures):
    def test_sums(self) -> None:
        """Every sum, product and square that the page writes out with its result."""
        term = r"\d[\d,]*²?"
        sums = re.findall(rf"({term}(?: [×+-] {term})*) (?:=|is) (-?\d[\d,]*\d|-?\d)", flat(TEXT))
        worked = [(said, result) for said, result in sums if not said.replace(",", "").isdecimal()]
        self.assertGreater(len(worked), 10)
        for said, result in worked:
            python = said.replace(",", "").replace("×", "*").replace("²", "**2")
            self.assertEqual(eval(python), number(result), said)

    def test_distances(self) -> None:
        squared, distances = (row[1:] for row in tables("Distance")[0])
        for each, away in zip(numbers(squared), numbers(distances), strict=True):
            self.assertEqual(isqrt(65_536 * int(each)), away)
            self.assertEqual(exact.distance(int(each)), away)
        self.assertEqual(max(numbers(squared)), 2 * exact.GREATEST_COORDINATE**2)

    def test_initial_radii(self) -> None:
        rows = [numbers(row[1:]) for row in tables("The initial radius")[0]]
        for twice, count, whole, radius in zip(*rows, strict=True):
            self.assertEqual(65_536 * 791 * twice // (355 * count * 2), whole)
            self.assertEqual(isqrt(int(whole)), radius)


class Worked(Figures):
    """The tables of the worked lookup, against fractions worked out here from exact.py's lookup."""

    def setUp(self) -> None:
        self.ordered, self.edges, self.factors, self.pairs, self.weighed, figures = tables(TITLE)
        self.figures = dict(figures[1:])
        self.points = [exact.Point(*map(int, row[1:4])) for row in self.ordered[1:]]
        self.initial, self.lookup = looked_up(sorted(self.points))
        self.chosen = self.lookup.neighbours
        radius = self.lookup.radius
        self.fractions = {
            exact.INVERSE: lambda away: (1, away),
            exact.TAPERED: lambda away: (27 * (radius - away) ** 2, 4 * radius**3),
            exact.EDGE: lambda away: (0, 1),
        }
        self.s = [Fraction(*self.fractions[each.kind](each.distance)) for each in self.chosen]
        self.sums = [
            sum(self.s[j] * self.gap(i, j) for j in range(len(self.s)) if j != i)
            for i in range(len(self.s))
        ]
        self.terms = [each / sum(self.s) for each in self.sums]
        self.weights = [s**2 * (1 + t) for s, t in zip(self.s, self.terms)]

    def offset(self, i: int) -> tuple[int, int]:
        return self.points[i].x - LOCATION[0], self.points[i].y - LOCATION[1]

    def inner(self, i: int, j: int) -> int:
        return sum(one * other for one, other in zip(self.offset(i), self.offset(j)))

    def product(self, i: int, j: int) -> int:
        return self.chosen[i].distance * self.chosen[j].distance

    def gap(self, i: int, j: int) -> Fraction:
        return abs(1 - Fraction(65_536 * self.inner(i, j), self.product(i, j)))

    def test_points_in_order(self) -> None:
        self.assertEqual(len(self.points), 8)
        order = [
            (sum(part**2 for part in self.offset(i)), point.x, point.y)
            for i, point in enumerate(self.points)
        ]
        self.assertEqual(order, sorted(order))
        for i, row in enumerate(self.ordered[1:]):
            squared = order[i][0]
            told = [i + 1, *self.points[i], *self.offset(i), squared, isqrt(65_536 * squared)]
            self.assertEqual(numbers(row), told)

    def without(self, x: int, y: int) -> list[exact.Point]:
        return [point for point in self.points if point[:2] != (x, y)]

    def test_kept(self) -> None:
        title = "What is kept with the points"
        _, least, greatest = tables(title)[0]
        ends = exact.ends(self.points)
        self.assertEqual(numbers(least[1:]), list(ends[0:6:2]))
        self.assertEqual(numbers(greatest[1:]), list(ends[1:6:2]))
        found = re.findall(r"[Ww]ithout (?:the point )?\((\d+), (\d+)\)", prose(title))
        kept = [self.without(int(x), int(y)) for x, y in found]
        right, left, inside = (exact.ends(points) for points in kept)
        twice = [exact.twice_area(points) for points in (self.points, *kept)]
        for sentence in (
            f"and R0 is {ends.initial_radius:,}.",
            f"the greatest x is {right.greatest_x}, 2A is {twice[1]} and R0 is {right.initial_radius:,};",
            f"the least x is {left.least_x}, while the greatest y stays {left.greatest_y},",
            f"2A stays {twice[3]}, and R0 is {inside.initial_radius:,}, since N is {len(kept[2])}.",
        ):
            self.assertIn(sentence, prose(title))
        self.assertEqual(left.greatest_y, ends.greatest_y)
        self.assertEqual(twice[3], twice[0])

    def test_choice(self) -> None:
        self.assertEqual([each[:3] for each in self.chosen], self.points[: len(self.chosen)])
        self.assertEqual(self.lookup.radius, self.initial)
        self.assertEqual({each.kind for each in self.chosen}, {1, 2, 3})

    def test_polygon(self) -> None:
        """The edges go round the points, each to where the next begins, with every point left of each."""
        ways = [[tuple(map(int, NUMBER.findall(cell))) for cell in row[:2]] for row in self.edges[1:]]
        self.assertEqual([to for _, to in ways], [start for start, _ in ways[1:] + ways[:1]])
        for (start, to), row in zip(ways, self.edges[1:]):
            self.assertLess({start, to}, {point[:2] for point in self.points})
            one, other = start[0] * to[1], start[1] * to[0]
            self.assertEqual(numbers(row[2:]), [one, other, one - other])
            for x, y, _ in self.points:
                across = (to[0] - start[0]) * (y - start[1]) - (to[1] - start[1]) * (x - start[0])
                self.assertGreaterEqual(across, 0)

    def radius_figures(self) -> dict[str, int]:
        """The figures that stand in the text, and how they are found there."""
        twice, count = int(sum(number(row[4]) for row in self.edges[1:])), len(self.points)
        self.assertEqual(exact.twice_area(self.points), twice)
        return {
            r"2A = ([\d,]+);": twice,
            r"N is ([\d,]+)\.": count,
            r"791 × 646 is ([\d,]+), and": 65_536 * 791 * twice,
            r"355 × 8 × 2 is ([\d,]+);": 355 * count * 2,
            r"quotient is ([\d,]+)\.": 65_536 * 791 * twice // (355 * count * 2),
            r"2,428² is ([\d,]+), and": self.initial**2,
            r", and ([\d,]+)² is": self.initial + 1,
            r"2,429² is ([\d,]+), so": (self.initial + 1) ** 2,
            r"R0 is ([\d,]+)\.": self.initial,
            r"n is ([\d,]+):": sum(away <= self.initial for away in self.column("D")),
            r"4 R³ is ([\d,]+)\.": 4 * self.lookup.radius**3,
        }

    def column(self, name: str) -> list[str]:
        """A column of the first table."""
        at = self.ordered[0].index(name)
        return [int(number(row[at])) for row in self.ordered[1:]]

    def test_radius(self) -> None:
        figures = self.radius_figures()
        for pattern, figure in figures.items():
            self.assertEqual(number(re.search(pattern, prose(TITLE)).group(1)), figure, pattern)
        self.assertEqual(isqrt(figures[r"quotient is ([\d,]+)\."]), self.initial)

    def test_kinds_and_factors(self) -> None:
        for i, (row, each) in enumerate(zip(self.factors[1:], self.chosen, strict=True)):
            fraction = self.fractions[each.kind](each.distance)
            self.assertEqual(numbers(row[:5]), [i + 1, 3 * each.distance, each.kind, *fraction])
            self.assert_printed(row[5], 10**6 * self.s[i])

    def test_cosines(self) -> None:
        said = [tuple(int(cell) - 1 for cell in row[:2]) for row in self.pairs[1:]]
        apart = [i for i, s in enumerate(self.s) if s]
        self.assertEqual(said, [(i, j) for i in apart for j in apart if i < j])
        for (i, j), row in zip(said, self.pairs[1:]):
            g, product = self.inner(i, j), self.product(i, j)
            difference = abs(product - 65_536 * g)
            self.assertEqual(numbers(row[2:6]), [g, 65_536 * g, product, difference])
            self.assert_printed(row[6], self.gap(i, j))

    def test_terms_and_weights(self) -> None:
        least = min(each.z for each in self.chosen)
        lessened = f"z + {-least}"
        heads = ["i", "T, × 10⁶", "t", "Weight, × 10¹²", lessened, f"Weight × ({lessened}), × 10¹²"]
        self.assertEqual(self.weighed[0], heads)
        for i, row in enumerate(self.weighed[1:]):
            lessened = self.chosen[i].z - least
            self.assertEqual(numbers([row[0], row[4]]), [i + 1, lessened])
            self.assert_printed(row[1], 10**6 * self.sums[i])
            self.assert_printed(row[2], self.terms[i])
            self.assert_printed(row[3], 10**12 * self.weights[i])
            self.assert_printed(row[5], 10**12 * self.weights[i] * lessened)
        self.assertEqual(len(self.weighed) - 1, len(self.chosen))

    def test_mean_and_answer(self) -> None:
        least = min(each.z for each in self.chosen)
        weighed = sum(w * (each.z - least) for w, each in zip(self.weights, self.chosen))
        quotient = weighed / sum(self.weights)
        mean = self.lookup.mean
        self.assertEqual(least + quotient, mean)
        half = (int(512 * quotient) + 1) // 2
        answer = 256 * least + half
        self.assertEqual(list(exact.permitted_answers(self.lookup)), [answer])
        expected = {
            "sum of the factors, × 10⁶": 10**6 * sum(self.s),
            "sum of the weights, × 10¹²": 10**12 * sum(self.weights),
            f"sum of weight × (z + {-least}), × 10¹²": 10**12 * weighed,
            "their quotient": quotient,
            "exact mean": mean,
            "exact mean, numerator": Fraction(mean.numerator),
            "exact mean, denominator": Fraction(mean.denominator),
            "512 × the quotient": 512 * quotient,
            "its whole part, plus 1, halved": Fraction(half),
            "answer": Fraction(answer),
            "256 × the answer less 65,536 × the mean": 256 * answer - 65_536 * mean,
        }
        self.assertEqual(list(self.figures), list(expected))
        for name, value in expected.items():
            self.assert_printed(self.figures[name], value)
        self.assertEqual(in_floats(self.lookup, LOCATION, least), answer)

    def test_the_text_has_no_other_figures(self) -> None:
        known = {number(figure) for figure in ("0", "4", "5", "10", "129", "355", "791")}
        known.update(map(Fraction, (*LOCATION, *self.radius_figures().values())))
        known.add(number(self.figures["answer"]) / 256)
        for row in sum(tables(TITLE), []):
            known.update(numbers(NUMBER.findall(" ".join(row))))
        for figure in NUMBER.findall(prose(TITLE).replace("R0", "")):
            self.assertIn(number(figure), known)

    def test_last_sentence(self) -> None:
        first, last = self.chosen[0], self.chosen[-1]
        for each in (first, last):
            self.assertIn(
                f"x {each.x}, y {each.y}, z {each.z}, D {each.distance:,}, kind {each.kind}",
                prose(TITLE),
            )
        self.assertIn(f"the count {len(self.chosen)} and R {self.lookup.radius:,}", prose(TITLE))


class NoSay(unittest.TestCase):
    """The example of a value that has no say."""

    TITLE, LOCATION, FAR_OFF = "Values that have no say", (200, 200), (227, 236)

    def setUp(self) -> None:
        said = re.findall(r"\((\d+), (\d+)\) with (?:value )?(\d+)", prose(self.TITLE))
        self.near = [exact.Point(*map(int, each)) for each in said]

    def looked_up(self, z: int) -> exact.Lookup:
        points = sorted([*self.near, exact.Point(*self.FAR_OFF, z)])
        return exact.look_up(points, exact.initial_radius(points), self.LOCATION, PLAIN)

    def test_the_point_is_not_chosen(self) -> None:
        lookup = self.looked_up(5)
        self.assertEqual(sorted(each[:3] for each in lookup.neighbours), self.near)
        beyond = sum((one - other) ** 2 for one, other in zip(self.FAR_OFF, self.LOCATION))
        tied = [each.distance for each in lookup.neighbours[2:]] + [exact.distance(beyond)]
        self.assertEqual(tied, [45 * 256] * 3)
        self.assertEqual(lookup.radius, 11_520)
        self.assertIn("45 steps off", prose(self.TITLE))
        self.assertIn("R is 11,520", prose(self.TITLE))

    def test_the_answer_is_the_same(self) -> None:
        for z in range(-128, 128):
            lookup = self.looked_up(z)
            self.assertEqual(lookup, self.looked_up(5))
            self.assertEqual(lookup.mean, Fraction(23, 512))
            self.assertEqual(list(exact.permitted_answers(lookup)), [11, 12])
        self.assertIn("The exact mean is 23/512", prose(self.TITLE))

    def test_its_steps(self) -> None:
        lookup = self.looked_up(-126)
        least = min(each.z for each in lookup.neighbours)
        self.assertEqual(in_floats(lookup, self.LOCATION, least), 12)
        self.assertEqual(in_floats(lookup, self.LOCATION, -126), 11)
        self.assertIn("would give 11 where that value is -126", prose(self.TITLE))


class Rows(unittest.TestCase):
    """The example of a grid that is filled while the survey is cleared."""

    TITLE, GRID = "A grid filled row by row", exact_files.Grid(3, 0, 3, 1, 2, 2)

    def setUp(self) -> None:
        self.survey = exact_survey.Survey()
        for point in re.findall(r"\((\d+), (\d+)\) with (?:value )?(\d+)", prose(self.TITLE)):
            self.survey.add(*map(int, point))

    def row(self, lent: int) -> list[int]:
        filled = self.survey.next_row(lent).filled
        self.assertEqual({len(options(each)) for each in filled}, {1})
        return [preferred(each) for each in filled]

    def test_rows(self) -> None:
        self.survey.begin_grid(self.GRID)
        first = self.row(2)
        self.survey.clear()
        for call in (lambda: self.survey.lookup(3, 0), lambda: self.survey.begin_grid(self.GRID)):
            with self.assertRaises(exact.Refused) as caught:
                call()
            self.assertEqual(caught.exception.number, 6)
        rows = [f"{one:,} and {other:,}" for one, other in (first, self.row(3))]
        self.assertIn("The rows are {}, then {}.".format(*rows), prose(self.TITLE))
        self.assertIn(f"is row 1, {rows[1]},", prose(self.TITLE))
        with self.assertRaises(exact.Refused) as caught:
            self.row(2)
        self.assertIn(f"A further row is {caught.exception.number}.", prose(self.TITLE))


class Bytes(unittest.TestCase):
    def test_survey_file(self) -> None:
        (file,) = hexadecimal("The survey file")
        points = sorted(exact.Point(*map(int, row[1:4])) for row in tables(TITLE)[0][1:])
        self.assertEqual(exact_files.read_survey_file(file), points)
        self.assertEqual(exact_files.survey_file(points), file)
        text = prose("The survey file")
        self.assertIn(f"this file of {len(file)} bytes", text)
        self.assertIn("The first record is x {}, y {}, z {},".format(*points[0]), text)
        total = sum(file[:-12])
        self.assertIn(f"add up to {total:,}, which is {total:04X}", text)
        empty = re.search(r"The file of no points is `([\dA-F ]+)`", text).group(1)
        self.assertEqual(bytes.fromhex(empty), exact_files.survey_file([]))

    def test_grid_program(self) -> None:
        (file,) = hexadecimal("The survey file")
        six, output = hexadecimal("The grid program")
        filled = exact_survey.grid_program(six + file).filled
        self.assertEqual({len(options(each)) for each in filled}, {1})
        self.assertEqual(output, b"".join(preferred(each) for each in filled))
        text = prose("The grid program")
        answers = [int.from_bytes(preferred(each), "big", signed=True) for each in filled[:-1]]
        first, second, *rest = [f"{each:,}" for each in answers]
        self.assertIn(f"value -7 is: {first}.", text)
        self.assertIn(f"= {second}.", text)
        self.assertIn("is {} and {}.".format(*rest), text)

    def test_esri_text(self) -> None:
        (file,) = hexadecimal("The survey file")
        title = "The Esri ASCII grid"
        text = "".join(line[4:] + "\n" for line in section(title) if line.startswith("    "))
        filled = exact_survey.esri_program(pack(">6H", 98, 50, 2, 2, 2, 1) + file).filled
        self.assertEqual({len(options(each)) for each in filled}, {1})
        self.assertEqual(text.encode(), b"".join(preferred(each) for each in filled))
        self.assertIn(f"The text, {len(text)} bytes:", prose(title))
        first, second = (int(256 * Fraction(cell)) for cell in text.split("\n")[-2].split())
        self.assertIn(f"Its cells are {first:,} and {second:,},", prose(title))
        whole, part = divmod(-second, 256)
        worked = f"{-second:,} is {whole} × 256 + {part}, with {part} × 390,625 = {part * 390_625:,}."
        self.assertIn(worked, prose(title))

    def test_unlike_steps(self) -> None:
        (file,), (six, _) = hexadecimal("The survey file"), hexadecimal("The grid program")
        with self.assertRaises(exact.Refused) as caught:
            exact_survey.esri_program(six + file)
        written = f"it writes `refused {caught.exception.number}`"
        self.assertIn(written, prose("The grid program"))


if __name__ == "__main__":
    unittest.main()
