"""Checks sound and damaged survey and grid files, and holds each refusal to the method's rules."""

from __future__ import annotations

import unittest
from collections import Counter
from collections.abc import Callable, Sequence
from random import Random
from struct import pack

import files
from texts import NEITHER_MAGIC, counted, grid_file_refused, grid_of, refused, six, steps, survey_of
from tool import SAMPLE, SEED, ToolTest, grid_file

import damage
import exact_files
import grids
from exact import Point, Refused

Damage = Callable[[Random, bytes], bytes]


def ends(points: Sequence[Point]) -> str:
    """The part of a survey's line that tells its ends."""
    columns = zip("xyz", zip(*points))
    return "".join(f", {name} {min(values)} to {max(values)}" for name, values in columns)


def before_records(data: bytes, points: Sequence[Point]) -> str:
    """The part of a survey's line that tells what stands before its records."""
    before = data[: len(data) - 12 - 5 * len(points)]
    numbers = [int.from_bytes(before[at : at + 2], "big") for at in range(0, 12, 2)]
    if len(before) >= 12 and files.is_proper(numbers):
        return f", grid {six(numbers)}"
    return f", {counted(len(before), 'byte')} before its records" if before else ""


def survey_line(data: bytes) -> str:
    points = exact_files.read_survey_file(data)
    return survey_of(len(points)) + ends(points) + before_records(data, points)


def grid_line(data: bytes) -> str:
    numbers, cells = files.read_grid_file(data)
    return f"{grid_of(numbers)}, grid {six(numbers)}, cells {steps(min(cells))} to {steps(max(cells))}"


def checked(data: bytes) -> tuple[bool, str]:
    """Whether a file is accepted, and what is told of it."""
    is_grid = data[-4:] == b"RLG1"
    try:
        return True, grid_line(data) if is_grid else survey_line(data)
    except Refused as refusal:
        if is_grid:
            return False, grid_file_refused(refusal.number)
        return False, f"refused 10: {NEITHER_MAGIC}" if refusal.number == 10 else refused(refusal.number)


class CheckTest(ToolTest):
    def assert_checked(self, contents: Sequence[bytes]) -> None:
        """All files in one run; each line in its stream, in the order of the words."""
        told: dict[bool, list[str]] = {True: [], False: []}
        for index, data in enumerate(contents):
            accepted, text = checked(data)
            told[accepted].append(f"{self.put(f'{index}.f', data)}: {text}\n")
        words = ["check", *(f"{index}.f" for index in range(len(contents)))]
        self.assert_ran(words, 1 if told[False] else 0, "".join(told[True]), "".join(told[False]))


class Surveys(CheckTest):
    def test_a_survey_with_its_grid(self) -> None:
        self.put("drive.rls", files.survey(files.FOUR, files.FOUR_GRID))
        said = "drive.rls: a survey of 4 points, x 100 to 3900, y 200 to 2100, z -64 to -3, grid 0,0,1000,1000,5,3\n"
        self.assert_ran("check drive.rls", 0, said)

    def test_one_point_and_none(self) -> None:
        self.put("one.rls", files.survey([(3, 0, -7)]))
        self.put("none.rls", files.NO_POINT)
        self.put("grid.rls", files.survey([], (0, 0, 1, 1, 2, 1)))
        said = "one.rls: a survey of 1 point, x 3 to 3, y 0 to 0, z -7 to -7\n"
        said += "none.rls: a survey of no points\ngrid.rls: a survey of no points, grid 0,0,1,1,2,1\n"
        self.assert_ran("check one.rls none.rls grid.rls", 0, said)

    def test_bytes_before_the_records(self) -> None:
        said = "f.rls: a survey of 1 point, x 3 to 3, y 0 to 0, z -7 to -7"
        for length, told in ((1, "1 byte"), (2, "2 bytes"), (11, "11 bytes"), (12, "12 bytes"), (70, "70 bytes")):
            self.put("f.rls", files.survey([(3, 0, -7)], (), bytes(length)))
            self.assert_ran("check f.rls", 0, f"{said}, {told} before its records\n")
        self.put("f.rls", files.survey([(3, 0, -7)], (1, 2, 3, 4, 5, 6), b"and more"))
        self.assert_ran("check f.rls", 0, f"{said}, grid 1,2,3,4,5,6\n")

    def test_grids_before_the_records(self) -> None:
        """Those that break a rule are told as bytes, of surveys with and without points."""
        rng = Random(SEED)
        made = [grids.proper_grid(rng) for _ in range(60)] + [grids.improper_grid(rng) for _ in range(60)]
        points = (files.FOUR, [])
        self.assert_checked([files.survey(points[index % 2], numbers) for index, numbers in enumerate(made)])

    def test_sample_and_standard_input(self) -> None:
        line = survey_line(SAMPLE.read_bytes())
        self.assert_ran(["check", str(SAMPLE)], 0, f"{SAMPLE}: {line}\n")
        self.assert_ran("check -", 0, f"standard input: {line}\n", data=SAMPLE.read_bytes())

    def test_lengths(self) -> None:
        longest = files.survey(files.FOUR, (), bytes(65_536 - 32))
        self.put("0", longest)
        self.put("1", b"x" + longest)
        self.put("2", bytes(200_000) + longest)
        self.put("3", longest[-11:])
        self.put("4", b"")
        errors = "".join(f"{name}: {refused(9)}\n" for name in "1234")
        said = "0: a survey of 4 points, x 100 to 3900, y 200 to 2100, z -64 to -3, 65504 bytes before its records\n"
        self.assert_ran("check 0 1 2 3 4", 1, said, errors)

    def test_neither_magic(self) -> None:
        self.put("t.csv", "x,y,z\n100,200,-3\n")
        self.assert_ran("check t.csv", 1, errors=f"t.csv: refused 10: {NEITHER_MAGIC}\n")

    def test_damaged_surveys(self) -> None:
        rng = Random(SEED)
        made = [damage.damage(rng, damage.random_preamble(rng), damage.few_points(rng)) for _ in range(400)]
        numbers = {checked(data)[1].split(":")[0] for data in made}
        self.assertLessEqual({f"refused {number}" for number in range(9, 16)}, numbers)
        self.assert_checked(made)


class Together(CheckTest):
    """Several files in one run: all are tried, and the status is the worst."""

    def setUp(self) -> None:
        super().setUp()
        self.put("good.rls", files.survey([(3, 0, -7)]))
        self.put("bad.rls", b"x" * 20)
        self.said = "good.rls: a survey of 1 point, x 3 to 3, y 0 to 0, z -7 to -7\n"
        self.bad = f"bad.rls: refused 10: {NEITHER_MAGIC}\n"
        self.none = "none.rls: No such file or directory (os error 2)\n"

    def test_order_and_status(self) -> None:
        self.assert_ran("check good.rls good.rls", 0, self.said * 2)
        self.assert_ran("check bad.rls good.rls", 1, self.said, self.bad)
        self.assert_ran("check none.rls good.rls", 2, self.said, self.none)
        self.assert_ran("check bad.rls none.rls good.rls bad.rls", 2, self.said, self.bad + self.none + self.bad)
        self.assert_ran("check none.rls bad.rls good.rls", 2, self.said, self.none + self.bad)

    def test_a_folder(self) -> None:
        (self.folder / "d").mkdir()
        self.assert_ran("check d good.rls", 2, self.said, "d: Is a directory (os error 21)\n")


# What is done to a sound grid file; the six numbers begin 20 bytes before its end.


def any_bit(rng: Random, data: bytes) -> bytes:
    made = bytearray(data)
    made[rng.randrange(len(made))] ^= 1 << rng.randrange(8)
    return bytes(made)


def a_number(rng: Random, data: bytes) -> bytes:
    """One of the six is another: the grid may stay proper, with a size that does not fit."""
    at = len(data) - 20 + 2 * rng.randrange(6)
    number = rng.choice((0, 1, 2, 64, 65, 4095, 4096, 65_535, rng.randrange(65_536)))
    return data[:at] + pack(">H", number) + data[at + 2 :]


def back_distance(rng: Random, data: bytes) -> bytes:
    number = rng.choice((0, 1, len(data), len(data) - 18, 2**31, rng.randrange(2**32)))
    return data[:-8] + pack(">I", number % 2**32) + data[-4:]


def the_magic(rng: Random, data: bytes) -> bytes:
    return data[:-4] + rng.choice((b"RLS1", b"RLG2", b"rlg1", bytes(4)))


def cut(rng: Random, data: bytes) -> bytes:
    length = rng.randint(1, len(data))
    return rng.choice((data[length:], data[:length], data[2:]))


def longer(rng: Random, data: bytes) -> bytes:
    more = bytes(rng.choice((1, 2, 2, 4, 8, 134, 9000)))
    return rng.choice((more + data, data + more))


def turned(rng: Random, data: bytes) -> bytes:
    """Columns and rows change places: the size fits, and the rules may be broken."""
    return data[:-12] + data[-10:-8] + data[-12:-10] + data[-8:]


def no_cells(rng: Random, data: bytes) -> bytes:
    return data[-20:]


def other_cells(rng: Random, data: bytes) -> bytes:
    """It stays a grid file."""
    return rng.randbytes(max(0, len(data) - 20)) + data[-20:]


def survey_trailer(rng: Random, data: bytes) -> bytes:
    return data + files.NO_POINT


GRID_DAMAGES: tuple[Damage, ...] = (
    any_bit,
    any_bit,
    a_number,
    a_number,
    back_distance,
    the_magic,
    cut,
    longer,
    turned,
    no_cells,
    other_cells,
    survey_trailer,
)


def random_grid_file(rng: Random) -> bytes:
    numbers = grids.proper_grid(rng)
    cells = [rng.randint(-32_768, 32_767) for _ in range(numbers[4] * numbers[5])]
    return files.made_grid_file(numbers, cells)


def damaged_grid_file(rng: Random) -> bytes:
    data = random_grid_file(rng)
    for _ in range(rng.choice((1, 1, 1, 2, 3))):
        data = rng.choice(GRID_DAMAGES)(rng, data) or data
    return data


class GridFiles(CheckTest):
    def test_a_grid(self) -> None:
        self.put("f.rlg", grid_file(files.FOUR_GRID, files.survey(files.FOUR)))
        said = "f.rlg: a grid of 5 columns and 3 rows, grid 0,0,1000,1000,5,3, cells -63.03515625 to -3.85546875\n"
        self.assert_ran("check f.rlg", 0, said)

    def test_one_column_or_row(self) -> None:
        self.put("a", files.made_grid_file((7, 8, 9, 10, 1, 1), [-1]))
        self.put("b", files.made_grid_file((7, 8, 9, 10, 1, 2), [128, -4096]))
        self.put("c", files.made_grid_file((7, 8, 9, 10, 2, 1), [-32_768, 32_767]))
        said = "a: a grid of 1 column and 1 row, grid 7,8,9,10,1,1, cells -0.00390625 to -0.00390625\n"
        said += "b: a grid of 1 column and 2 rows, grid 7,8,9,10,1,2, cells -16 to 0.5\n"
        said += "c: a grid of 2 columns and 1 row, grid 7,8,9,10,2,1, cells -128 to 127.99609375\n"
        self.assert_ran("check a b c", 0, said)

    def test_each_refusal(self) -> None:
        sound = files.made_grid_file((0, 0, 1, 1, 2, 3), [1, 2, 3, 4, 5, 6])
        for number, data in (
            (9, b"x" + sound),
            (9, sound[1:]),
            (9, sound[-20:]),
            (9, b"RLG1"),
            (9, bytes(2 * 67) + sound[-20:]),
            (9, bytes(8194) + sound[-20:]),
            (9, bytes(65_517) + sound[-20:]),
            (7, sound[:-10] + b"\0\0" + sound[-8:]),
            (7, sound[:-20] + b"\x10\0" + sound[-18:]),
            (12, sound[:-5] + b"\x0d" + sound[-4:]),
            (12, sound[:-9] + b"\x04" + sound[-8:]),
            (12, sound[:-9] + b"\x04\0\0\0\x10RLG1"),
        ):
            self.put("f.rlg", data)
            self.assert_ran("check f.rlg", 1, errors=f"f.rlg: {grid_file_refused(number)}\n")

    def test_order_of_refusals(self) -> None:
        """A length that none has comes before all, a broken rule before the back distance."""
        sound = files.made_grid_file((0, 0, 0, 1, 2, 3), [1, 2, 3, 4, 5, 6])
        self.assert_checked([sound, sound[:-5] + b"\x0d" + sound[-4:], b"x" + sound, sound[2:]])

    def test_damaged_grid_files(self) -> None:
        rng = Random(SEED)
        made = [damaged_grid_file(rng) for _ in range(600)]
        numbers = Counter(checked(data)[1].split(":")[0] for data in made if data[-4:] == b"RLG1")
        self.assertGreater(min(numbers[f"refused {number}"] for number in (7, 9, 12)), 20, numbers)
        self.assert_checked(made)

    def test_sound_grid_files(self) -> None:
        rng = Random(SEED)
        self.assert_checked([random_grid_file(rng) for _ in range(100)])

    def test_a_changed_byte_is_noticed(self) -> None:
        """The comparison fails where one cell of a file is another than the one that was worked out."""
        data = files.made_grid_file((0, 0, 1, 1, 2, 1), [-500, 500])
        self.put("f.rlg", b"\x80" + data[1:])
        with self.assertRaises(AssertionError):
            self.assert_ran("check f.rlg", 0, f"f.rlg: {checked(data)[1]}\n")


if __name__ == "__main__":
    unittest.main()
