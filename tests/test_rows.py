"""Holds grids that are filled row by row to document 02's §6, and shows how they are compared."""

from __future__ import annotations

import pathlib
import unittest
from collections import Counter
from collections.abc import Iterable, Iterator
from random import Random
from typing import NamedTuple

import bad_journals
import checks
import compare
import damage
import exact
import exact_files
import faults_rows
import journals
import mixed_calls
import outcomes
import permitted
import row_checks
import row_journals
import stand_ins
from exact_files import Grid
from exact_survey import Filling, Survey
from fakes import FAULTS
from journals import Journal
from operations import CELLS
from programs import Run
from protocol import Call
from test_compare import FAULTY_PART, SECONDS, part_of_run, programs
from test_exact import RefusalCase, survey_of
from test_pairs import planted, replayed

PAIR = ((3, 0, 0), (6, 0, 90))
NINE = ((0, 0, 0), (9, 0, 90))
ROW_KINDS = ("rows", "free rows", "widest rows")


def file_of(points: Iterable[tuple[int, int, int]]) -> bytes:
    return damage.assemble(b"", damage.records_of(list(points)))


class Rows(RefusalCase):
    """Closed cases."""

    WHOLE, IMPROPER = Grid(0, 0, 1, 1, 2, 1), Grid(0, 0, 0, 1, 2, 1)
    # The cells of PAIR: 18 steps at 0 0, the two points themselves.
    ALONG = Grid(0, 0, 3, 1, 3, 3)

    def assert_row(self, survey: Survey, lent: int, number: int, *cells: int) -> None:
        """A row of which no cell may be rounded either way."""
        outcome = survey.next_row(lent)
        self.assertEqual(outcome.numbers, (number, len(cells)))
        self.assertEqual([outcomes.options(each) for each in outcome.filled], [(z,) for z in cells])

    def begun(self, points: Iterable[tuple[int, int, int]], grid: Grid) -> Survey:
        survey = survey_of(points)
        self.assertEqual(survey.begin_grid(grid), outcomes.ACCEPTED)
        return survey

    def test_none_begun(self) -> None:
        for survey in (Survey(), survey_of(PAIR)):
            for lent in (0, 1, 64, 8192):
                self.assert_refused(17, survey.next_row, lent)

    def test_refused_begins(self) -> None:
        none, one = Survey(), survey_of([(3, 0, -7)])
        self.assert_refused(6, none.begin_grid, self.WHOLE)
        for survey in (none, one):
            for numbers in ((0, 0, 0, 1, 1, 1), (0, 0, 1, 1, 65, 1), (0, 0, 1, 1, 1, 0)):
                self.assert_refused(7, survey.begin_grid, Grid(*numbers))
            self.assert_refused(7, survey.begin_grid, Grid(0, 4095, 1, 1, 1, 2))
            self.assert_refused(17, survey.next_row, 64)

    def test_whole_case(self) -> None:
        survey = self.begun([(3, 0, -7)], self.WHOLE)
        self.assert_row(survey, 2, 0, -1792, -1792)
        self.assert_refused(17, survey.next_row, 2)
        self.assert_refused(17, survey.next_row, 0)

    def test_two_points(self) -> None:
        survey = self.begun(PAIR, Grid(0, 0, 3, 1, 3, 1))
        self.assert_row(survey, 3, 0, 4608, 0, 23_040)
        survey = self.begun(NINE, Grid(0, 0, 3, 1, 4, 1))
        self.assert_row(survey, 4, 0, 0, 5973, 17_067, 23_040)
        survey = self.begun([(0, 0, 0), (10, 0, 10)], Grid(0, 0, 5, 1, 3, 1))
        self.assert_row(survey, 3, 0, 0, 1280, 2560)

    def test_five_and_twelve_points(self) -> None:
        """Edges alone; what comes after the begin would move each."""
        for points, answer in ((journals.EXAMPLES[4][0], 6272), (journals.EXAMPLES[5][0], 640)):
            survey = self.begun(points, Grid(100, 100, 1, 1, 1, 1))
            survey.add(100, 100, 127)
            self.assert_row(survey, 1, 0, answer)

    def test_upwards(self) -> None:
        """The lowest y first: the points are the cells."""
        points = [(10 + 3 * x, 20 + 7 * y, 10 * y + x) for x in range(3) for y in range(4)]
        survey = self.begun(points, Grid(10, 20, 3, 7, 3, 4))
        for y in range(4):
            self.assert_row(survey, 3, y, *(256 * (10 * y + x) for x in range(3)))
        self.assert_refused(17, survey.next_row, 3)

    def test_short(self) -> None:
        """Held to the columns alone; what is refused comes next all the same."""
        survey = self.begun(PAIR, self.ALONG)
        for lent in (0, 1, 2):
            self.assert_refused(8, survey.next_row, lent)
        self.assert_row(survey, 3, 0, 4608, 0, 23_040)
        self.assert_refused(8, survey.next_row, 2)
        self.assertEqual(survey.next_row(8).numbers, (1, 3))
        self.assertEqual(survey.next_row(8192).numbers, (2, 3))
        for lent in (0, 2, 3, 8192):
            self.assert_refused(17, survey.next_row, lent)

    def test_every_edit_between_rows(self) -> None:
        """The rows are those of the grid at the begin, and each edit does what it does else."""
        edits = (
            lambda survey: survey.change(6, 0, -90),
            lambda survey: survey.add(0, 0, 127),
            lambda survey: survey.drop(3, 0),
            lambda survey: survey.clear(),
            lambda survey: survey.load(file_of([(3, 0, 5)])),
            lambda survey: survey.load(file_of([])),
        )
        grid = Grid(0, 0, 3, 1, 3, len(edits))
        whole = survey_of(PAIR).grid(grid, 18).filled
        survey, plain = self.begun(PAIR, grid), survey_of(PAIR)
        for row, edit in enumerate(edits):
            edit(survey)
            edit(plain)
            outcome = survey.next_row(3)
            self.assertEqual(outcome.numbers, (row, 3))
            self.assertEqual(outcome.filled, whole[3 * row : 3 * row + 3])
            self.assertEqual(survey.values, plain.values)
            self.assertEqual(survey.read_ends(), plain.read_ends())

    def test_refused_edits_and_questions_between_rows(self) -> None:
        survey = self.begun(PAIR, self.ALONG)
        self.assert_row(survey, 3, 0, 4608, 0, 23_040)
        for number, call, given in (
            (1, survey.add, (4096, 0, 0)),
            (2, survey.change, (3, 0, 128)),
            (3, survey.add, (3, 0, 1)),
            (4, survey.drop, (4, 0)),
            (9, survey.load, (b"",)),
            (8, survey.write, (21,)),
            (7, survey.grid, (self.IMPROPER, 9)),
            (16, survey.esri_text, (Grid(0, 0, 1, 2, 1, 1), 99)),
            (8, survey.lookup_with_neighbours, (0, 0, 9)),
        ):
            self.assert_refused(number, call, *given)
        survey.lookup(0, 0)
        survey.grid(self.WHOLE, 2)
        survey.esri_text(self.WHOLE, 99)
        self.assertEqual(survey.filling, (survey.filling.begun, self.ALONG, 1))
        self.assertEqual(survey.next_row(3).numbers, (1, 3))

    def test_a_refused_begin_keeps_the_grid(self) -> None:
        survey = self.begun(PAIR, Grid(3, 0, 3, 1, 2, 2))
        self.assert_row(survey, 2, 0, 0, 23_040)
        self.assert_refused(7, survey.begin_grid, self.IMPROPER)
        survey.clear()
        self.assert_refused(7, survey.begin_grid, self.IMPROPER)
        self.assert_refused(6, survey.begin_grid, self.WHOLE)
        self.assertEqual(survey.next_row(2).numbers, (1, 2))
        for refused in (self.IMPROPER, self.WHOLE):
            with self.assertRaises(exact.Refused):
                survey.begin_grid(refused)
            self.assert_refused(17, survey.next_row, 2)

    def test_an_accepted_begin_replaces_it(self) -> None:
        """In the middle and after the end, also with the same six numbers."""
        column = Grid(3, 0, 1, 1, 1, 2)
        survey = self.begun(PAIR, column)
        self.assert_row(survey, 1, 0, 0)
        survey.change(3, 0, 7)
        survey.begin_grid(column)
        self.assert_row(survey, 1, 0, 7 * 256)
        survey.begin_grid(Grid(6, 0, 1, 1, 1, 1))
        self.assert_row(survey, 1, 0, 23_040)
        self.assert_refused(17, survey.next_row, 1)
        survey.begin_grid(column)
        survey.begin_grid(Grid(3, 0, 3, 1, 2, 1))
        self.assert_refused(8, survey.next_row, 1)
        self.assert_row(survey, 2, 0, 7 * 256, 23_040)

    def test_the_initial_radius_is_kept(self) -> None:
        """Ten within R0 at 0 0; without the far point R0 is 0, and four are chosen."""
        points = [(x, 0, x) for x in range(1, 11)] + [(1000, 1000, 100)]
        survey = self.begun(points, Grid(0, 0, 1, 1, 1, 1))
        survey.drop(1000, 1000)
        self.assertEqual(exact.nearest_answer(survey.exact_lookup(0, 0)), 323)
        self.assert_row(survey, 1, 0, 484)

    def test_no_room_taken(self) -> None:
        """256 points at the begin, and 256 others then."""
        survey = self.begun([(9, y, 1) for y in range(256)], Grid(9, 0, 1, 85, 1, 4))
        survey.clear()
        for y in range(256):
            survey.add(9, y, 2)
        self.assert_refused(5, survey.add, 8, 0, 0)
        for row in range(4):
            self.assert_row(survey, 1, row, 256)

    def test_the_copy_is_independent(self) -> None:
        survey = self.begun(PAIR, self.ALONG)
        begun = survey.filling.begun
        self.assertIsNone(begun.filling)
        survey.change(3, 0, 5)
        self.assertEqual((begun.values[3, 0], survey.values[3, 0]), (0, 5))
        begun.values[3, 0] = 9
        self.assertEqual(survey.values[3, 0], 5)

    def test_a_survey_file_has_no_grid(self) -> None:
        survey = self.begun(PAIR, self.ALONG)
        self.assertEqual(survey.write(99), survey_of(PAIR).write(99))

    def test_row_locations(self) -> None:
        grid = Grid(5, 7, 2, 3, 3, 2)
        self.assertEqual(exact_files.row_locations(grid, 1), [(5, 10), (7, 10), (9, 10)])
        rows = [exact_files.row_locations(grid, row) for row in range(2)]
        self.assertEqual(exact_files.grid_locations(grid), rows[0] + rows[1])


class AfterEveryList(unittest.TestCase):
    def test_rows_are_the_first_of_the_grid(self) -> None:
        """Of random lists, in order: of the grid made in one go at the last accepted begin."""
        rng, compared = Random(47), 0
        lists = [mixed_calls.mixed_journal(rng, index) for index in range(29)]
        for calls in lists + [row_journals.row_journal(rng, index) for index in range(8)]:
            survey, cells, row, columns = Survey(), [], 0, 0
            for call in calls:
                outcome = permitted.expected(survey, call)[0].outcome
                if outcome is None:
                    continue
                if call.letter == "b":
                    again = survey_of(survey.points())
                    cells = again.grid(Grid(*call.numbers), CELLS.most).filled
                    row, columns = 0, call.numbers[4]
                if call.letter == "r":
                    self.assertEqual(outcome.numbers, (row, columns))
                    self.assertEqual(outcome.filled, cells[row * columns : (row + 1) * columns])
                    row += 1
                    compared += 1
        self.assertGreater(compared, 150)


class Met(NamedTuple):
    """A call of a list, what was being filled before it, and whether it is accepted."""

    call: Call
    before: Filling | None
    points: int
    accepted: bool
    reply: str


def calls_met(listed: Iterable[Journal]) -> Iterator[list[Met]]:
    for journal in listed:
        survey, met = Survey(), []
        for call in journal.calls:
            before, points = survey.filling, len(survey.values)
            case = permitted.expected(survey, call)[0]
            reply = permitted.permitted_text(case.lines[0])
            met.append(Met(call, before, points, case.outcome is not None, reply))
        yield met


def unfinished(filling: Filling | None) -> bool:
    return filling is not None and filling.row < filling.grid.rows


class Making(unittest.TestCase):
    """What the lists of the default seed hold."""

    @classmethod
    def setUpClass(cls) -> None:
        tests = [test for test in part_of_run(FAULTY_PART) if isinstance(test, Journal)]
        cls.journals = [test for test in tests if test.kind in ROW_KINDS]
        cls.met = list(calls_met(cls.journals))
        cls.mixed = list(calls_met(test for test in tests if test.kind == "mixed calls"))

    def assert_met(self, met: Counter, fewest: int, *names: object) -> None:
        for name in names:
            self.assertGreaterEqual(met[name], fewest, name)

    def test_calls_between_rows(self) -> None:
        """Each call, accepted and refused, with a row filled behind it, of an unfinished grid."""
        met = Counter()
        for listed in self.met:
            since: set[str] = set()
            for each in listed:
                if each.call.letter == "r" and each.accepted:
                    met.update(since)
                    since = set()
                elif each.call.letter == "b" and each.accepted:
                    since = set()
                elif unfinished(each.before):
                    told = "" if each.accepted else f" {each.reply}"
                    since.add(each.call.operation.name + told)
        edits = ("add", "change", "drop", "clear", "load")
        refused = ("add refused 1", "add refused 2", "add refused 3", "change refused 1")
        refused += ("change refused 2", "change refused 4", "drop refused 1", "drop refused 4")
        refused += ("begin grid refused 7", "begin grid refused 6", "next row refused 8")
        asked = ("lookup", "lookup with neighbours", "grid", "read ends", "write")
        self.assert_met(met, 10, *edits)
        self.assert_met(met, 3, *refused, *asked, "load refused 9", "grid refused 8")
        self.assert_met(met, 1, "grid file", "esri text", "add refused 5")

    def test_rows(self) -> None:
        """Lent none, too few, the columns, more and the most; numbers of columns and rows."""
        met = Counter()
        for each in (each for listed in self.met for each in listed if each.call.letter == "r"):
            lent, columns = each.call.lent, each.before.grid.columns if each.before else 0
            state = "filling" if unfinished(each.before) else "finished" if each.before else "none"
            enough = "enough" if lent >= columns else "short"
            met[state, enough if lent else "nothing lent"] += 1
            if each.accepted:
                met["most" if lent == CELLS.most else "more" if lent > columns else "exactly"] += 1
                met["one column"] += columns == 1
                met["one row"] += each.before.grid.rows == 1
                met["64 columns"] += columns == 64
                met["64 rows"] += each.before.grid.rows == 64
                met["no point present"] += each.points == 0
                present = len(each.before.begun.values)
                met[f"{present} at the begin"] += 1
        for state in ("filling", "finished", "none"):
            self.assert_met(met, 3, (state, "nothing lent"))
        self.assert_met(met, 5, ("filling", "short"), ("filling", "enough"), ("finished", "enough"))
        self.assert_met(met, 5, ("none", "enough"), "exactly", "more", "one column", "one row")
        self.assert_met(met, 2, "most", "64 columns", "64 rows", "no point present")
        self.assert_met(met, 5, *(f"{count} at the begin" for count in (1, 4, 5, 11, 200, 256)))

    def test_begins(self) -> None:
        """In the middle and after the end; the same numbers and others; refused in each place."""
        met = Counter()
        for each in (each for listed in self.met for each in listed if each.call.letter == "b"):
            state = "none" if each.before is None else "middle"
            state = "finished" if each.before and not unfinished(each.before) else state
            same = each.before is not None and each.before.grid == each.call.numbers
            met[state, each.reply] += 1
            met[state, each.reply, "same" if same else "other"] += 1
        for state in ("middle", "finished"):
            self.assert_met(met, 5, (state, "ok", "same"), (state, "ok", "other"))
            self.assert_met(met, 2, (state, "refused 7"), (state, "refused 6"))
        self.assert_met(met, 5, ("none", "ok"), ("none", "refused 7"), ("none", "refused 6"))
        self.assert_met(met, 2, ("middle", "refused 6", "same"))

    def test_mixed_calls_fill(self) -> None:
        met = Counter()
        for each in (each for listed in self.mixed for each in listed if each.call.letter in "br"):
            met[each.call.letter, "ok" if each.accepted else each.reply.split(" ")[1]] += 1
            met["after row 0"] += each.reply.startswith("row") and each.before.row > 0
        self.assert_met(met, 5, ("b", "ok"), ("b", "7"), ("r", "ok"), ("r", "17"), ("r", "8"))
        self.assert_met(met, 2, ("b", "6"), "after row 0")

    def test_cells_would_move(self) -> None:
        """Rows of which a cell would differ over the survey as it is now, and with its R0."""
        met = Counter()
        for journal in self.journals:
            survey = Survey()
            for call in journal.calls:
                filling = survey.filling
                if call.letter == "r" and unfinished(filling) and filling.grid.columns <= call.lent:
                    right = filling.begun.exact_row(filling.grid, filling.row)
                    for name in ("present", "with_present_radius"):
                        other = getattr(faults_rows, name)(survey, filling)
                        met[name] += right != other.exact_row(filling.grid, filling.row)
                mixed_calls.follow(survey, call)
        self.assert_met(met, 60, "present")
        self.assert_met(met, 20, "with_present_radius")


class BadEnds(unittest.TestCase):
    def test_every_call_is_cut_and_lent_too_much(self) -> None:
        """A begin and a row cut off in their numbers, and one cell more than may be lent."""
        rng = Random(53)
        ends = [bad_journals.bad_end(rng, index) for index in range(60)]
        for letter, length in ((b"b", 13), (b"r", 5)):
            self.assertTrue(any(each[:1] == letter and len(each) < length for each in ends))
        self.assertTrue(any(each.startswith(b"r\0\0\x20\x01") for each in ends))
        for end in ends:
            self.assertEqual(stand_ins.replay(end), b"bad journal\n")

    def test_in_the_middle_of_a_grid(self) -> None:
        """What came before is replied to, and a row at its limit is no bad one."""
        calls = [Call("a", (3, 0, -7)), Call("b", (0, 0, 1, 1, 2, 2)), Call("r", (8192,))]
        for bad in (b"r\0\0\0", b"b" + bytes(11), b"r\0\0\x20\x01"):
            output = replayed(Journal("bad", calls, bad)).output.decode().split("\n")
            self.assertEqual(output[:3] + output[4:], ["ok", "ok", "row 0 2", "bad journal", ""])
            self.assertEqual(output[3].split(" ")[1:4], ["-1792", "-1792", "-23131"])
            self.assertEqual(len(output[3].split(" ")), 8193)


class Holding(unittest.TestCase):
    """Two points between whose values a mean is so near a midpoint that 0 and -1 may come."""

    POINTS = [Call("a", (100, 0, 0)), Call("a", (2260, 0, -1))]
    SIX = (0, 0, 100, 1, 2, 2)
    GRID, BEGIN = Call("g", (*SIX, 4)), Call("b", SIX)
    ROWS = [Call("r", (2,)), Call("r", (3,))]

    def outputs(self, *rows: str) -> list[str]:
        """A line for each row's cells; the grid in one go has -1 in the first cell."""
        grid = ["ok", "ok", "cells 4", "values -1 0 -1 0", "ok"]
        return grid + [line for row in rows for line in row.split("; ")]

    def held(self, calls: list[Call], lines: list[str]) -> int | str | None:
        """Which call is found to differ by the holding alone, if one is; or what came out else."""
        journal, output = Journal("held", calls), "".join(f"{each}\n" for each in lines)
        run = Run(output.encode(), "")
        try:
            checks.check_replies(journal, run, Counter())
        except checks.Difference as difference:
            return f"not permitted in call {difference.at}"
        try:
            row_checks.check_rows(journal, run, Counter())
        except checks.Difference as difference:
            return difference.at
        return None

    def test_free(self) -> None:
        lookups = survey_of([(100, 0, 0), (2260, 0, -1)]).exact_cells(Grid(*self.SIX))
        options = [tuple(exact.permitted_answers(lookup)) for lookup in lookups]
        self.assertEqual(options, [(-1, 0), (0,), (-1, 0), (0,)])

    def test_as_the_grid_before(self) -> None:
        calls = [*self.POINTS, self.GRID, self.BEGIN, *self.ROWS]
        for first, second, found in (
            ("-1 0", "-1 0 -23131", None),
            ("0 0", "-1 0 -23131", 4),
            ("-1 0", "0 0 -23131", 5),
            ("-1 0", "-1 1 -23131", "not permitted in call 5"),
        ):
            rows = (f"row 0 2; values {first}", f"row 1 2; values {second}")
            self.assertEqual(self.held(calls, self.outputs(*rows)), found)

    def test_edits_between(self) -> None:
        """The grid before the begin is of the same points; that after an edit is of others."""
        edit, row = Call("c", (2260, 0, -2)), ["row 0 2", "values 0 0"]
        lines = ["ok", "ok", "ok", "cells 4", "values -1 0 -1 0"]
        self.assertEqual(self.held([*self.POINTS, edit, self.GRID], lines), None)
        before = ["ok", "ok", "cells 4", "values -1 0 -1 0"]
        fill, back = [self.BEGIN, edit, self.ROWS[0]], [Call("c", (2260, 0, -1)), self.BEGIN]
        for calls, came, found in (
            ([self.GRID, *fill], [*before, "ok", "ok", *row], 5),
            (fill, ["ok", "ok", "ok", "ok", *row], None),
            ([edit, self.GRID, *back, self.ROWS[0]], [*lines, "ok", "ok", *row], None),
        ):
            self.assertEqual(self.held([*self.POINTS, *calls], came), found)

    def test_other_numbers(self) -> None:
        """A grid of other six numbers is not what the rows are held against."""
        other = Call("g", (0, 0, 100, 1, 2, 1, 2))
        lines = ["ok", "ok", "cells 2", "values -1 0", "ok", "row 0 2", "values 0 0"]
        calls = [*self.POINTS, other, self.BEGIN, self.ROWS[0]]
        self.assertEqual(self.held(calls, lines), None)

    def test_as_the_row_before(self) -> None:
        """Begun twice, and made in one go afterwards."""
        twice = [*self.POINTS, self.BEGIN, self.ROWS[0], self.BEGIN, self.ROWS[0]]
        lines = ["ok", "ok", "ok", "row 0 2", "values 0 0", "ok", "row 0 2", "values -1 0"]
        self.assertEqual(self.held(twice, lines), 5)
        self.assertEqual(self.held(twice, [*lines[:-1], "values 0 0"]), None)
        after = [*self.POINTS, self.BEGIN, self.ROWS[0], self.GRID]
        lines = [*lines[:5], "cells 4", "values -1 0 -1 0"]
        self.assertEqual(self.held(after, lines), 4)

    def test_counted(self) -> None:
        journal = Journal("held", [*self.POINTS, self.GRID, self.BEGIN, *self.ROWS])
        counts = Counter()
        row_checks.check_rows(journal, replayed(journal), counts)
        self.assertEqual(counts["held row cells"], 4)
        self.assertEqual(counts["held row cells that are free"], 2)


class Needed(unittest.TestCase):
    def test_no_reply_by_itself_shows_the_hidden_faults(self) -> None:
        tests = [test for test in part_of_run(FAULTY_PART) if test.kind == faults_rows.FREE]
        for fault in faults_rows.HIDDEN:
            with self.subTest(fault=fault):
                self.assertEqual(FAULTS[fault].shown_by, faults_rows.FREE)
                with planted(FAULTS[fault].plant):
                    runs = list(map(replayed, tests))
                found = 0
                for test, run in zip(tests, runs):
                    checks.check_replies(test, run, Counter())
                    try:
                        row_checks.check_rows(test, run, Counter())
                    except checks.Difference:
                        found += 1
                self.assertGreater(found, 2)


class Report(unittest.TestCase):
    def found(self, calls: list[Call], fault: str) -> compare.Found:
        with self.assertRaises(compare.Found) as caught:
            compare.run_tests([Journal("report", calls)], programs(fault), SECONDS)
        for path in map(pathlib.Path, caught.exception.paths):
            path.unlink()
        return caught.exception

    def test_begins_and_rows_are_kept(self) -> None:
        """What a row hangs on stays in the shortened journal; lookups and grids are left out."""
        calls = [Call("a", (3, 0, 0)), Call("q", (3, 0)), Call("b", (3, 0, 1, 1, 1, 3))]
        calls += [Call("r", (0,)), Call("r", (1,)), Call("g", (3, 0, 1, 1, 1, 1, 1))]
        calls += [Call("c", (3, 0, 5)), Call("r", (1,)), Call("e")]
        found = self.found(calls, "rows of the survey as it is now")
        shown = ["add 3 0 0", "begin grid 3 0 1 1 1 3", "next row 0", "next row 1"]
        self.assertEqual(found.shown, [*shown, "change 3 0 5", "next row 1"])

    def test_the_grid_is_kept_where_it_is_needed(self) -> None:
        calls = [*Holding.POINTS, Call("q", (5, 5)), Holding.GRID, Call("e"), Holding.BEGIN]
        found = self.found([*calls, Call("r", (2,))], "free cells of rows rounded the other way")
        shown = ["add 100 0 0", "add 2260 0 -1", "grid 0 0 100 1 2 2 4"]
        self.assertEqual(found.shown, [*shown, "begin grid 0 0 100 1 2 2", "next row 2"])
        self.assertEqual(found.difference.expected, "as in call 3: -1 at 0 0")
        self.assertEqual(found.difference.came, "0 in 0 0")


if __name__ == "__main__":
    unittest.main()
