"""Shows that pairs of journals are made as told, and that unlike answers of the two are found."""

from __future__ import annotations

import pathlib
import unittest
from collections import Counter
from collections.abc import Callable, Iterator, Sequence
from contextlib import contextmanager
from typing import NamedTuple

import checks
import compare
import exact
import exact_survey
import faults_pairs
import journals
import pair_checks
import pair_surveys
import permitted
import stand_ins
from exact import Lookup, Point
from exact_survey import Survey
from fakes import FAULTS
from grid_inputs import GridInput
from journals import Journal
from metric import PLAIN, Location
from pair_journals import Pair
from programs import Run
from protocol import Call
from test_compare import FAULTY_PART, SECONDS, SOUND_PART, part_of_run, programs

AT_ALL = ("pairs of midpoints", "pairs of free answers")


class Asked(NamedTuple):
    """A location of a lookup or a cell, with the first of a pair's surveys and what is altered."""

    pair: Pair
    call: Call
    at: Location
    survey: Survey
    altered: set[Location]

    def lookup(self) -> Lookup:
        return self.survey.exact_lookup(*self.at)

    def unaltered(self) -> bool:
        return pair_checks.unaltered_at(self.survey, self.at, self.altered)

    def first_left_out(self) -> exact.Ordered:
        ordered = exact.in_order(self.survey.points(), self.at, PLAIN)
        return ordered[len(self.lookup().neighbours)]


def pairs_of_run(divisor: int = FAULTY_PART) -> list[Pair]:
    return [test for test in part_of_run(divisor) if isinstance(test, Pair)]


def asked_of(pairs: Sequence[Pair]) -> Iterator[Asked]:
    for pair in pairs:
        one, other = pair_checks.survey_after(pair.one), pair_checks.survey_after(pair.other)
        altered = pair_checks.altered_locations(one, other)
        for call in pair.asked:
            for at in pair_checks.locations_asked(call):
                yield Asked(pair, call, at, one, altered)


def way_to(calls: Sequence[Call], at: Location) -> str:
    """The letters of the accepted calls that have a bearing on a location."""
    survey, letters = Survey(), ""
    for call in calls:
        accepted = permitted.expected(survey, call)[0].outcome is not None
        there = call.letter in "lk" or call.numbers[:2] == at
        if call.operation.alters and accepted and there:
            letters += call.letter
    return letters


def added(calls: Sequence[Call]) -> list[Location]:
    return [call.numbers[:2] for call in calls if call.letter == "a"]


def idle_calls(calls: Sequence[Call]) -> Counter[str]:
    """Refused calls and questions."""
    survey, met = Survey(), Counter()
    for call in calls:
        refused = permitted.expected(survey, call)[0].outcome is None
        met["refused"] += refused
        met["questions"] += not refused and not call.operation.alters
    return met


@contextmanager
def planted(plant: Callable[[], None]) -> Iterator[None]:
    """With a fault, or another stand-in, in this program itself."""
    owners = (exact, exact_survey.Survey, stand_ins)
    kept = [(owner, dict(vars(owner))) for owner in owners]
    plant()
    try:
        yield
    finally:
        for owner, attributes in kept:
            for name, value in attributes.items():
                if vars(owner)[name] is not value:
                    setattr(owner, name, value)


def replayed(journal: Journal) -> Run:
    return Run(stand_ins.replay(journals.encode(journal)), "")


def runs_of(pair: Pair) -> tuple[Run, Run]:
    one, other = map(replayed, pair.journals())
    return one, other


class Making(unittest.TestCase):
    """What the pairs of the default seed hold."""

    @classmethod
    def setUpClass(cls) -> None:
        cls.pairs = pairs_of_run()
        cls.asked = list(asked_of(cls.pairs))
        cls.compared = [each for each in cls.asked if each.unaltered()]

    def assert_met(self, met: Counter, fewest: int, *names: object) -> None:
        for name in names:
            self.assertGreaterEqual(met[name], fewest, name)

    def test_same_locations_and_other_values(self) -> None:
        for each in self.asked:
            self.assertGreaterEqual(len(each.survey.values), 5)
            self.assertTrue(each.altered)

    def test_the_choice_goes_by_locations(self) -> None:
        """In both surveys the same are chosen, at the same R, also where one is altered."""
        others = {id(pair): pair_checks.survey_after(pair.other) for pair in self.pairs}
        for each in self.asked:
            found = [each.lookup(), others[id(each.pair)].exact_lookup(*each.at)]
            one, other = ([near[:2] + near[3:] for near in lookup.neighbours] for lookup in found)
            self.assertEqual((one, found[0].radius), (other, found[1].radius))
            self.assertEqual(found[0] == found[1], each.unaltered())

    def test_nothing_altered_is_chosen(self) -> None:
        """Of some kinds only at its own location; of others at some locations, not at others."""
        met = Counter((each.pair.kind, each.unaltered()) for each in self.asked)
        lookups = [each for each in self.asked if each.call.letter in "qn"]
        for each in lookups:
            if each.pair.kind in AT_ALL:
                self.assertNotEqual(each.unaltered(), each.at in each.altered)
        for kind in ("pairs of lookups", "pairs of grids"):
            self.assertGreater(met[kind, False], 15)
            self.assertGreater(met[kind, True], 2 * met[kind, False])

    def test_ways(self) -> None:
        """Other values by each call; adds in another order; idle calls in one journal only."""
        met = Counter()
        for pair in self.pairs:
            surveys = [pair_checks.survey_after(calls) for calls in (pair.one, pair.other)]
            at = min(pair_checks.altered_locations(*surveys))
            met.update({way_to(pair.one, at), way_to(pair.other, at)})
            one, other = (added(calls) for calls in (pair.one, pair.other))
            met["order"] += sorted(one) == sorted(other) and one != other
            idle = [idle_calls(calls) for calls in (pair.one, pair.other)]
            for what in ("refused", "questions"):
                met[what] += (idle[0][what] > 0) != (idle[1][what] > 0)
        self.assert_met(met, 3, "a", "ac", "ada", "l", "al", "lc", "aka", "order")
        self.assert_met(met, 8, "refused", "questions")

    def test_rules(self) -> None:
        """Each rule, where more than four points are present and none chosen is altered."""
        met = Counter()
        for each in self.compared:
            lookup, initial = each.lookup(), each.survey.exact_ends().initial_radius
            within = sum(
                exact.distance(ordered[0]) <= initial
                for ordered in exact.in_order(each.survey.points(), each.at, PLAIN)
            )
            rule = 3 if within <= 4 else 4 if within <= 10 else 5
            rule = 1 if lookup.neighbours[0].kind == exact.COINCIDENT else rule
            met[rule] += 1
            met[rule, each.pair.kind] += 1
        self.assert_met(met, 50, 1, 3, 4, 5)
        self.assert_met(met, 4, *((rule, kind) for rule in (3, 4, 5) for kind in AT_ALL))

    def test_just_not_chosen(self) -> None:
        """The altered fifth and eleventh; tied, by x and by y; at R; one 256th beyond R0."""
        met = Counter()
        for each in self.compared:
            lookup, initial = each.lookup(), each.survey.exact_ends().initial_radius
            last, count = lookup.neighbours[-1], len(lookup.neighbours)
            if last.kind == exact.COINCIDENT or count == len(each.survey.values):
                continue
            squared, x, y, _ = each.first_left_out()
            if (x, y) in each.altered:
                met["fifth"] += count == 4
                met["eleventh"] += count == 10 and lookup.radius != initial
                tied = squared == PLAIN.squared_distance(each.at, last[:2])
                met["tied by x"] += tied and last.x < x
                met["tied by y"] += tied and last.x == x
                met["at R"] += exact.distance(squared) == lookup.radius
                met["beyond R0"] += exact.distance(squared) == initial + 1
        names = ("fifth", "eleventh", "tied by x", "tied by y", "at R", "beyond R0")
        self.assert_met(met, 4, *names)

    def test_altered_values(self) -> None:
        """One, several and all that can be; to the least and to the greatest value."""
        met = Counter()
        for pair in self.pairs:
            one, other = (pair_checks.survey_after(calls) for calls in (pair.one, pair.other))
            altered = pair_checks.altered_locations(one, other)
            values = {survey.values[at] for at in altered for survey in (one, other)}
            met["least"] += -128 in values
            met["greatest"] += 127 in values
            lookups = [each for each in asked_of([pair]) if each.call.letter in "qn"]
            kept = [each.lookup() for each in lookups if each.at not in altered]
            chosen = [pair_surveys.locations_of(lookup.neighbours) for lookup in kept]
            met["all"] += altered == set(one.values) - set().union(*chosen)
            met["one"] += len(altered) == 1
            met["several"] += 1 < len(altered)
        self.assert_met(met, 10, "least", "greatest", "all", "one", "several")

    def test_free_answers(self) -> None:
        """Lookups and cells that may be rounded either way, at midpoints and beside them."""
        met = Counter()
        for each in self.compared:
            if pair_surveys.is_free(each.lookup()):
                exactly = (each.lookup().mean * 512).denominator == 1
                met[each.call.letter] += 1
                met["at a midpoint" if exactly else "beside one"] += 1
        self.assert_met(met, 60, "q", "n", "at a midpoint", "beside one")
        self.assert_met(met, 15, "g", "f", "p")


class Holding(unittest.TestCase):
    """A ring of eight around 100 100, and two points far off, one of which is altered."""

    RING = [(105, 100), (95, 100), (100, 105), (100, 95)]
    RING += [(103, 104), (97, 96), (104, 97), (96, 103)]
    FAR, BESIDE = (310, 310), (312, 310)
    GRID = (99, 100, 201, 201, 2, 2)

    def setUp(self) -> None:
        adds = [Call("a", (*at, index)) for index, at in enumerate([*self.RING, self.BESIDE])]
        asked = [Call("q", (101, 100)), Call("n", (101, 100, 11)), Call("g", (*self.GRID, 5))]
        asked += [Call("f", (*self.GRID, 30)), Call("p", (*self.GRID, 200))]
        one, other = ([*adds, Call("a", (*self.FAR, z))] for z in (-5, 90))
        self.pair = Pair("doctored", one, other, asked)
        self.runs = runs_of(self.pair)
        self.lines = self.runs[1].output.decode().split("\n")

    def held(self, pair: Pair, other: str) -> int | None:
        """Which question is found to differ with another output of the second journal, if any."""
        try:
            pair_checks.check_pair(pair, (self.runs[0], Run(other.encode(), "")), Counter())
        except checks.Difference as difference:
            return difference.at
        return None

    def doctored(self, line: int, old: str, new: str) -> int | None:
        """The same with a part of a line, counted from the end, replaced."""
        lines = [*self.lines]
        self.assertIn(old, lines[line])
        lines[line] = lines[line].replace(old, new, 1)
        return self.held(self.pair, "\n".join(lines))

    def test_sound(self) -> None:
        counts = Counter()
        for journal, run in zip(self.pair.journals(), self.runs):
            checks.check_replies(journal, run, Counter())
        pair_checks.check_pair(self.pair, self.runs, counts)
        found = [counts[name] for name in ("pairs", "pair answers", "pair cells")]
        self.assertEqual(found, [1, 2, 9])
        self.assertEqual(self.held(self.pair, "\n".join(self.lines)), None)

    def test_answer_count_and_radius(self) -> None:
        for line, at in ((-10, 0), (-9, 1)):
            word, answer, count, radius = self.lines[line].split(" ")
            for doctored in (
                (int(answer) + 1, count, radius),
                (answer, int(count) + 1, radius),
                (answer, count, int(radius) + 1),
            ):
                new = " ".join([word, *map(str, doctored)])
                self.assertEqual(self.doctored(line, self.lines[line], new), at)

    def test_records(self) -> None:
        """Each field of each record, and the untouched one behind them."""
        records = self.lines[-8].split(" ")[1:]
        self.assertEqual(len(records), 11)
        for record in sorted(set(records)):
            fields = record.split(",")
            for field in range(5):
                new = [*fields[:field], str(int(fields[field]) + 1), *fields[field + 1 :]]
                self.assertEqual(self.doctored(-8, record, ",".join(new)), 1)

    def test_cells(self) -> None:
        """The last cell, at 300 301, chooses what is altered: only its own difference may stay."""
        cells = self.lines[-6].split(" ")[1:5]
        for position, cell in enumerate(cells):
            new = [*cells[:position], str(int(cell) + 1), *cells[position + 1 :]]
            found = self.doctored(-6, " ".join(cells), " ".join(new))
            self.assertEqual(found, 2 if position < 3 else None, position)

    def test_bytes_of_grid_files(self) -> None:
        shown = self.lines[-4].split(" ")[1]
        for position in range(4):
            at = 4 * position
            new = shown[: at + 3] + ("1" if shown[at + 3] == "0" else "0") + shown[at + 4 :]
            found = self.doctored(-4, shown, new)
            self.assertEqual(found, 3 if position < 3 else None, position)

    def test_cells_of_texts(self) -> None:
        """The highest row comes first: its second cell may differ, in its length too."""
        shown = bytes.fromhex(self.lines[-2].split(" ")[1])
        length = int(self.lines[-3].split(" ")[1])
        *head, high, low = shown[:length].decode().split("\n")[:-1]
        for rows, at in (
            ([high.replace(" ", "1 "), low], 4),
            ([high + "1", low], None),
            ([high, low.replace(" ", "1 ")], 4),
            ([high, low + "1"], 4),
        ):
            text = "".join(line + "\n" for line in [*head, *rows]).encode()
            lines = [*self.lines]
            lines[-3] = f"wrote {len(text)}"
            lines[-2] = "bytes " + (text + shown[length:]).hex()
            self.assertEqual(self.held(self.pair, "\n".join(lines)), at, rows)

    def test_refused_in_one_only(self) -> None:
        """Told where nothing altered is chosen at any of the cells."""
        for columns, at in ((1, 0), (2, None)):
            asked = [Call("g", (99, 301, 201, 1, columns, 1, 4))]
            pair = self.pair._replace(asked=asked)
            self.runs = runs_of(pair)
            lines = self.runs[1].output.decode().split("\n")
            lines[-3] = "refused 8"
            self.assertEqual(self.held(pair, "\n".join(lines)), at)


class Needed(unittest.TestCase):
    """Faults that hang on what is not chosen, in answers that are each permitted."""

    def assert_permitted(self, fault: str, listed: Sequence[Journal]) -> None:
        with planted(FAULTS[fault].plant):
            runs = list(map(replayed, listed))
        for journal, run in zip(listed, runs):
            checks.check_replies(journal, run, Counter())

    def test_the_journals_of_pairs_one_by_one_show_none(self) -> None:
        pairs = pairs_of_run()
        for fault in faults_pairs.HIDDEN:
            with self.subTest(fault=fault):
                telling = [pair for pair in pairs if pair.kind == FAULTS[fault].shown_by]
                listed = [journal for pair in telling for journal in pair.journals()]
                self.assert_permitted(fault, listed)

    def test_other_kinds_do_not_show_the_first(self) -> None:
        tests = [test for test in part_of_run(SOUND_PART) if "widest" not in test.kind]
        self.assertEqual(faults_pairs.HIDDEN[0], "least value of all points")
        listed = [test for test in tests if isinstance(test, Journal)]
        self.assert_permitted(faults_pairs.HIDDEN[0], listed)
        inputs = [test for test in tests if isinstance(test, GridInput)]
        with planted(FAULTS[faults_pairs.HIDDEN[0]].plant):
            files = [Run(stand_ins.grid(test.data), "") for test in inputs]
            texts = [Run(stand_ins.esri(test.data), "") for test in inputs]
        for test, file, text in zip(inputs, files, texts):
            checks.check_grid_file(test, file, Counter())
            checks.check_esri_text(test, text, Counter())

    def test_a_sound_program_in_floats_passes(self) -> None:
        pairs = pairs_of_run()
        with planted(faults_pairs.from_origin(faults_pairs.least_chosen)):
            runs = list(map(runs_of, pairs))
        counts = Counter()
        for pair, both in zip(pairs, runs):
            for journal, run in zip(pair.journals(), both):
                checks.check_replies(journal, run, counts)
            pair_checks.check_pair(pair, both, counts)
        self.assertEqual(counts["pairs"], len(pairs))

    def test_many_midpoints_show_the_first(self) -> None:
        """The float rounding differs in a good part of them, by the values that are not chosen."""
        origin, unlike, free = faults_pairs.ORIGINS[faults_pairs.HIDDEN[0]], 0, 0
        for each in asked_of(pairs_of_run()):
            if each.call.letter != "q" or each.pair.kind != faults_pairs.MIDPOINTS:
                continue
            free, answers = free + 1, set()
            for calls in (each.pair.one, each.pair.other):
                survey = pair_checks.survey_after(calls)
                look_up = faults_pairs.float_look_up(exact.look_up, origin)
                initial = survey.exact_ends().initial_radius
                found = look_up(survey.points(), initial, each.at, PLAIN)
                answers.add(exact.nearest_answer(found))
            unlike += len(answers) > 1
        self.assertGreater(20 * unlike, free)


class Report(unittest.TestCase):
    def test_shows_both_journals(self) -> None:
        """Shortened to the calls that alter and the one question; what is kept differs again."""
        centre, ring = (1000, 1000), [(1075, 1000), (1021, 1072), (1021, 928), (979, 1072)]
        points = [Point(1001, 1000, 7), Point(985, 1000, 11)]
        points += [Point(x, y, 9) for x, y in ring]
        adds = [Call("a", point) for point in points]
        asked = [Call("q", (5, 5)), Call("q", centre), Call("e")]
        pair = Pair("report", [*adds, Call("e")], [*adds, Call("c", (*ring[0], 8))], asked)
        with self.assertRaises(compare.Found) as caught:
            compare.run_tests([pair], programs("free by the sum of all values"), SECONDS)
        found = caught.exception
        listed = [f"add {point.x} {point.y} {point.z}" for point in points]
        shown = ["the first journal:", *listed, "the second journal:", *listed]
        shown += ["change 1075 1000 8", "both then:", "lookup 1000 1000"]
        self.assertEqual(found.shown, shown)
        short = Pair("report", adds, [*adds, pair.other[-1]], [asked[1]])
        for path, journal in zip(found.paths, short.journals(), strict=True):
            self.assertEqual(pathlib.Path(path).read_bytes(), journals.encode(journal))
            self.assertIn(path, compare.report(found))
            pathlib.Path(path).unlink()
        for text in ("expected: as in the first journal: found ", "came:     found "):
            self.assertIn(text, compare.report(found))


if __name__ == "__main__":
    unittest.main()
