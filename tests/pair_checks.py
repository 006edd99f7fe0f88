"""Holds what came of one journal of a pair against what came of the other."""

from __future__ import annotations

from collections import Counter
from collections.abc import Iterable, Sequence

import exact_files
import mixed_calls
import pair_surveys
from checks import Difference
from exact_files import Grid
from exact_survey import Survey
from metric import Location
from operations import BYTES, CELLS, SIX
from pair_journals import Pair
from programs import Run, excerpt
from protocol import Call

REFUSED = "refused"


def survey_after(calls: Iterable[Call]) -> Survey:
    survey = Survey()
    for call in calls:
        mixed_calls.follow(survey, call)
    return survey


def altered_locations(one: Survey, other: Survey) -> set[Location]:
    """Where the values differ; the two surveys have the same locations."""
    assert one.values.keys() == other.values.keys()
    return {at for at, z in one.values.items() if z != other.values[at]}


def lines_asked(pair: Pair, run: Run) -> list[list[str]]:
    """The lines that came for each question, the last lines of a sound run."""
    lines = run.output.decode("ascii", "replace").split("\n")[:-1]
    wanted = [2 if call.operation.lent else 1 for call in pair.asked]
    ends = [len(lines) - sum(wanted[at + 1 :]) for at in range(len(wanted))]
    return [lines[end - count : end] for end, count in zip(ends, wanted)]


def is_grid(call: Call) -> bool:
    """Whether a call gives the cells of a grid, which a begin does not."""
    return call.operation.fields == (SIX,) and call.operation.lent is not None


def locations_asked(call: Call) -> list[Location]:
    """The location of a lookup, or those of a grid's cells."""
    if is_grid(call):
        return exact_files.grid_locations(Grid(*call.numbers[:6]))
    return [call.numbers[:2]]


def text_cells(data: bytes) -> list[str]:
    """The cells of an Esri text, in a grid's order."""
    rows = data.decode("ascii", "replace").split("\n")[6:-1]
    return [cell for row in reversed(rows) for cell in row.split(" ")]


def shown_at(call: Call, lines: list[str]) -> list[str]:
    """What accepted lines show at each location: a cell, or all that came of a lookup."""
    if not is_grid(call):
        return ["\n".join(lines)]
    if call.operation.lent is CELLS:
        return lines[1].split(" ")[1:]
    shown = lines[1].removeprefix(BYTES.word).strip()
    if call.operation.text:
        return text_cells(bytes.fromhex(shown)[: int(lines[0].split(" ")[1])])
    return [shown[at : at + 4] for at in range(0, len(shown), 4)]


def unaltered_at(survey: Survey, at: Location, altered: set[Location]) -> bool:
    """Whether none of the altered points is a neighbour there."""
    return not altered & pair_surveys.locations_of(survey.exact_lookup(*at).neighbours)


def count_same(counts: Counter[str], call: Call, survey: Survey, at: Location) -> None:
    name = "pair cells" if is_grid(call) else "pair answers"
    counts[name] += 1
    counts[f"{name} that are free"] += pair_surveys.is_free(survey.exact_lookup(*at))


def differ(one: str, other: str, at: int, where: str = "") -> Difference:
    expected, came = (excerpt(each.replace("\n", "; ")) + where for each in (one, other))
    return Difference(f"as in the first journal: {expected}", came, at)


def check_question(
    call: Call, came: tuple[list[str], list[str]], survey: Survey, altered: set[Location], at: int
) -> Counter[str]:
    """Hold the two replies to a question against each other; gives what was compared."""
    counts: Counter[str] = Counter()
    refused = [lines[0].startswith(REFUSED) for lines in came]
    if all(refused):
        return counts
    locations = locations_asked(call)
    unaltered = [unaltered_at(survey, location, altered) for location in locations]
    if any(refused):
        if all(unaltered):
            raise differ(*map("\n".join, came), at)
        return counts
    shown = zip(*(shown_at(call, lines) for lines in came))
    for location, same, (one, other) in zip(locations, unaltered, shown):
        if same and one != other:
            raise differ(one, other, at, f" at {location[0]} {location[1]}")
        if same:
            count_same(counts, call, survey, location)
    return counts


def check_pair(pair: Pair, runs: Sequence[Run], counts: Counter[str]) -> None:
    """Hold two runs, each of which is sound by itself, against each other."""
    one, other = survey_after(pair.one), survey_after(pair.other)
    altered = altered_locations(one, other)
    replies = zip(*(lines_asked(pair, run) for run in runs))
    for at, (call, came) in enumerate(zip(pair.asked, replies)):
        counts.update(check_question(call, came, one, altered, at))
    counts["pairs"] += 1
