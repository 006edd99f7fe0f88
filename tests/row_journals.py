"""Makes lists of calls in which grids are filled row by row, with other calls between the rows."""

from __future__ import annotations

from collections.abc import Callable, Iterable, Sequence
from random import Random

import damage
import ends_journals
import exact_files
import free_rounding
import mixed_calls
import pair_journals
import pair_surveys
import protocol
import surveys
from exact import Point
from exact_files import Grid
from exact_survey import Survey
from grids import Numbers, full_side, grid_near, grid_of, improper_grid, proper_grid, single_side
from metric import Location
from mixed_calls import Scene
from operations import CELLS
from protocol import Call
from random_calls import ANY_SURVEY, entry, grid_calls, lookup_call, row_call, with_ends

# How many points are present at first: those about which the choice changes, and many.
SIZES = (11, 5, 4, 1, 256, 12, 200, 30)
# The side of the square that they are in.
SIDES = (12, 60, 400, surveys.SIDE)
# How often a grid is begun in a list.
TURNS = 5

# Makes calls to come between two rows.
Maker = Callable[[Random, Scene], list[Call]]


def some_points(rng: Random, size: int) -> list[Point]:
    side = max(rng.choice(SIDES), 20 if size > 100 else 0)
    left, low = rng.randrange(surveys.SIDE - side + 1), rng.randrange(surveys.SIDE - side + 1)
    draw = lambda: (left + rng.randrange(side), low + rng.randrange(side))
    return surveys.with_values(rng, surveys.gather(size, draw))


def played(scene: Scene, calls: Iterable[Call]) -> list[Call]:
    """The calls, which the scene has followed."""
    made = list(calls)
    for call in made:
        mixed_calls.follow(scene.survey, call)
    return made


# The six numbers.


def grid_across(rng: Random, points: Sequence[Point]) -> Numbers:
    """Over many of the points, at times one column or one row of that."""
    x0, y0, step_x, step_y, columns, rows = pair_journals.grid_over(rng, points)
    narrow = rng.randrange(5)
    return x0, y0, step_x, step_y, 1 if narrow == 0 else columns, 1 if narrow == 1 else rows


def some_numbers(rng: Random, points: Sequence[Point]) -> Numbers:
    near, across = grid_near(rng, points), grid_across(rng, points)
    return rng.choice((across, across, across, near, proper_grid(rng)))


# Calls between two rows: accepted edits.


def cells_to_come(scene: Scene) -> list[Location]:
    """The locations of the row that comes next, or of the last one."""
    filling = scene.survey.filling
    if filling is None:
        return [point[:2] for point in scene.pool]
    return exact_files.row_locations(filling.grid, min(filling.row, filling.grid.rows - 1))


def add(rng: Random, scene: Scene) -> list[Call]:
    """At a cell of the next row, or near it; or in a corner of the domain, which widens R0."""
    x, y = rng.choice(cells_to_come(scene))
    near = [(x, y), (x + 1, y), (x, y - 1), (x - 2, y + 1), *surveys.FAR_CORNERS]
    missing = [at for at in surveys.keep_on_domain(near) if at not in scene.survey.values]
    return [Call("a", (*rng.choice(missing or near), rng.choice((-128, 127))))]


def other_value(z: int) -> int:
    return -1 - z if abs(z) > 20 else 127


def present(rng: Random, scene: Scene, most: int) -> list[Point]:
    points = scene.survey.points()
    return rng.sample(points, min(len(points), rng.randint(1, most)))


def change(rng: Random, scene: Scene) -> list[Call]:
    """One value, or many."""
    points = present(rng, scene, rng.choice((1, 40)))
    return [Call("c", (*point[:2], other_value(point.z))) for point in points]


def drop(rng: Random, scene: Scene) -> list[Call]:
    """One point, or several, at times all."""
    return [Call("d", point[:2]) for point in present(rng, scene, rng.choice((1, 12)))]


def clear(rng: Random, scene: Scene) -> list[Call]:
    return [Call("k")]


def load(rng: Random, scene: Scene) -> list[Call]:
    """A file with other values at the same locations, with some of the points, or with none."""
    other = [point._replace(z=other_value(point.z)) for point in scene.pool]
    some = rng.sample(scene.pool, rng.randint(1, len(scene.pool)))
    return [protocol.load(damage.sound_file(rng, rng.choice((other, some, other, some, []))))]


def load_again(rng: Random, scene: Scene) -> list[Call]:
    """The points that were there at first."""
    return [protocol.load(damage.sound_file(rng, scene.pool))]


# Calls between two rows: refused ones, and questions.


def refused(rng: Random, scene: Scene) -> list[Call]:
    """An edit or a question, each for one of its reasons."""
    return [ends_journals.refused(rng, scene)]


def refused_edit(rng: Random, scene: Scene) -> list[Call]:
    """An add, a change or a drop."""
    while True:
        call = ends_journals.refused(rng, scene)
        if call.letter in "acd":
            return [call]


def refused_load(rng: Random, scene: Scene) -> list[Call]:
    file = damage.damage(rng, damage.random_preamble(rng), damage.few_points(rng))
    return [protocol.load(rng.choice((file, b"", damage.sound_file(rng, scene.pool)[:-1])), True)]


def refused_begin(rng: Random, scene: Scene) -> list[Call]:
    """With 7; with 6 too, and then with 6 alone, where no point is present."""
    proper = [] if scene.survey.values else [Call("b", some_numbers(rng, scene.pool))]
    return [Call("b", improper_grid(rng)), *proper]


def cleared_begin(rng: Random, scene: Scene) -> list[Call]:
    """The points go and a begin of the same or other numbers is refused with 6."""
    filling = scene.survey.filling
    numbers = some_numbers(rng, scene.pool)
    same = filling.grid if filling is not None and rng.randrange(2) else numbers
    return [Call("k"), Call("b", tuple(same))]


def lookup(rng: Random, scene: Scene) -> list[Call]:
    return [lookup_call(rng, rng.choice(cells_to_come(scene)))]


def question(rng: Random, scene: Scene) -> list[Call]:
    return [rng.choice((Call("e"), Call("w", (ANY_SURVEY,)), Call("w", (11,))))]


def grid(rng: Random, scene: Scene) -> list[Call]:
    """The same grid of the survey as it is now, another one, its file or its text."""
    filling = scene.survey.filling
    numbers = filling.grid if filling is not None else some_numbers(rng, scene.pool)
    same = Call("g", (*numbers, numbers[4] * numbers[5] + rng.choice((0, 3, -1))))
    other = some_numbers(rng, scene.pool)
    text = Call("p", (*other, pair_journals.TEXT_HEAD + pair_journals.TEXT_CELL * 81))
    return [rng.choice((same, same, *grid_calls(rng, other), text))]


EDITS: tuple[Maker, ...] = (change, add, drop, load, clear, load_again)
OTHERS: tuple[Maker, ...] = (refused_edit, refused_edit, refused, refused_load, refused_begin)
OTHERS += (lookup, grid, question)


def between(rng: Random, scene: Scene, edits: Sequence[Maker]) -> list[Call]:
    """None, one or several calls, most often with an edit among them."""
    makers = rng.choices(edits, k=rng.choice((0, 1, 1, 1, 2)))
    makers += rng.choices(OTHERS, k=rng.choice((0, 0, 1, 2)))
    rng.shuffle(makers)
    return [call for maker in makers for call in played(scene, maker(rng, scene))]


# Rows.


def short_rows(rng: Random, scene: Scene) -> list[Call]:
    """Most often none; or one lent too little, or none at all, or several of these."""
    filling = scene.survey.filling
    columns = filling.grid.columns if filling is not None else 1
    lents = rng.choice(([], [], [], [columns - 1], [0], [columns - 1, 0, columns // 2]))
    return [Call("r", (lent,)) for lent in lents]


def whole_row(rng: Random, scene: Scene) -> Call:
    """Lent the columns, or more."""
    filling = scene.survey.filling
    columns = filling.grid.columns if filling is not None else 1
    more = rng.choice((0, 0, 0, 0, 1, 5, columns, CELLS.most - columns if columns > 4 else 2))
    return Call("r", (columns + more,))


def filled(
    rng: Random, scene: Scene, numbers: Numbers, rows: int, edits: Sequence[Maker]
) -> list[Call]:
    """The grid, most often, a begin of it, and so many rows, with calls between them."""
    cells = numbers[4] * numbers[5]
    calls = [Call("g", (*numbers, cells + rng.choice((0, 0, 4))))] if rng.randrange(4) else []
    calls = played(scene, [*calls, Call("b", numbers)])
    for _ in range(rows):
        calls += between(rng, scene, edits)
        calls += played(scene, short_rows(rng, scene))
        calls += played(scene, [whole_row(rng, scene)])
    return calls


def after_the_last(rng: Random, scene: Scene) -> list[Call]:
    """Rows lent none and enough, behind a begin that is refused at times and behind an edit."""
    calls = played(scene, [row_call(rng, scene.survey), Call("r", (0,))])
    makers = (refused_begin, cleared_begin, change, load_again, lookup)
    calls += played(scene, rng.choice(makers)(rng, scene))
    return calls + played(scene, [whole_row(rng, scene)])


def before_any(rng: Random, points: Sequence[Point]) -> list[Call]:
    """Rows with no grid begun, and begins with no point."""
    calls = [Call("r", (lent,)) for lent in (0, rng.randint(1, 64))]
    calls += [Call("b", improper_grid(rng)), Call("b", some_numbers(rng, points))]
    return rng.sample(calls, len(calls)) + [Call("r", (rng.choice((0, 64, CELLS.most)),))]


def rows_to_fill(rng: Random, numbers: Numbers) -> int:
    """All of them; or some, so that the next begin comes in the middle; few of many."""
    rows = min(numbers[5], 6)
    return rng.choice((rows, rows, rng.randint(0, rows), max(1, rows - 1)))


def row_journal(rng: Random, index: int) -> list[Call]:
    """Grids begun one after the other, often the same; edits of one kind, or of all kinds."""
    points = some_points(rng, SIZES[index % len(SIZES)])
    scene = Scene(points, Survey())
    calls = played(scene, before_any(rng, points) + entry(rng, points))
    calls += played(scene, [Call("r", (rng.choice((0, 9)),))])
    numbers = some_numbers(rng, points)
    for turn in range(TURNS):
        edits = EDITS if turn % 2 else (EDITS[(index + turn // 2) % len(EDITS)], load_again)
        calls += filled(rng, scene, numbers, rows_to_fill(rng, numbers), edits)
        if not rng.randrange(3):
            calls += after_the_last(rng, scene)
        if not scene.survey.values and rng.randrange(3):
            calls += played(scene, entry(rng, points))
        numbers = rng.choice((numbers, some_numbers(rng, points), some_numbers(rng, points)))
    return with_ends(calls) if index % 4 == 1 else calls


# Cells that may be rounded either way.


def free_grid(rng: Random, index: int) -> tuple[list[Point], Numbers]:
    """A survey, and a grid over it of which up to three cells are free."""
    points, _ = pair_journals.survey_with_five(rng, index)
    numbers = pair_journals.grid_over(rng, points)
    cells = exact_files.grid_locations(Grid(*numbers))
    freed, _ = pair_surveys.freed(rng, points, rng.sample(cells, len(cells)), 3)
    return freed, numbers


def midpoint_grid(rng: Random, index: int) -> tuple[list[Point], Numbers]:
    """A survey, and one column or one row in it with a mean at a midpoint."""
    points, locations = pair_surveys.midpoints(rng, index)
    x, y = rng.choice(locations)
    step, before = rng.choice((1, 1, 2)), rng.randrange(2)
    if rng.randrange(2):
        return points, (x, y - before * step, 1, step, 1, 3)
    return points, (x - before * step, y, step, 1, 3, 1)


FREE = (free_rounding.make, free_grid, midpoint_grid)


def free_row_journal(rng: Random, index: int) -> list[Call]:
    """The grid in one go; twice row by row of the same points; and once more in one go."""
    points, numbers = FREE[index % len(FREE)](rng, index // len(FREE))
    scene = Scene(points, Survey())
    calls = played(scene, entry(rng, points))
    made = Call("g", (*numbers, numbers[4] * numbers[5]))
    for edits in (EDITS, EDITS[: rng.randint(1, 5)]):
        calls += [made, *filled(rng, scene, numbers, numbers[5], edits)]
        calls += played(scene, load_again(rng, scene))
    return [*calls, made]


# The most columns and rows.


def row_by_row(rng: Random, scene: Scene, numbers: Numbers, lents: Iterable[int]) -> list[Call]:
    """A begin, and rows lent so much, each behind an edit of one point."""
    calls = played(scene, [Call("b", numbers)])
    for lent in lents:
        calls += played(scene, rng.choice((change, drop, add))(rng, scene)[:1])
        calls += played(scene, [Call("r", (lent,))])
    return calls


def widest_row_journal(rng: Random, index: int) -> list[Call]:
    """64 columns, lent too little, enough and the most; then one column of 64 rows and one more."""
    points = some_points(rng, (256, 60)[index % 2])
    scene = Scene(points, Survey())
    calls = played(scene, entry(rng, points))
    columns, rows = full_side(rng), full_side(rng)
    lents = (63, 64, (65, CELLS.most)[index % 2])
    calls += row_by_row(rng, scene, grid_of(columns, rows), lents)
    return calls + row_by_row(rng, scene, grid_of(single_side(rng), rows), (1,) * 65)
