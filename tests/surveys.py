"""Makes random and hostile surveys, each with locations where a lookup is telling."""

from __future__ import annotations

from collections.abc import Callable, Iterable, Sequence
from functools import cache
from math import isqrt
from random import Random

import exact
import shapes
from exact import Point
from metric import Location, Offset

SIDE = exact.GREATEST_COORDINATE + 1
COUNTS = (1, 2, 3, 4, 5, 5, 6, 7, 8, 9, 10, 11, 12, 13, 16, 20, 25, 32, 50, 90)
# The locations of a survey, and those to aim lookups at.
Made = tuple[list[Location], list[Location]]
# Values between which the text of a mean changes its sign or its length, or is longest.
NARROW = ((-1, 0), (-1, 0, 1), (-10, -9), (9, 10), (-100, -99), (99, 100), (-128, -100))
# Three of these enclose half of the domain, all of them the whole.
FAR_CORNERS = ((0, 0), (0, 4095), (4095, 0), (4095, 4095))
# π to 18 decimals, to find the surveys whose radius would differ under it.
PI = (3_141_592_653_589_793_238, 10**18)


def keep_on_domain(locations: Iterable[Location]) -> list[Location]:
    return [location for location in locations if exact.on_domain(*location)]


def gather(count: int, draw: Callable[[], Location]) -> list[Location]:
    """Up to `count` different locations on the domain, as `draw` gives them."""
    found: dict[Location, None] = {}
    for _ in range(5 * count):
        location = draw()
        if exact.on_domain(*location):
            found[location] = None
        if len(found) == count:
            break
    return list(found) or [(0, 0)]


def with_values(rng: Random, locations: Iterable[Location]) -> list[Point]:
    """Points at the locations, in the order given, their values in one of several manners."""
    manner = rng.randrange(5)
    points = []
    for index, (x, y) in enumerate(locations):
        z = (
            rng.randint(-128, 127),
            rng.choice((-128, 127)),
            rng.choice((-128, 0, 127)),
            index % 256 - 128,
            rng.choice((-1, 0, 1)),
        )[manner]
        points.append(Point(x, y, z))
    return points


def with_narrow_values(rng: Random, points: Iterable[Point]) -> list[Point]:
    """The points with values whose means have a whole part of 0, or one that gains a digit."""
    values = rng.choice(NARROW)
    return [point._replace(z=rng.choice(values)) for point in points]


def uniform(rng: Random) -> Made:
    return gather(rng.choice(COUNTS), lambda: (rng.randrange(SIDE), rng.randrange(SIDE))), []


def crowded(rng: Random) -> Made:
    """Up to the most points a survey holds."""
    count = rng.choice((170, 255, 256))
    side = rng.choice((20, 200, SIDE))
    return gather(count, lambda: (rng.randrange(side), rng.randrange(side))), []


def diagonal(rng: Random) -> Made:
    """Along a diagonal, where rounded distances push cosines above 1."""
    spread = rng.choice((0, 0, 1, 3, 20))
    length = rng.choice((12, 100, SIDE))
    start = rng.randrange(SIDE - length + 1)

    def draw() -> Location:
        along = start + rng.randrange(length)
        return along + rng.randint(-spread, spread), along + rng.randint(-spread, spread)

    return gather(rng.choice(COUNTS), draw), keep_on_domain([(start - 1, start - 1)])


def lattice(rng: Random) -> Made:
    """On few nodes, so that many distances tie."""
    spacing = rng.choice((1, 1, 2, 3, 5, 64))
    across, down = rng.randint(2, 8), rng.randint(2, 8)
    left = rng.randrange(SIDE - spacing * across)
    low = rng.randrange(SIDE - spacing * down)
    draw = lambda: (left + spacing * rng.randrange(across), low + spacing * rng.randrange(down))
    locations = gather(rng.choice(COUNTS), draw)
    aimed = [
        (left + spacing * rng.randrange(across), low + spacing * rng.randrange(down))
        for _ in range(20)
    ]
    return locations, aimed


def column(rng: Random) -> Made:
    """One x: the polygon's area is 0."""
    x = rng.choice((0, 4095, rng.randrange(SIDE)))
    length = rng.choice((10, 16, SIDE))
    low = rng.randrange(SIDE - length + 1)
    locations = gather(rng.choice(COUNTS), lambda: (x, low + rng.randrange(length)))
    return locations, [(x, low + rng.randrange(length)) for _ in range(15)]


def row(rng: Random) -> Made:
    """One y: the polygon's area is 0."""
    locations, aimed = column(rng)
    return [(y, x) for x, y in locations], [(y, x) for x, y in aimed]


def single(rng: Random) -> Made:
    """One point: one x and one y."""
    return [(rng.choice((0, 4095, rng.randrange(SIDE))), rng.randrange(SIDE))], []


def circle(squared: int) -> list[Offset]:
    """All whole offsets at one distance."""
    reach = range(-isqrt(squared), isqrt(squared) + 1)
    return [(dx, dy) for dx in reach for dy in reach if dx * dx + dy * dy == squared]


def ring(rng: Random) -> Made:
    """Points at equal distance around a location; far corners widen the initial radius."""
    x, y = rng.randint(100, 3900), rng.randint(100, 3900)
    offsets = circle(rng.choice((25, 50, 65, 85, 125, 325, 425, 1105)))
    rng.shuffle(offsets)
    kept = offsets[: rng.choice((5, 8, 11, 12, 12, 36, 36))]
    locations = [(x + dx, y + dy) for dx, dy in kept]
    locations += rng.sample(FAR_CORNERS, rng.choice((0, 0, 3, 3, 4)))
    return locations, [(x, y)] * 2 + [(x + 1, y), (x, y + 1)]


def corners(rng: Random) -> Made:
    edge = (0, 1, 2047, 2048, 4094, 4095)
    draw = lambda: (rng.choice(edge), rng.choice(edge))
    return gather(rng.choice((4, 5, 8, 12, 30)), draw), [draw() for _ in range(10)]


def counted(rng: Random) -> Made:
    """So many points close to a location, and some in far corners: those within R0 are counted."""
    x, y = rng.randint(1950, 2150), rng.randint(1950, 2150)
    reach = rng.choice((3, 6, 90))
    close = rng.choice((3, 4, 4, 5, 5, 6, 9, 10, 10, 11, 11, 12))
    draw = lambda: (x + rng.randint(-reach, reach), y + rng.randint(-reach, reach))
    locations = [each for each in gather(close + 1, draw) if each != (x, y)][:close]
    far = rng.sample(FAR_CORNERS, rng.choice((3, 4)))
    return locations + far, [(x, y)] * 3 + [draw() for _ in range(10)]


def offsets_at(away: int) -> list[Offset]:
    """Whole offsets (dx, dy), 0 ≤ dx ≤ dy, whose distance D is `away` exactly."""
    least = -(-away * away // 65_536)
    most = ((away + 1) ** 2 - 1) // 65_536
    # No two squares of dy are so near to one another.
    pairs = [(dx, isqrt(most - dx * dx)) for dx in range(isqrt(most // 2) + 1)]
    return [(dx, dy) for dx, dy in pairs if dx * dx + dy * dy >= least]


def turned(rng: Random, offset: Offset) -> Offset:
    dx, dy = rng.sample(offset, 2)
    return rng.choice((-1, 1)) * dx, rng.choice((-1, 1)) * dy


def points_at(locations: Iterable[Location]) -> list[Point]:
    return [Point(x, y, 0) for x, y in locations]


def within(locations: Iterable[Location], radius: int, at: Location) -> int:
    """How many are at a distance of at most the radius."""
    most = ((radius + 1) ** 2 - 1) // 65_536
    return sum((x - at[0]) ** 2 + (y - at[1]) ** 2 <= most for x, y in locations)


def away_from(
    rng: Random, locations: Sequence[Location], away: int, radius: int
) -> list[Location]:
    """Up to seven from which a point is at a distance exactly and five are within the radius."""
    offsets = offsets_at(away)
    found = []
    for _ in range(40 if offsets else 0):
        (x, y), (dx, dy) = rng.choice(locations), turned(rng, rng.choice(offsets))
        if exact.on_domain(x + dx, y + dy) and within(locations, radius, (x + dx, y + dy)) >= 5:
            found.append((x + dx, y + dy))
        if len(found) == 7:
            break
    return found


def at_thresholds(rng: Random, locations: Sequence[Location]) -> list[Location]:
    """Where a point is at D = R0, or 3D = R0, or one 256th beside it, and four or more within."""
    radius = exact.initial_radius(points_at(locations))
    third = radius // 3
    distances = (radius, radius + 1, radius - 1, third, third + 1) if radius else ()
    return [at for away in distances for at in away_from(rng, locations, away, radius + 1)]


def thresholds(rng: Random) -> Made:
    """Lookups with a point at D = R0, or 3D = R0, or one 256th beside it."""
    locations = rng.choice((shapes.box, shapes.box, shapes.band))(rng, rng.randint(7, 24))
    return locations, at_thresholds(rng, locations)


def twice_rectangle(locations: Iterable[Location]) -> int:
    """Twice the area of the rectangle around the locations."""
    xs, ys = zip(*locations)
    return 2 * (max(xs) - min(xs)) * (max(ys) - min(ys))


def rectangle_radius(locations: Sequence[Location]) -> int:
    """What R0 would be with the area of the rectangle."""
    return exact.radius_of_area(twice_rectangle(locations), len(locations))


def limits(rng: Random) -> Made:
    """Lookups with four or five, ten or eleven within R0, and more within the rectangle's."""
    locations = shapes.band(rng, rng.randint(12, 40))
    centre = rng.choice(locations)
    draw = lambda: (centre[0] + rng.randint(-9, 9), centre[1] + rng.randint(-9, 9))
    locations = sorted({*locations, *gather(rng.choice((1, 1, 6, 8)), draw)})
    radius, wider = exact.initial_radius(points_at(locations)), rectangle_radius(locations)
    reach = radius // 256
    aimed: dict[int, list[Location]] = {count: [] for count in (4, 5, 10, 11)}
    for index in range(100):
        x, y = rng.choice(locations) if index % 2 else centre
        at = x + rng.randint(-reach, reach), y + rng.randint(-reach, reach)
        count = within(locations, radius, at)
        if exact.on_domain(*at) and count in aimed and within(locations, wider, at) > count:
            aimed[count].append(at)
    return locations, [at for found in aimed.values() for at in found[:10]]


def line(rng: Random) -> Made:
    """On one slanted line: the polygon's area is 0."""
    whole = shapes.slanted_line(rng)
    locations = gather(rng.choice(COUNTS[4:]), lambda: rng.choice(whole))
    return locations, [rng.choice(whole) for _ in range(15)]


def two_lines(rng: Random) -> Made:
    """On two slanted lines, which are at times parallel."""
    one, other = shapes.slanted_line(rng), shapes.slanted_line(rng)
    if rng.randrange(2):
        dx, dy = rng.choice(((0, 1), (1, 0), (-1, 3), (40, -60)))
        other = keep_on_domain((x + dx, y + dy) for x, y in one) or one
    locations = gather(rng.choice(COUNTS), lambda: rng.choice(rng.choice((one, other))))
    return locations, at_thresholds(rng, locations)


def clusters(rng: Random) -> Made:
    """Around few locations."""
    reach = rng.choice((1, 4, 60, 300))
    centres = [(rng.randrange(SIDE), rng.randrange(SIDE)) for _ in range(rng.randint(2, 6))]

    def draw() -> Location:
        x, y = rng.choice(centres)
        return x + rng.randint(-reach, reach), y + rng.randint(-reach, reach)

    locations = gather(rng.choice((*COUNTS, 200)), draw)
    return locations, centres + at_thresholds(rng, locations)


def on_circle(rng: Random) -> Made:
    """On a circle, as nearly as whole numbers allow; many are corners of the polygon."""
    radius = rng.choice(shapes.RADII)
    x, y = (rng.randint(radius, SIDE - 1 - radius) for _ in range(2))
    locations = [(x + dx, y + dy) for dx, dy in shapes.near_circle(radius)]
    kept = rng.sample(locations, min(len(locations), rng.choice((40, 256, 256))))
    return kept, [(x, y)] + at_thresholds(rng, kept)


def filled(rng: Random) -> Made:
    """Every node of a lattice, so that the edges of the polygon are full of points."""
    locations = shapes.filled_lattice(rng)
    return locations, at_thresholds(rng, locations)


def thin(rng: Random) -> Made:
    """A polygon that is tiny or thin; twice its area is often odd, and often 1."""
    return shapes.sliver(rng), []


@cache
def one_short() -> list[Offset]:
    """Whole offsets of which 65,536 d² is one less than a square, the square of D + 1."""
    distances = [away for turn in range(1, 24) for away in (32_768 * turn - 2, 32_768 * turn)]
    found = [(away, dx, dy) for away in distances for dx, dy in offsets_at(away)]
    return [(dx, dy) for away, dx, dy in found if 65_536 * (dx * dx + dy * dy) + 1 == (away + 1) ** 2]


def roots(rng: Random) -> Made:
    """Points at distances whose last bit a root can miss, and one at a distance with the most bits."""
    x, y = rng.choice((0, 5, SIDE // 2)), rng.choice((0, 5, SIDE // 2))
    offsets = [turned(rng, offset) for offset in rng.sample(one_short(), 8)]
    locations = sorted(keep_on_domain({(x + abs(dx), y + abs(dy)) for dx, dy in offsets} | {(x + 3, y + 4)}))
    kept = rng.sample(locations, min(len(locations), rng.choice((3, 3, 10))))
    return sorted({*kept, (4095, 4095)}), [(x, y)] * 3 + [(0, 0), (x + 1, y)]


def radius_by_pi(twice: int, count: int) -> int:
    return isqrt(65_536 * 7 * twice * PI[1] // (2 * PI[0] * count))


def by_pi(rng: Random) -> Made:
    """The initial radius by 355/113 is not the one that π itself would give."""
    for _ in range(400):
        count, wide = rng.randint(11, 20), rng.randint(3000, 4095)
        left, right = rng.randint(3000, 4095), rng.randint(3000, 4095)
        twice = wide * (left + right)
        if exact.radius_of_area(twice, count) != radius_by_pi(twice, count):
            break
    inside = lambda: (rng.randint(500, wide - 500), rng.randint(500, 2500))
    around = [(0, 0), (0, left), (wide, 0), (wide, right)]
    return around + gather(count - 4, inside), [inside() for _ in range(20)]


KINDS = (
    uniform,
    lattice,
    roots,
    diagonal,
    limits,
    line,
    counted,
    thresholds,
    filled,
    by_pi,
    column,
    two_lines,
    thin,
    ring,
    clusters,
    row,
    corners,
    single,
    diagonal,
    lattice,
    crowded,
    limits,
    uniform,
    thresholds,
    counted,
    on_circle,
    ring,
    filled,
    two_lines,
)


def make(rng: Random, kind: Callable[[Random], Made]) -> tuple[list[Point], list[Location]]:
    """A survey's points, in a random order of entry, and the locations to aim at."""
    locations, aimed = kind(rng)
    rng.shuffle(locations)
    return with_values(rng, locations), aimed


def off_domain(rng: Random) -> Location:
    """A location that breaks refusal 1, some of them on the domain in their low 12 or 16 bits."""
    wrong = rng.choice((4096, 4097, 8191, 65_535, 65_536, 65_541, 2**31, 2**32 - 1))
    right = rng.choice((0, 4095, 4096, rng.randrange(SIDE)))
    return (wrong, right) if rng.randrange(2) else (right, wrong)


def location_near(rng: Random, points: Sequence[Point]) -> Location:
    """A location on the domain with a bearing on the points."""
    one, other = rng.choice(points), rng.choice(points)
    xs, ys = sorted((one.x, other.x)), sorted((one.y, other.y))
    choices = (
        (one.x, one.y),
        (one.x + rng.randint(-1, 1), one.y + rng.randint(-1, 1)),
        (one.x + rng.randint(-4, 4), one.y + rng.randint(-4, 4)),
        ((one.x + other.x) // 2, (one.y + other.y) // 2),
        (rng.randint(*xs), rng.randint(*ys)),
        (2 * one.x - other.x, 2 * one.y - other.y),
        (rng.randrange(SIDE), rng.randrange(SIDE)),
        (rng.choice((0, 4095)), rng.choice((0, 4095))),
    )
    x, y = rng.choice(choices)
    return min(max(x, 0), 4095), min(max(y, 0), 4095)
