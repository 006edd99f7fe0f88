"""Makes the sample survey. The survey is made up: no drive was measured.

    python3 make_sample.py OUTPUT

200 points like those of a worn drive. Wear and rest grow together, as an owner's use puts them, so
the points lie in clusters along the diagonal, and none lies in the corners of much wear with little
rest or the other way round. The shift goes from about 0 down to about -90 register steps, by the
cube of the wear, so that it is steep late in life, and a little by wear times rest, with noise.
Whole numbers only, from a generator of its own, so that the bytes are the same on every machine.
"""

import sys

LIMIT = 4095
CLUSTERS = 20
PER_CLUSTER = 10

# x0, y0, step in x, step in y, columns, rows: the last column and row are at 4,095
GRID = (0, 0, 65, 65, 64, 64)
TEXT = (
    b"Made-up survey, no drive was measured: 200 points in clusters along the diagonal of wear and "
    b"rest, shifts from about 0 to about -90, steep late in life.\n"
)
MAGIC = bytes.fromhex("524C5331")


class Generator:
    """A linear congruential generator modulo 2**32, with the constants of Numerical Recipes.

    The high bits are used.
    """

    def __init__(self, seed):
        self.state = seed

    def below(self, bound):
        self.state = (1664525 * self.state + 1013904223) % 2**32
        return (self.state >> 12) % bound

    def around(self, spread):
        """A number from -spread to spread, more often a small one."""
        return (self.below(2 * spread + 1) + self.below(2 * spread + 1)) // 2 - spread


def shift_at(x, y, generator):
    late = 80 * x**3 // LIMIT**3
    rested = 14 * x * y // LIMIT**2
    return -(late + rested) + generator.around(2)


def location_near(cluster, generator):
    centre = (2 * cluster + 1) * LIMIT // (2 * CLUSTERS)
    x = centre + generator.around(70)
    y = centre + generator.around(280)
    return min(max(x, 0), LIMIT), min(max(y, 0), LIMIT)


def make_points():
    generator = Generator(2024)
    points = {}
    for cluster in range(CLUSTERS):
        wanted = PER_CLUSTER * (cluster + 1)
        while len(points) < wanted:
            location = location_near(cluster, generator)
            if location not in points:
                points[location] = shift_at(*location, generator)
    return [(x, y, z) for (x, y), z in sorted(points.items())]


def check(points):
    assert len(points) == CLUSTERS * PER_CLUSTER == 200
    assert all(0 <= x <= LIMIT and 0 <= y <= LIMIT and -128 <= z <= 127 for x, y, z in points)
    locations = [(x, y) for x, y, _ in points]
    assert all(a < b for a, b in zip(locations, locations[1:]))
    values = [z for _, _, z in points]
    assert -100 <= min(values) <= -80 and -5 <= max(values) <= 5


def word(number):
    return number.to_bytes(2, "big")


def survey_file(points):
    preamble = b"".join(word(number) for number in GRID) + TEXT
    records = b"".join(word(x) + word(y) + z.to_bytes(1, "big", signed=True) for x, y, z in points)
    back = len(records).to_bytes(4, "big")
    return preamble + records + word(len(points)) + back + word(sum(records) % 65536) + MAGIC


def main(arguments):
    if len(arguments) != 1:
        sys.exit("usage: make_sample.py OUTPUT")
    points = make_points()
    check(points)
    with open(arguments[0], "wb") as output:
        output.write(survey_file(points))


if __name__ == "__main__":
    main(sys.argv[1:])
