"""How far apart two locations are, and how two offsets lie to one another."""

from __future__ import annotations

Location = tuple[int, int]
Offset = tuple[int, int]


class Metric:
    """Document 01's own: no scales and no barriers."""

    def squared_distance(self, one: Location, other: Location) -> int:
        """d²; at a lookup, `one` is its location and `other` a point's."""
        return (other[0] - one[0]) ** 2 + (other[1] - one[1]) ** 2

    def inner_product(self, one: Offset, other: Offset) -> int:
        """g."""
        return one[0] * other[0] + one[1] * other[1]


PLAIN = Metric()
