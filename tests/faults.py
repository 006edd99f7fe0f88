"""The faults that the comparison must catch, each with the kind of test that shows it."""

from __future__ import annotations

from collections.abc import Callable
from typing import NamedTuple

# Replaces one function of the exact-fraction program, or of stand_ins.py, by a wrong one.
Plant = Callable[[], None]


class Fault(NamedTuple):
    plant: Plant
    shown_by: str


FAULTS: dict[str, Fault] = {}


def fault(name: str, shown_by: str) -> Callable[[Plant], Plant]:
    """Enters what plants a fault under a name."""

    def enter(plant: Plant) -> Plant:
        assert name not in FAULTS, name
        FAULTS[name] = Fault(plant, shown_by)
        return plant

    return enter
