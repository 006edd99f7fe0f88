"""What an accepted call gives: the numbers of its reply, and what it fills of what was lent."""

from __future__ import annotations

from typing import NamedTuple

# A number, a record of numbers, or a run of bytes, each of them a lent unit.
Unit = int | str | bytes | tuple[int, ...]


class Choice(NamedTuple):
    """What document 01 leaves free: any of the options may come. No option opens another."""

    options: tuple[Unit, ...]
    preferred: Unit


class Outcome(NamedTuple):
    """`numbers` follow the reply's word; `filled` is the start of what was lent.

    The number of a `measured` outcome is how many lent units it fills, which hangs on the options
    that come; where too few are lent for these, it is refused with 8.
    """

    numbers: tuple[Unit | Choice, ...] = ()
    filled: tuple[Unit | Choice, ...] = ()
    measured: bool = False


ACCEPTED = Outcome()


def options(each: Unit | Choice) -> tuple[Unit, ...]:
    return each.options if isinstance(each, Choice) else (each,)


def preferred(each: Unit | Choice) -> Unit:
    return each.preferred if isinstance(each, Choice) else each


def text(unit: Unit) -> str:
    """A unit as replies and lent lines show it."""
    if isinstance(unit, bytes):
        return unit.hex()
    if isinstance(unit, tuple):
        return ",".join(map(str, unit))
    return str(unit)


def lent_units(unit: Unit) -> int:
    """How many lent units a unit takes."""
    return len(unit) if isinstance(unit, bytes) else 1


def filled_units(outcome: Outcome) -> list[int]:
    """How many lent units may be filled, ascending."""
    totals = {0}
    for each in outcome.filled:
        sizes = {lent_units(option) for option in options(each)}
        totals = {total + size for total in totals for size in sizes}
    return sorted(totals)


def preferred_units(outcome: Outcome) -> int:
    """How many lent units are filled where every choice is the preferred one."""
    return sum(lent_units(preferred(each)) for each in outcome.filled)


def with_units(outcome: Outcome, units: int) -> Outcome:
    """A measured outcome where so many lent units are filled; any other as it is."""
    return outcome._replace(numbers=(units,), measured=False) if outcome.measured else outcome
