"""Plants faults in what the stand-ins read and write."""

from __future__ import annotations

import sys
import time
from collections.abc import Callable, Sequence

import exact
import stand_ins
from exact_survey import Survey
from faults import Plant, fault
from operations import BY_LETTER, Operation
from outcomes import Unit
from protocol import Call


def overwritten(unit: Unit) -> Unit:
    """Another unit of the same form."""
    if isinstance(unit, tuple):
        return (0,) * len(unit)
    return b"\0" if isinstance(unit, bytes) else 0


def tail(letter: str) -> Plant:
    """One lent unit behind the filled ones is overwritten."""

    def plant() -> None:
        right = stand_ins.fill

        def wrong(operation: Operation, lent: list[Unit], filled: Sequence[Unit]) -> None:
            right(operation, lent, filled)
            if operation.letter == letter and len(filled) < len(lent):
                lent[len(filled)] = overwritten(lent[len(filled)])

        stand_ins.fill = wrong

    return plant


fault("tail of file", "full survey")(tail("w"))
fault("tail of grid file", "grids")(tail("f"))
fault("tail of cells", "grids")(tail("g"))
fault("tail of records", "lookups")(tail("n"))


@fault("touched when short", "grids")
def touched_when_short() -> None:
    """A grid refused with 8 fills what it was lent."""
    right = stand_ins.act

    def wrong(survey: Survey, call: Call, lent: list[Unit]) -> str:
        try:
            return right(survey, call, lent)
        except exact.Refused as refusal:
            if refusal.number == 8 and call.letter == "g" and lent:
                lent[0] = exact.nearest_answer(survey.exact_lookup(*call.numbers[:2]))
            raise

    stand_ins.act = wrong


@fault("reads past bad", "bad journal")
def reads_past_bad() -> None:
    """An unknown byte is passed over."""
    right = stand_ins.decode

    def wrong(data: bytes, at: int) -> tuple[Call, int] | None:
        while at < len(data) and chr(data[at]) not in BY_LETTER:
            at += 1
        return right(data, at) if at < len(data) else None

    stand_ins.decode = wrong


def after_replies(action: Callable[[bytes], bytes]) -> Plant:
    """Something that happens when all replies are worked out."""

    def plant() -> None:
        replay, grid, esri = stand_ins.replay, stand_ins.grid, stand_ins.esri
        stand_ins.replay = lambda data: action(replay(data))
        stand_ins.grid = lambda data: action(grid(data))
        stand_ins.esri = lambda data: action(esri(data))

    return plant


def hang(output: bytes) -> bytes:
    time.sleep(60)
    return output


def complain(output: bytes) -> bytes:
    sys.stderr.write("complaint\n")
    return output


def fail(output: bytes) -> bytes:
    sys.stdout.buffer.write(output)
    sys.stdout.buffer.flush()
    sys.exit(3)


fault("no line feed", "whole case")(after_replies(lambda output: output[:-1]))
fault("one line more", "bad journal")(after_replies(lambda output: output + b"ok\n"))
fault("hang", "whole case")(after_replies(hang))
fault("complaint", "bad journal")(after_replies(complain))
fault("exit status", "grids")(after_replies(fail))
