"""Gives the texts that documents 01 and 02 permit as a call's reply, and holds a text to them."""

from __future__ import annotations

from typing import NamedTuple

import exact
import outcomes
import protocol
from exact_survey import Survey
from outcomes import Choice, Outcome
from protocol import Call

# A permitted text is a list of pieces; a piece is all the strings that may stand there.
Piece = tuple[str, ...]


class Expected(NamedTuple):
    """What may come of a call: its lines, each as pieces, and what it gives, if accepted."""

    lines: list[list[Piece]]
    outcome: Outcome | None


def piece(each: outcomes.Unit | Choice, before: str = "") -> Piece:
    return tuple(before + outcomes.text(option) for option in outcomes.options(each))


def reply_pieces(word: str, outcome: Outcome) -> list[Piece]:
    return [(word,), *(piece(number, " ") for number in outcome.numbers)]


def file_pieces(outcome: Outcome) -> list[Piece]:
    """The bytes of a file, in hexadecimal."""
    return [piece(each) for each in outcome.filled]


def text_pieces(outcome: Outcome) -> list[Piece]:
    """The bytes of a text, as they read."""
    return [tuple(option.decode() for option in outcomes.options(each)) for each in outcome.filled]


def lent_pieces(call: Call, outcome: Outcome, units: int) -> list[Piece]:
    """The line that shows what was lent, with so many units filled; no outcome fills nothing."""
    lent = call.operation.lent
    assert lent is not None
    packed = isinstance(lent.untouched, bytes)
    before = "" if packed else " "
    opening = lent.word + (" " if packed and call.lent else "")
    tail = (before + outcomes.text(lent.untouched)) * (call.lent - units)
    return [(opening,), *(piece(each, before) for each in outcome.filled), (tail,)]


def refused(call: Call, number: int) -> Expected:
    reply = [(f"refused {number}",)]
    if call.operation.lent is None:
        return Expected([reply], None)
    return Expected([reply, lent_pieces(call, outcomes.ACCEPTED, 0)], None)


def accepted(call: Call, outcome: Outcome, units: int) -> Expected:
    """What may come with so many lent units filled."""
    settled = outcomes.with_units(outcome, units)
    reply = reply_pieces(call.operation.reply, settled)
    if call.operation.lent is None:
        return Expected([reply], settled)
    return Expected([reply, lent_pieces(call, settled, units)], settled)


def expected(survey: Survey, call: Call) -> list[Expected]:
    """All that may come of a call, each with a reply of its own: of most calls one."""
    try:
        outcome = protocol.perform(survey, call)
    except exact.Refused as refusal:
        return [refused(call, refusal.number)]
    lengths = outcomes.filled_units(outcome)
    fitting = [units for units in lengths if units <= call.lent]
    cases = [accepted(call, outcome, units) for units in fitting]
    return cases if fitting == lengths else [*cases, refused(call, 8)]


def replies(cases: list[Expected]) -> list[Piece]:
    """The replies of all cases, as the pieces of one line."""
    if len(cases) == 1:
        return cases[0].lines[0]
    return [tuple(permitted_text(case.lines[0]) for case in cases)]


def case_with(cases: list[Expected], reply: str) -> Expected:
    """The case that has a reply, which is one of the permitted ones."""
    return next(case for case in cases if mismatch(case.lines[0], reply) is None)


def mismatch(pieces: list[Piece], text: str) -> int | None:
    """Where the text leaves what is permitted, or None."""
    at = 0
    for each in pieces:
        match = next((option for option in each if text.startswith(option, at)), None)
        if match is None:
            return at
        at += len(match)
    return None if at == len(text) else at


def permitted_text(pieces: list[Piece]) -> str:
    texts = [each[0] if len(each) == 1 else "(" + " or ".join(each) + ")" for each in pieces]
    return "".join(texts)
