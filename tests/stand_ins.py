"""Stands in for the three programs with the answers of the exact-fraction program."""

from __future__ import annotations

from collections.abc import Callable, Sequence
from struct import unpack

import exact
import exact_survey
import outcomes
import protocol
from exact_survey import Survey
from operations import BY_LETTER, Lent, Operation
from outcomes import Outcome, Unit
from protocol import Call


def single_units(outcome: Outcome) -> list[Unit]:
    """What an outcome fills, lent unit by lent unit."""
    units: list[Unit] = []
    for each in map(outcomes.preferred, outcome.filled):
        units += [bytes([byte]) for byte in each] if isinstance(each, bytes) else [each]
    return units


def fill(operation: Operation, lent: list[Unit], filled: Sequence[Unit]) -> None:
    """Put what a call gives at the start of what was lent."""
    lent[: len(filled)] = filled


def act(survey: Survey, call: Call, lent: list[Unit]) -> str:
    """Do a call; gives its reply."""
    outcome = protocol.perform(survey, call)
    units = single_units(outcome)
    exact_survey.check_lent(len(lent), len(units))
    fill(call.operation, lent, units)
    settled = outcomes.with_units(outcome, len(units))
    numbers = [outcomes.text(outcomes.preferred(number)) for number in settled.numbers]
    return " ".join([call.operation.reply, *numbers])


def lent_line(form: Lent, lent: Sequence[Unit]) -> str:
    texts = list(map(outcomes.text, lent))
    if isinstance(form.untouched, bytes) and lent:
        texts = ["".join(texts)]
    return " ".join([form.word, *texts])


def reply_lines(survey: Survey, call: Call) -> list[str]:
    form = call.operation.lent
    lent = [form.untouched] * call.lent if form else []
    try:
        reply = act(survey, call, lent)
    except exact.Refused as refusal:
        reply = f"refused {refusal.number}"
    return [reply, lent_line(form, lent)] if form else [reply]


def decode(data: bytes, at: int) -> tuple[Call, int] | None:
    """The call at a position and the position after it, or None for a bad journal."""
    operation = BY_LETTER.get(chr(data[at]))
    if operation is None:
        return None
    end = at + 1 + operation.length
    if end > len(data):
        return None
    numbers = unpack(operation.layout, data[at + 1 : end])
    if operation.lent and numbers[-1] > operation.lent.most:
        return None
    following = numbers[-1] if operation.file else 0
    if end + following > len(data):
        return None
    return Call(operation.letter, numbers, data[end : end + following]), end + following


def replay(data: bytes) -> bytes:
    survey = Survey()
    lines: list[str] = []
    at = 0
    while at < len(data):
        decoded = decode(data, at)
        if decoded is None:
            lines.append("bad journal")
            break
        call, at = decoded
        lines += reply_lines(survey, call)
    return "".join(line + "\n" for line in lines).encode()


def written(program: Callable[[bytes], Outcome], data: bytes) -> bytes:
    """What a program writes, or why its input is refused."""
    try:
        outcome = program(data)
    except exact.Refused as refusal:
        return f"refused {refusal.number}\n".encode()
    return b"".join(map(outcomes.preferred, outcome.filled))


def grid(data: bytes) -> bytes:
    return written(exact_survey.grid_program, data)


def esri(data: bytes) -> bytes:
    return written(exact_survey.esri_program, data)
