"""A call of a journal: its bytes, what it does to an exact survey, and a form to read."""

from __future__ import annotations

from struct import pack
from typing import TYPE_CHECKING, NamedTuple

from operations import BY_LETTER, Operation
from outcomes import Outcome

if TYPE_CHECKING:
    from exact_survey import Survey

SHOWN_BYTES = 48


class Call(NamedTuple):
    """`numbers` are as in the journal: last how many bytes follow, or how much is lent."""

    letter: str
    numbers: tuple[int, ...] = ()
    file: bytes = b""
    damaged: bool = False

    @property
    def operation(self) -> Operation:
        return BY_LETTER[self.letter]

    @property
    def lent(self) -> int:
        return self.numbers[-1] if self.operation.lent else 0


def load(data: bytes, damaged: bool = False) -> Call:
    return Call("l", (len(data),), data, damaged)


def encode(call: Call) -> bytes:
    return call.letter.encode() + pack(call.operation.layout, *call.numbers) + call.file


def arguments(call: Call) -> list[object]:
    """What the exact survey's method is given."""
    made: list[object] = []
    at = 0
    for field in call.operation.fields:
        made.append(field.make(*call.numbers[at : at + field.count]))
        at += field.count
    if call.operation.file:
        made.append(call.file)
    if call.operation.lent:
        made.append(call.lent)
    return made


def perform(survey: Survey, call: Call) -> Outcome:
    """Do a call on an exact survey; exact.Refused comes out of a refused one."""
    return getattr(survey, call.operation.method)(*arguments(call))


def hexadecimal(data: bytes) -> str:
    """The bytes, or the two ends of many bytes."""
    if len(data) <= 2 * SHOWN_BYTES:
        return data.hex()
    left_out = len(data) - 2 * SHOWN_BYTES
    return f"{data[:SHOWN_BYTES].hex()} ({left_out} bytes) {data[-SHOWN_BYTES:].hex()}"


def describe(call: Call) -> str:
    words = [call.operation.name, *map(str, call.numbers)]
    if call.file:
        words.append(hexadecimal(call.file))
    return " ".join(words)
