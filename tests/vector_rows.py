"""The two sides of a row of vectors.txt: the left one as calls, and replies as the right one."""

from __future__ import annotations

import re
import struct
from collections.abc import Sequence

import outcomes
import protocol
from exact import MOST_NEIGHBOURS
from operations import RECORDS, TABLE, Operation
from protocol import Call

SHOWN_BYTES, LAST_BYTES = 64, 12
SHOWN_CELLS = 8
# Rows say these in other words than replies do.
WORDS = {"wrote": "length", "values": "list"}


class Unreadable(Exception):
    """A left side that says no call."""


# The left side.


def steps(first: Sequence[int], last: Sequence[int]) -> list[tuple[int, ...]]:
    """From the first numbers to the last, each of them staying or moving by one a step."""
    moves = [end - start for start, end in zip(first, last)]
    count = max(map(abs, moves), default=0)
    if len(first) != len(last) or any(abs(move) not in (0, count) for move in moves):
        raise Unreadable("the numbers do not move by one")
    signs = [(move > 0) - (move < 0) for move in moves]
    return [
        tuple(start + sign * step for start, sign in zip(first, signs))
        for step in range(count + 1)
    ]


def whole_numbers(words: Sequence[str]) -> list[int]:
    if not all(re.fullmatch(r"-?[0-9]+", word) for word in words):
        raise Unreadable("not a number")
    return list(map(int, words))


def record(text: str) -> list[int]:
    return whole_numbers(text.split(","))


def part_bytes(part: str) -> bytes:
    """A part of a file: hexadecimal, so many times a byte, a record, or a run of records."""
    if re.fullmatch(r"(?:[0-9a-f]{2})+", part):
        return bytes.fromhex(part)
    if repeated := re.fullmatch(r"([0-9]+)\*([0-9a-f]{2})", part):
        return bytes.fromhex(repeated.group(2)) * int(repeated.group(1))
    first, _, last = part.partition("..")
    run = steps(record(first), record(last or first))
    return b"".join(struct.pack(">HHb", *each) for each in run)


def file_bytes(text: str) -> bytes:
    parts = text.split()
    if not parts:
        raise Unreadable("no file")
    return b"".join(map(part_bytes, parts))


def operation_of(left: str) -> Operation:
    """The call with the longest name that the left side begins with."""
    named = [each for each in TABLE if (left + " ").startswith(each.name + " ")]
    if not named:
        raise Unreadable("no call has this name")
    return max(named, key=lambda each: len(each.name))


def lent_of(operation: Operation, words: list[str]) -> list[int]:
    """What `into` says; its two words are taken off."""
    if operation.lent is None:
        return []
    if "into" not in words and operation.lent is RECORDS:
        return [MOST_NEIGHBOURS]
    if words[-2:-1] != ["into"]:
        raise Unreadable("how much is lent is not said")
    lent = whole_numbers(words[-1:])
    del words[-2:]
    if lent[0] > operation.lent.most:
        raise Unreadable("more than may be lent")
    return lent


def number_lists(words: list[str]) -> list[tuple[int, ...]]:
    """The numbers of a call, or of each call of a run."""
    if "to" in words:
        at = words.index("to")
        return steps(whole_numbers(words[:at]), whole_numbers(words[at + 1 :]))
    return [tuple(whole_numbers(words))]


def read_calls(left: str) -> list[Call]:
    operation = operation_of(left)
    words = left[len(operation.name) :].split()
    if operation.file:
        return [protocol.load(file_bytes(left[len(operation.name) :].partition(", ")[0]))]
    lent = lent_of(operation, words)
    return [Call(operation.letter, (*numbers, *lent)) for numbers in number_lists(words)]


def calls_of(left: str) -> list[Call]:
    """The calls of a left side; each of them can be encoded."""
    try:
        calls = read_calls(left)
        for call in calls:
            protocol.encode(call)
    except struct.error as error:
        raise Unreadable(str(error)) from None
    return calls


# The right side.


def in_words(reply: str) -> str:
    first, space, rest = reply.partition(" ")
    return WORDS.get(first, first) + space + rest


def neighbour_line(text: str) -> str:
    parts = text.split(",")
    if len(parts) != 5:
        return f"  neighbour {text}"
    return "  neighbour {} {} {}: distance {} kind {}".format(*parts)


def records_shown(left: str, reply: str, records: list[str]) -> list[str]:
    """All that were lent; where that is not said, those written."""
    if "into" in left.split():
        return records
    found = re.fullmatch(r"found -?[0-9]+ ([0-9]+) [0-9]+", reply)
    count = int(found.group(1)) if found else 0
    untouched = outcomes.text(RECORDS.untouched)
    return records[:count] + [each for each in records[count:] if each != untouched]


def lent_shown(lent: str) -> str:
    """The line of what was lent, shortened where it is long."""
    word, *units = lent.split()
    if word == "bytes" and units and len(units[0]) > 2 * SHOWN_BYTES:
        return f"last bytes {units[0][-2 * LAST_BYTES:]}"
    if word == "values" and len(units) > SHOWN_CELLS:
        return f"first {units[0]} last {units[-1]}"
    return in_words(lent)


def left_shown(rest: bytes) -> list[str]:
    """What is left of the lent bytes, where something is; if untouched, how much."""
    untouched = rest.replace(b"\xa5", b"") == b""
    return [f"  left {len(rest)}*a5" if untouched else f"  left {rest.hex()}"] if rest else []


def text_shown(reply: str, lent: str) -> list[str]:
    """The lines of a text, and what is left of the lent bytes; what is no ASCII is escaped."""
    wrote = re.fullmatch(r"wrote ([0-9]+)", reply)
    try:
        data = bytes.fromhex(lent.removeprefix("bytes"))
    except ValueError:
        return [f"  {lent}"]
    length = int(wrote.group(1)) if wrote else 0
    *lines, unended = data[:length].decode("latin-1").split("\n")
    below = ["  " + line.encode("unicode_escape").decode() for line in lines]
    if unended:
        below.append(f"  {unended!r} without a line feed")
    return below + left_shown(data[length:])


def shown(left: str, lines: Sequence[str]) -> list[str]:
    """The lines that a row has, from the lines that came for its call."""
    right, below = in_words(lines[0]), []
    if len(lines) > 1 and operation_of(left).text:
        below = text_shown(*lines)
    elif len(lines) > 1 and lines[1].split()[:1] == [RECORDS.word]:
        below = list(map(neighbour_line, records_shown(left, lines[0], lines[1].split()[1:])))
    elif len(lines) > 1:
        right += ", " + lent_shown(lines[1])
    return [f"{left}: {right}", *below]
