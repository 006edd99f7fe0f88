"""Makes the ends of journals that no program may read as calls."""

from __future__ import annotations

from random import Random

import damage
import protocol
from operations import BY_LETTER, TABLE, Operation
from protocol import Call
from random_calls import entry, lookup_calls

# What follows a bad end must not be read.
AFTER = protocol.encode(Call("q", (1, 1)))
# The calls with numbers and those that lend, the last of the table first.
LONGER = [each for each in reversed(TABLE) if each.length]
LENDING = [each for each in reversed(TABLE) if each.lent]


def small_call(operation: Operation, lent: int) -> Call:
    """A sound call whose other numbers are all 1."""
    ones = (1,) * sum(field.count for field in operation.fields)
    if operation.file:
        file = damage.assemble(b"", damage.records_of([(1, 2, 3)]))
        return Call(operation.letter, (*ones, len(file)), file)
    return Call(operation.letter, (*ones, lent) if operation.lent else ones)


def unknown(rng: Random) -> bytes:
    letters = "".join(BY_LETTER).encode()
    return bytes([rng.choice([byte for byte in range(256) if byte not in letters])])


def above_limit(turn: int) -> bytes:
    """More is lent than may be: by each call in turn one more, then as much as can be told."""
    again, which = divmod(turn, len(LENDING))
    operation = LENDING[which]
    assert operation.lent is not None
    above = 2**32 - 1 if again % 2 else operation.lent.most + 1
    return protocol.encode(small_call(operation, above)) + AFTER


def cut(rng: Random, turn: int) -> bytes:
    """Each call in turn, ended early, often by one byte; at times a load of very many bytes."""
    operation = LONGER[turn % len(LONGER)]
    whole = small_call(operation, 9)
    if operation.file and rng.randrange(2):
        whole = protocol.load(bytes(rng.choice((65_537, 65_600))))
    encoded = protocol.encode(whole)
    return encoded[: rng.choice((rng.randrange(1, len(encoded)), -1))]


def bad_end(rng: Random, index: int) -> bytes:
    """Each kind of end in turn."""
    turn, kind = divmod(index, 6)
    ends = (
        unknown(rng),
        above_limit(turn),
        cut(rng, 2 * turn),
        unknown(rng) + AFTER,
        cut(rng, 2 * turn + 1),
        protocol.encode(Call("l", (2**32 - 1,), AFTER)),
    )
    return ends[kind]


def bad_journal(rng: Random, index: int) -> list[Call]:
    """The sound calls before the bad end; at times there are none."""
    if index % 5 == 1:
        return []
    points = damage.few_points(rng)
    calls = rng.sample(entry(rng, points), 1) + lookup_calls(rng, points, [], 3)
    filling = [Call("b", (0, 0, 1, 1, 2, 9)), Call("r", (2,))] if rng.randrange(2) else []
    return calls + filling + [Call("w", (40,))]
