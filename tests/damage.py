"""Makes survey files with a preamble, and damages them with a refusal in view."""

from __future__ import annotations

from collections.abc import Callable, Iterable, Sequence
from random import Random
from struct import pack

import exact_files
import surveys
from exact import Point

RECORD = exact_files.RECORD_BYTES
LONGEST = exact_files.GREATEST_FILE
Records = Sequence[bytes | bytearray]


def assemble(
    preamble: bytes,
    records: Records,
    count: int | None = None,
    back: int | None = None,
    total: int | None = None,
    magic: bytes = exact_files.SURVEY_MAGIC,
) -> bytes:
    """A survey file; a trailer field is right unless it is given."""
    body = b"".join(records)
    count = len(records) if count is None else count
    back = len(body) if back is None else back
    total = sum(body) if total is None else total
    return preamble + body + pack(">HIH", count % 65_536, back % 2**32, total % 65_536) + magic


def records_of(points: Iterable[tuple[int, int, int]]) -> list[bytes]:
    return [pack(">HHb", *point) for point in sorted(points)]


def random_preamble(rng: Random) -> bytes:
    """Often none; at times bytes that look like a trailer."""
    length = rng.choice((0, 0, 1, 5, 11, 12, 13, rng.randrange(60)))
    return rng.choice((rng.randbytes(length), bytes(length), assemble(b"", [])))


def sound_file(rng: Random, points: Iterable[Point]) -> bytes:
    return assemble(random_preamble(rng), records_of(points))


def few_points(rng: Random) -> list[Point]:
    """Few enough for many files; at times as many as a survey holds."""
    if rng.randrange(20) == 0:
        return surveys.make(rng, surveys.crowded)[0]
    points, _ = surveys.make(rng, rng.choice((surveys.uniform, surveys.lattice, surveys.diagonal)))
    return points[: rng.choice((1, 2, 3, 6, 12, 40))]


def too_short(rng: Random, preamble: bytes, records: Records) -> bytes:
    data = assemble(preamble, records)
    length = rng.choice((0, 1, 11, rng.randrange(12)))
    return rng.choice((data[:length], data[len(data) - length :]))


def too_long(rng: Random, preamble: bytes, records: Records) -> bytes:
    """One byte over, or more; the last 65,536 bytes of it are a proper file."""
    missing = LONGEST + rng.choice((1, 1, 2, 5000)) - len(assemble(preamble, records))
    return assemble(preamble + bytes(missing), records)


def longest(rng: Random, preamble: bytes, records: Records) -> bytes:
    """As long as a file may be: it stays valid."""
    return assemble(preamble + bytes(LONGEST - len(assemble(preamble, records))), records)


def wrong_magic(rng: Random, preamble: bytes, records: Records) -> bytes:
    magic = bytearray(exact_files.SURVEY_MAGIC)
    magic[rng.randrange(4)] ^= 1 << rng.randrange(8)
    return assemble(preamble, records, magic=rng.choice((bytes(magic), exact_files.GRID_MAGIC)))


def extended(rng: Random, preamble: bytes, records: Records) -> bytes:
    return assemble(preamble, records) + rng.randbytes(rng.choice((1, 5, 12, 17)))


def cut_behind(rng: Random, preamble: bytes, records: Records) -> bytes:
    data = assemble(preamble, records)
    return data[: -rng.choice((1, 4, 5, 12))]


def cut_before(rng: Random, preamble: bytes, records: Records) -> bytes:
    """Into the records, or within the preamble, where the file stays valid."""
    data = assemble(preamble, records)
    return data[rng.randint(1, max(1, len(preamble) + RECORD)) :]


def count_above(rng: Random, preamble: bytes, records: Records) -> bytes:
    count = rng.choice((257, 257, 258, 512, 65_535))
    back = rng.choice((RECORD * count, RECORD * len(records), 0))
    return assemble(preamble, records, count=count, back=back)


def one_too_many(rng: Random, preamble: bytes, records: Records) -> bytes:
    """257 proper records."""
    return assemble(preamble, [pack(">HHb", 7, y, 3) for y in range(257)])


def count_beside(rng: Random, preamble: bytes, records: Records) -> bytes:
    return assemble(preamble, records, count=len(records) + rng.choice((-1, 1)))


def back_beside(rng: Random, preamble: bytes, records: Records) -> bytes:
    right = RECORD * len(records)
    off = rng.choice((-5, -1, 1, 5, 2**16, 2**31, -(2**16)))
    return assemble(preamble, records, back=right + off)


def both_beside(rng: Random, preamble: bytes, records: Records) -> bytes:
    """Count and back distance agree, on one record fewer or more than there are."""
    count = max(len(records) + rng.choice((-1, 1)), 0)
    return assemble(preamble, records, count=count, back=RECORD * count)


def sum_beside(rng: Random, preamble: bytes, records: Records) -> bytes:
    total = sum(b"".join(records)) + rng.choice((-256, -1, 1, 256, 32_768))
    return assemble(preamble, records, total=total)


def off_domain_record(rng: Random) -> bytes:
    wrong = rng.choice((4096, 4097, 32_768, 65_535))
    right = rng.choice((0, 5, 4095))
    return pack(">HHb", *rng.sample((wrong, right), 2), rng.randint(-128, 127))


def off_domain(rng: Random, preamble: bytes, records: Records) -> bytes:
    kept = list(records)
    kept[rng.randrange(len(kept))] = off_domain_record(rng)
    return assemble(preamble, kept)


def swapped(rng: Random, preamble: bytes, records: Records) -> bytes:
    kept = list(records)
    one, other = rng.randrange(len(kept)), rng.randrange(len(kept))
    kept[one], kept[other] = kept[other], kept[one]
    return assemble(preamble, kept)


def duplicated(rng: Random, preamble: bytes, records: Records) -> bytes:
    """A location twice, with the same value or another one."""
    kept = list(records)
    at = rng.randrange(len(kept))
    kept.insert(at, kept[at][:4] + rng.choice((kept[at][4:], b"\x09")))
    return assemble(preamble, kept)


def off_domain_and_out_of_order(rng: Random, preamble: bytes, records: Records) -> bytes:
    """14 and 15 in one file, either first, or both in one record."""
    early = pack(">HHb", 0, 0, 1)
    wrong = off_domain_record(rng)
    both = pack(">HHb", 0, 4096, 1)
    return assemble(preamble, list(records) + rng.choice(([early, wrong], [wrong, early], [both])))


def several_fields(rng: Random, preamble: bytes, records: Records) -> bytes:
    """Two refusals or more at once, so that their order shows."""
    kept = list(records)
    if rng.randrange(2):
        kept.append(rng.choice((off_domain_record(rng), records[0])))
    wrong = {
        "count": rng.choice((257, 300, len(kept) + 1)),
        "back": rng.choice((0, 1, 2**32 - 1, RECORD * len(kept) + 5)),
        "total": rng.randrange(65_536),
        "magic": exact_files.GRID_MAGIC,
    }
    chosen = rng.sample(sorted(wrong), rng.choice((1, 2, 2, 3)))
    return assemble(preamble, kept, **{name: wrong[name] for name in chosen})


def flipped(rng: Random, preamble: bytes, records: Records) -> bytes:
    data = bytearray(assemble(preamble, records))
    for _ in range(rng.choice((1, 1, 2, 3))):
        data[rng.randrange(len(data))] ^= 1 << rng.randrange(8)
    return bytes(data)


def records_flipped(rng: Random, preamble: bytes, records: Records) -> bytes:
    """A bit of a record, with the sum put right: at times it stays valid."""
    kept = [bytearray(record) for record in records]
    rng.choice(kept)[rng.randrange(RECORD)] ^= 1 << rng.randrange(8)
    return assemble(preamble, kept)


def balanced(rng: Random, preamble: bytes, records: Records) -> bytes:
    """One value up and one down: the old sum holds, and the file is valid with other points."""
    kept = [bytearray(record) for record in records]
    one, other = rng.choice(kept), rng.choice(kept)
    one[4], other[4] = (one[4] + 1) % 256, (other[4] - 1) % 256
    return assemble(preamble, kept, total=sum(b"".join(records)))


def doubled(rng: Random, preamble: bytes, records: Records) -> bytes:
    """A whole file before a file: it is a preamble, and the second file counts."""
    return assemble(preamble, records) + assemble(b"", records[: rng.randrange(len(records) + 1)])


DAMAGES: tuple[Callable[[Random, bytes, Records], bytes], ...] = (
    too_short,
    wrong_magic,
    extended,
    cut_behind,
    cut_before,
    count_above,
    one_too_many,
    count_beside,
    back_beside,
    both_beside,
    sum_beside,
    off_domain,
    off_domain,
    swapped,
    duplicated,
    duplicated,
    off_domain_and_out_of_order,
    several_fields,
    several_fields,
    flipped,
    flipped,
    records_flipped,
    balanced,
    doubled,
)
# These are of some 65,536 bytes each, so they come seldom.
LONG_DAMAGES: tuple[Callable[[Random, bytes, Records], bytes], ...] = (too_long, longest)
SELDOM = 40


def damage(rng: Random, preamble: bytes, points: Iterable[Point]) -> bytes:
    """A damaged file; the points are at least one."""
    kinds = DAMAGES if rng.randrange(SELDOM) else LONG_DAMAGES
    return rng.choice(kinds)(rng, preamble, records_of(points))
