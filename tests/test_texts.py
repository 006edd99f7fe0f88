"""Holds the numbers and texts of the refusals in the C header, the Rust crate and the Python module to one another."""

from __future__ import annotations

import re
import unittest
from collections.abc import Callable
from pathlib import Path
from typing import NamedTuple

ROOT = Path(__file__).parent.parent
LAST = 16


class Refusals(NamedTuple):
    """What a file says of the refusals: each name with its number, its text, and its text of a grid file."""

    numbers: dict[str, int]
    texts: dict[str, str]
    grid_file_texts: dict[str, str]


def numbers(pattern: str, source: str) -> dict[str, int]:
    return {name: int(number) for name, number in re.findall(pattern, source, re.M)}


def texts(pattern: str, source: str, start: str) -> dict[str, str]:
    """The texts by name, from the first line that has `start` to the next line that is a brace alone."""
    part = source.partition(start)[2]
    return dict(re.findall(pattern, re.split(r"^ *\}$", part, maxsplit=1, flags=re.M)[0]))


def in_header(source: str) -> Refusals:
    text = r'case SHEPARD_(\w+): return "(.*)";'
    return Refusals(
        numbers(r"^    SHEPARD_(\w+) = (\d+),?$", source),
        texts(text, source, "*shepard_refusal_text("),
        texts(text, source, "*shepard_grid_file_text("),
    )


def in_crate(source: str) -> Refusals:
    text = r'Refusal::(\w+) => "(.*)",'
    return Refusals(
        numbers(r"^    pub const (\w+): Refusal = Refusal\((\d+)\);$", source),
        texts(text, source, "fn text("),
        texts(text, source, "fn grid_file_text("),
    )


def in_module(source: str) -> Refusals:
    text = r'(\w+): "(.*)",'
    return Refusals(
        numbers(r"^([A-Z_]+) = (\d+)$", source.partition("\nTEXTS = {")[0]),
        texts(text, source, "\nTEXTS = {"),
        texts(text, source, "\nGRID_FILE_TEXTS = {"),
    )


FILES: dict[str, Callable[[str], Refusals]] = {
    "include/shepard.h": in_header,
    "rust/src/lib.rs": in_crate,
    "python/shepard.py": in_module,
}


def found() -> dict[str, Refusals]:
    return {path: read((ROOT / path).read_text("utf-8")) for path, read in FILES.items()}


class Texts(unittest.TestCase):
    def test_every_number_has_a_name_and_a_text(self) -> None:
        for path, refusals in found().items():
            self.assertEqual(list(refusals.numbers.values()), list(range(1, LAST + 1)), path)
            self.assertEqual(list(refusals.texts), list(refusals.numbers), path)
            self.assertEqual(len(refusals.grid_file_texts), 4, path)

    def test_the_files_agree(self) -> None:
        (first, wanted), *others = found().items()
        for path, refusals in others:
            for field, mine, theirs in zip(Refusals._fields, wanted, refusals):
                self.assertEqual(mine, theirs, f"{field} of {first} and of {path}")

    def test_what_it_must_catch(self) -> None:
        edits = [
            (r"(RECORD_ORDER\D*)15", r"\g<1>14"),
            ("no point is there", "none is there"),
            ("are not RLG1", "are not RLS1"),
        ]
        for path, read in FILES.items():
            source = (ROOT / path).read_text("utf-8")
            for old, new in edits:
                self.assertNotEqual(read(re.sub(old, new, source)), read(source), f"{path}: {old}")


if __name__ == "__main__":
    unittest.main()
