"""The commands that README.md shows, run one after the other in one folder, with what they print."""

from __future__ import annotations

import os
import subprocess
import tempfile
import unittest
from pathlib import Path

from tool import REPOSITORY, SECONDS, TOOL

SHELL = "$ "
TABLE = "wear;rest;shift"


def blocks(text: str) -> list[list[str]]:
    """The indented blocks of a page, each as its lines without the indentation."""
    found: list[list[str]] = [[]]
    for line in text.splitlines():
        if line.startswith("    "):
            found[-1].append(line[4:])
        elif found[-1]:
            found.append([])
    return [block for block in found if block]


def commands(block: list[str]) -> list[tuple[str, str]]:
    """The commands of a block, each with the lines that it prints."""
    starts = [at for at, line in enumerate(block) if line.startswith(SHELL)]
    ends = [*starts[1:], len(block)]
    shown = (block[start:end] for start, end in zip(starts, ends))
    return [(lines[0][len(SHELL) :], "".join(line + "\n" for line in lines[1:])) for lines in shown]


def printed(command: str, folder: Path) -> str:
    """What a command prints, messages among it as they come."""
    paths = os.pathsep.join([str(Path(TOOL).parent), os.environ["PATH"]])
    done = subprocess.run(
        ["bash", "-c", command],
        cwd=folder,
        env=os.environ | {"PATH": paths},
        stdout=subprocess.PIPE,
        stderr=subprocess.STDOUT,
        timeout=SECONDS,
    )
    return done.stdout.decode()


def differing(text: str, folder: Path) -> list[str]:
    """The commands of a page that print something else than it shows; its table is pages.csv."""
    found = blocks(text)
    tables = [block for block in found if block[0] == TABLE]
    (folder / "pages.csv").write_text("".join(line + "\n" for line in tables[0]))
    shown = [pair for block in found for pair in commands(block)]
    return [command for command, lines in shown if printed(command, folder) != lines]


class Readme(unittest.TestCase):
    def setUp(self) -> None:
        self.text = (REPOSITORY / "README.md").read_text("utf-8")

    def test_commands_print_what_it_shows(self) -> None:
        self.assertGreaterEqual(sum(len(commands(block)) for block in blocks(self.text)), 8)
        with tempfile.TemporaryDirectory() as folder:
            self.assertEqual(differing(self.text, Path(folder)), [])

    def test_another_number_is_noticed(self) -> None:
        with tempfile.TemporaryDirectory() as folder:
            changed = self.text.replace("answer -15.87890625 steps", "answer -15.8828125 steps")
            self.assertEqual(differing(changed, Path(folder)), ["shepard look drive.rls 1000 1000"])


if __name__ == "__main__":
    unittest.main()
