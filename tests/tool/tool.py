"""Runs the command shepard, in a folder of its own for each test, and the proved programs."""

from __future__ import annotations

import os
import stat
import subprocess
import sys
import tempfile
import unittest
from collections.abc import Sequence
from pathlib import Path
from struct import pack
from typing import Any, NamedTuple

REPOSITORY = Path(__file__).resolve().parent.parent.parent
sys.path.append(str(REPOSITORY / "tests"))

SECONDS = 20
SAMPLE = REPOSITORY / "sample" / "worn_drive.rls"
SEED = 1968
DEVICES = {"null": os.makedev(1, 3), "full": os.makedev(1, 7)}


def program(variable: str, usual: str) -> str:
    """The path that an environment variable names, or the usual one in the repository."""
    return str(Path(os.environ.get(variable, REPOSITORY / usual)).resolve())


TOOL = program("SHEPARD_TOOL", "target/rust/release/shepard")
GRID = program("SHEPARD_GRID", "target/bin/shepard_grid")
ESRI = program("SHEPARD_ESRI", "target/bin/shepard_esri")
REPLAY = program("SHEPARD_REPLAY", "target/bin/shepard_replay")

# The words of a run, as a sequence or parted by spaces.
Words = str | Sequence[str | bytes]


class Ran(NamedTuple):
    """How a run of the tool ended."""

    status: int
    output: bytes
    errors: bytes


def as_words(words: Words) -> list[str | bytes]:
    return words.split() if isinstance(words, str) else list(words)


def as_bytes(text: str | bytes) -> bytes:
    return text.encode() if isinstance(text, str) else text


def run(words: Words, folder: Path, data: bytes | None = b"", **more: Any) -> Ran:
    """One run; `data` is its standard input, and what is not captured is empty."""
    given = {"stdout": subprocess.PIPE, "stderr": subprocess.PIPE} | more
    if data is not None:
        given["input"] = data
    done = subprocess.run([TOOL, *as_words(words)], cwd=folder, timeout=SECONDS, **given)
    return Ran(done.returncode, done.stdout or b"", done.stderr or b"")


def proved(command: str, data: bytes) -> bytes:
    """What one of the proved programs writes for an input."""
    return subprocess.run([command], input=data, stdout=subprocess.PIPE, timeout=SECONDS, check=True).stdout


def grid_file(numbers: Sequence[int], survey: bytes) -> bytes:
    """What shepard_grid writes for a survey file over a grid."""
    return proved(GRID, pack(">6H", *numbers) + survey)


def esri_text(numbers: Sequence[int], survey: bytes) -> bytes:
    """What shepard_esri writes for a survey file over a grid."""
    return proved(ESRI, pack(">6H", *numbers) + survey)


class ToolTest(unittest.TestCase):
    """A test with a folder in which the tool runs, and in which it may leave no temporary."""

    maxDiff = 5000

    def setUp(self) -> None:
        made = tempfile.TemporaryDirectory(prefix="shepard-tool-")
        self.addCleanup(made.cleanup)
        self.folder = Path(made.name)

    def tearDown(self) -> None:
        self.assertEqual(sorted(self.folder.rglob("*.tmp")), [])

    def put(self, name: str, data: str | bytes) -> str:
        """Make a file in the folder; gives its name."""
        (self.folder / name).write_bytes(as_bytes(data))
        return name

    def bytes_of(self, name: str) -> bytes:
        return (self.folder / name).read_bytes()

    def device(self, name: str) -> str:
        """A device in the folder: were it one of /dev, a tool that replaces what it should write to would harm all."""
        made = self.folder / name
        try:
            os.mknod(made, stat.S_IFCHR | 0o600, DEVICES[name])
            made.open("wb").close()
            return name
        except PermissionError:
            made.unlink(missing_ok=True)
        if os.access("/dev", os.W_OK):
            self.skipTest("no device can be made here, and those of /dev could be replaced")
        return f"/dev/{name}"

    def names(self) -> list[str]:
        """What stands in the folder."""
        return sorted(os.listdir(self.folder))

    def run_tool(self, words: Words, data: bytes | None = b"", **more: Any) -> Ran:
        ran = run(words, self.folder, data, **more)
        self.assertIn(ran.status, (0, 1, 2), (words, ran.errors))
        return ran

    def assert_ran(
        self,
        words: Words,
        status: int = 0,
        output: str | bytes = b"",
        errors: str | bytes = b"",
        data: bytes = b"",
    ) -> None:
        """A run gives just this status, this standard output and these messages."""
        ran = self.run_tool(words, data)
        self.assertEqual(ran.errors, as_bytes(errors), words)
        self.assertEqual(ran.output, as_bytes(output), words)
        self.assertEqual(ran.status, status, words)

    def assert_written(self, words: Words, output: str, name: str, wanted: bytes, data: bytes = b"") -> None:
        """A run is done, says so, and the file is just these bytes."""
        self.assert_ran(words, 0, output, b"", data)
        self.assertEqual(self.bytes_of(name), wanted, words)
