"""The programs say on standard error where a read or a write fails, once, and are silent otherwise."""

from __future__ import annotations

import subprocess
import tempfile
import unittest
from pathlib import Path

ROOT = Path(__file__).parent.parent
SAMPLE = ROOT / "sample" / "worn_drive.rls"
PROGRAMS = ("shepard_grid", "shepard_esri", "shepard_replay")
READ_FAILED = b"standard input: a read failed\n"
WRITE_FAILED = b"standard output: a write failed\n"


def run(program: str, source: Path, sink: Path | None = None) -> tuple[bytes, bytes]:
    """What a program writes to standard output, unless it goes to a sink, and to standard error."""
    path = ROOT / "target" / "bin" / program
    # a folder is opened as a shell's `<` does: opening succeeds, reading fails
    command = ["sh", "-c", '"$0" < "$1" > "${2:-/dev/stdout}"', str(path), str(source), str(sink or "")]
    done = subprocess.run(command, capture_output=True, check=True)
    return done.stdout, done.stderr


class FailingIo(unittest.TestCase):
    def test_a_read_that_fails(self) -> None:
        with tempfile.TemporaryDirectory() as folder:
            for program in PROGRAMS:
                with self.subTest(program=program):
                    self.assertEqual(run(program, Path(folder)), (b"", READ_FAILED))

    def test_a_write_that_fails_is_told_once(self) -> None:
        with tempfile.TemporaryDirectory() as folder:
            journal = Path(folder) / "journal"
            journal.write_bytes(b"k" * 1000)
            for program, source in zip(PROGRAMS, (SAMPLE, SAMPLE, journal)):
                with self.subTest(program=program):
                    self.assertEqual(run(program, source, Path("/dev/full")), (b"", WRITE_FAILED))

    def test_nothing_is_told_where_nothing_fails(self) -> None:
        with tempfile.TemporaryDirectory() as folder:
            files = {length: Path(folder) / str(length) for length in (0, 1, 65_536, 65_537, 70_000)}
            for length, file in files.items():
                file.write_bytes(bytes(length))
                for program in PROGRAMS:
                    with self.subTest(program=program, length=length):
                        output, told = run(program, file)
                        self.assertEqual(told, b"")
                        self.assertEqual(bool(output), program != "shepard_replay" or length > 0)


if __name__ == "__main__":
    unittest.main()
