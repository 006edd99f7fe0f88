"""What tests of failures share: commands that read, write and tell, and a folder with their files."""

from __future__ import annotations

import files
from tool import ToolTest

NO_SPACE = "No space left on device (os error 28)"
NOT_THERE = "No such file or directory (os error 2)"
FOLDER = "Is a directory (os error 21)"
SURVEY = files.survey(files.FOUR, files.FOUR_GRID)
# Each command that writes, without the name of its output.
WRITERS = (
    "import t.csv -o",
    "export f.rls -o",
    "grid f.rls -o",
    "grid f.rls --as csv -o",
    "grid f.rls --as esri -o",
    "picture f.rls -o",
)
# Each command that reads a file, with {} for its name.
READERS = (
    "import {} -o o",
    "export {}",
    "check {}",
    "look {} 1 1",
    "edit {}",
    "grid {} -o o",
    "picture {} -o o",
    "diff {} f.rls",
    "diff f.rls {}",
)
# Each command that writes its result to standard output.
TELLERS = (
    "--help",
    "--version",
    "check --help",
    "import t.csv -o -",
    "import t.csv -o o",
    "export f.rls",
    "export f.rls -o -",
    "check f.rls",
    "look f.rls 1 1",
    "grid f.rls -o -",
    "grid f.rls -o o",
    "grid f.rls -o - --as csv",
    "grid f.rls -o - --as esri",
    "picture f.rls -o -",
    "picture f.rls -o o",
    "diff f.rls f.rls",
    "diff f.rls g.rls",
)


class FailureTest(ToolTest):
    """Files to read, in a folder that a failed run leaves as it was."""

    def setUp(self) -> None:
        super().setUp()
        self.put("t.csv", files.table(files.FOUR))
        self.put("f.rls", SURVEY)
        self.put("g.rls", files.survey(files.FOUR[1:], files.FOUR_GRID))
        self.given = self.names()

    def assert_failed(self, words: str, errors: str) -> None:
        self.assert_ran(words, 2, errors=errors)
        self.assertEqual([name for name in self.names() if name not in self.given], [], words)

    def result(self, words: str) -> bytes:
        """What a command writes to its output, as it writes it to standard output."""
        ran = self.run_tool(f"{words} -")
        self.assertEqual((ran.status, ran.errors), (0, b""), words)
        return ran.output
