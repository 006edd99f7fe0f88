"""Runs edit on a pseudo-terminal: the sign before each line, its short messages and its question at the end."""

from __future__ import annotations

import errno
import os
import pty
import subprocess
import termios
import threading
import unittest

import files
from texts import refused
from tool import TOOL, ToolTest

QUESTION = "{} changes are not written. Write them? (yes, no, or anything else to go on) "
END_OF_INPUT = "\x04"
# A run that waits for more than is typed is ended after these.
SECONDS = 5


def plain_terminal() -> tuple[int, int]:
    """Both ends of a terminal that neither echoes nor alters line ends."""
    ours, theirs = pty.openpty()
    modes = termios.tcgetattr(theirs)
    modes[1] &= ~termios.OPOST
    modes[3] &= ~termios.ECHO
    termios.tcsetattr(theirs, termios.TCSANOW, modes)
    return ours, theirs


def read_to_the_end(descriptor: int) -> bytes:
    """All that comes; a terminal whose other end is closed fails with EIO."""
    parts = []
    while True:
        try:
            part = os.read(descriptor, 4096)
        except OSError as error:
            if error.errno != errno.EIO:
                raise
            part = b""
        if not part:
            return b"".join(parts)
        parts.append(part)


class Terminal(ToolTest):
    def transcript(self, name: str, typed: str) -> tuple[int, str]:
        """The exit status and all that the terminal shows."""
        ours, theirs = plain_terminal()
        command = [TOOL, "edit", name]
        with subprocess.Popen(command, cwd=self.folder, stdin=theirs, stdout=theirs, stderr=theirs) as running:
            os.close(theirs)
            late = threading.Timer(SECONDS, running.kill)
            late.start()
            os.write(ours, typed.encode())
            shown = read_to_the_end(ours)
            late.cancel()
            os.close(ours)
            return running.wait(), shown.decode()

    def test_sign_and_messages(self) -> None:
        shown = "new.rls: a new survey\n> ok\n> " + refused(3) + "\n> no command 'x'\n> > 1,2,3\n> ok\n> "
        typed = "add 1 2 3\nadd 1 2 3\nx\n\nlist\nundo\nquit\n"
        self.assertEqual(self.transcript("new.rls", typed), (0, shown))

    def test_end_of_input(self) -> None:
        """It shows nothing more than the sign where nothing is unwritten."""
        status, shown = self.transcript("new.rls", END_OF_INPUT)
        self.assertEqual((status, shown.rstrip("\n")), (0, "new.rls: a new survey\n> "))

    def assert_answered(self, answer: str, said: str, written: bool) -> None:
        self.put("f.rls", files.survey(files.FOUR))
        status, shown = self.transcript("f.rls", "add 1 1 1\nadd 2 2 2\nquit\n" + answer)
        self.assertEqual((status, shown.rstrip("\n")), (0, ("> ok\n> ok\n> " + QUESTION.format(2) + said).rstrip("\n")))
        points = [*files.FOUR, (1, 1, 1), (2, 2, 2)] if written else files.FOUR
        self.assertEqual(self.bytes_of("f.rls"), files.survey(points))

    def test_yes(self) -> None:
        for answer in ("yes\n", "y\n"):
            self.assert_answered(answer, "f.rls: a survey of 6 points\n", True)

    def test_no(self) -> None:
        for answer in ("no\n", "n\n", END_OF_INPUT):
            self.assert_answered(answer, "", False)

    def test_another_answer_is_noticed(self) -> None:
        with self.assertRaises(AssertionError):
            self.assert_answered("no\n", "f.rls: a survey of 6 points\n", True)

    def test_anything_else_goes_on(self) -> None:
        for word in ("maybe", "", "list"):
            self.assert_answered(f"{word}\nundo\nundo\nquit\n", "> ok\n> ok\n> ", False)

    def test_no_sign_where_the_output_is_no_terminal(self) -> None:
        ours, theirs = plain_terminal()
        os.write(ours, b"list\n" + END_OF_INPUT.encode())
        self.put("f.rls", files.survey(files.FOUR))
        ran = self.run_tool("edit f.rls", None, stdin=theirs)
        os.close(ours)
        os.close(theirs)
        self.assertEqual(ran, (0, files.table(files.FOUR).encode(), b""))


if __name__ == "__main__":
    unittest.main()
