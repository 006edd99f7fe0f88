"""Makes reading and writing fail, and finds the old files as they were and nothing left behind."""

from __future__ import annotations

import os
import resource
import signal
import stat
import subprocess
import unittest
from collections.abc import Callable
from typing import Any

import files
from failing import FOLDER, NO_SPACE, NOT_THERE, READERS, SURVEY, TELLERS, WRITERS, FailureTest
from texts import NEITHER_MAGIC
from tool import SECONDS, TOOL, Ran, grid_file

NOBODY = 65_534


class Reading(FailureTest):
    def test_a_file_that_is_not_there(self) -> None:
        for words in READERS:
            if not words.startswith("edit"):
                self.assert_failed(words.format("none"), f"none: {NOT_THERE}\n")
                self.assert_failed(words.format("no/none"), f"no/none: {NOT_THERE}\n")

    def test_a_folder(self) -> None:
        (self.folder / "d").mkdir()
        self.given.append("d")
        for words in READERS:
            self.assert_failed(words.format("d"), f"d: {FOLDER}\n")

    def test_a_folder_as_standard_input(self) -> None:
        for words in READERS:
            if words.startswith("edit"):
                continue
            descriptor = os.open(self.folder, os.O_RDONLY)
            ran = self.run_tool(words.format("-"), None, stdin=descriptor)
            os.close(descriptor)
            self.assertEqual(ran, (2, b"", f"standard input: {FOLDER}\n".encode()), words)
        self.assertEqual(self.names(), self.given)

    def test_commands_of_edit_from_a_folder(self) -> None:
        descriptor = os.open(self.folder, os.O_RDONLY)
        ran = self.run_tool("edit f.rls", None, stdin=descriptor)
        os.close(descriptor)
        self.assertEqual(ran, (2, b"", f"standard input: {FOLDER}\n".encode()))

    def test_a_file_below_a_file(self) -> None:
        for words in READERS:
            self.assert_failed(words.format("t.csv/x"), "t.csv/x: Not a directory (os error 20)\n")

    def test_links_that_lead_nowhere(self) -> None:
        os.symlink("round", self.folder / "round")
        self.given.append("round")
        for words in READERS:
            self.assert_failed(words.format("round"), "round: Too many levels of symbolic links (os error 40)\n")

    def test_endless_input(self) -> None:
        """No more is read than a file may have."""
        for words in ("export /dev/zero", "check /dev/zero", "look /dev/zero 1 1", "grid /dev/zero -o o"):
            ran = self.run_tool(words)
            self.assertEqual((ran.status, ran.output), (1, b""), words)
            self.assertTrue(ran.errors.startswith(b"/dev/zero: refused 9: "), ran.errors)

    def test_closed_standard_input(self) -> None:
        """Nothing is written."""
        for words in ("import - -o o", "export - -o o", "grid - -o o", "check -"):
            ran = self.run_tool(words, None, stdin=None, preexec_fn=lambda: os.close(0))
            self.assertIn(ran.status, (1, 2), words)
            self.assertEqual(ran.output, b"", words)
            self.assertEqual(ran.errors.count(b"\n"), 1, words)
        self.assertEqual(self.names(), self.given)

    def test_edit_with_closed_standard_input(self) -> None:
        ran = self.run_tool("edit f.rls", None, stdin=None, preexec_fn=lambda: os.close(0))
        self.assertEqual(ran.output, b"")
        self.assertEqual(self.bytes_of("f.rls"), SURVEY)


class StandardOutput(FailureTest):
    def run_to(self, words: str, output: Any) -> Ran:
        return self.run_tool(words, stdout=output)

    def test_full(self) -> None:
        for words in TELLERS:
            with open("/dev/full", "wb") as full:
                ran = self.run_to(words, full)
            self.assertEqual(ran, (2, b"", f"standard output: {NO_SPACE}\n".encode()), words)

    def test_closed_pipe(self) -> None:
        for words in TELLERS:
            reading, writing = os.pipe()
            os.close(reading)
            ran = self.run_to(words, writing)
            os.close(writing)
            self.assertEqual(ran, (2, b"", b"standard output: Broken pipe (os error 32)\n"), words)

    def test_full_for_edit(self) -> None:
        """The run ends with status 2, and the file is as it was."""
        for script in (b"list\n", b"add 1 1 1\nlist\n", b"help\n", b"look 1 1\n", b"grid\n"):
            with open("/dev/full", "wb") as full:
                ran = self.run_tool("edit f.rls", script, stdout=full)
            self.assertEqual(ran.status, 2, script)
            self.assertIn(f"standard output: {NO_SPACE}\n".encode(), ran.errors)
            self.assertEqual(self.bytes_of("f.rls"), SURVEY)

    def test_closed_pipe_for_edit(self) -> None:
        """The run ends where it cannot answer: what comes after is not done."""
        reading, writing = os.pipe()
        os.close(reading)
        ran = self.run_tool("edit f.rls", b"drop 100 200\nlist\nwrite\n", stdout=writing)
        os.close(writing)
        self.assertEqual(ran.status, 2)
        self.assertIn(b"standard output: Broken pipe (os error 32)\n", ran.errors)
        self.assertEqual(self.bytes_of("f.rls"), SURVEY)

    def test_closed(self) -> None:
        """What goes to a file does not get what is said of it."""
        for words in WRITERS:
            wanted = self.result(words)
            ran = self.run_tool(f"{words} o", stdout=None, preexec_fn=lambda: os.close(1))
            self.assertEqual(ran.errors, b"", words)
            self.assertEqual(self.bytes_of("o"), wanted, words)

    def test_closed_standard_error(self) -> None:
        """A message that cannot be told alters no file and no status."""
        for words, status in (("import none -o o", 2), ("export t.csv -o o", 1), ("x", 2)):
            ran = self.run_tool(words, stderr=None, preexec_fn=lambda: os.close(2))
            self.assertEqual(ran, (status, b"", b""), words)
        self.assertEqual(self.names(), self.given)

    def test_full_standard_error(self) -> None:
        for words, status in (("import none -o o", 2), ("export t.csv -o o", 1), ("x", 2)):
            with open("/dev/full", "wb") as full:
                self.assertEqual(self.run_tool(words, stderr=full), (status, b"", b""), words)


class Places(FailureTest):
    """Where nothing can be written."""

    def test_no_folder(self) -> None:
        for words in WRITERS:
            self.assert_failed(f"{words} no/o", f"no/o: {NOT_THERE}\n")

    def test_a_folder_that_nobody_can_write_to(self) -> None:
        for words in WRITERS:
            ran = self.run_tool(f"{words} /proc/o")
            self.assertEqual((ran.status, ran.output, ran.errors.count(b"\n")), (2, b"", 1), words)
            self.assertTrue(ran.errors.startswith(b"/proc/o: "), ran.errors)

    def test_a_folder_as_output(self) -> None:
        (self.folder / "d").mkdir()
        self.given.append("d")
        for words in WRITERS:
            self.assert_failed(f"{words} d", f"d: {FOLDER}\n")
        self.assertEqual(os.listdir(self.folder / "d"), [])

    def test_a_full_device(self) -> None:
        full = self.device("full")
        self.given.append(full)
        for words in WRITERS:
            self.assert_failed(f"{words} {full}", f"{full}: {NO_SPACE}\n")
            self.assertTrue(stat.S_ISCHR((self.folder / full).lstat().st_mode))

    def test_below_a_file(self) -> None:
        for words in WRITERS:
            self.assert_failed(f"{words} t.csv/o", "t.csv/o: Not a directory (os error 20)\n")

    def test_a_name_that_is_too_long(self) -> None:
        name = "n" * 300
        for words in WRITERS:
            self.assert_failed(f"{words} {name}", f"{name}: File name too long (os error 36)\n")

    def test_the_longest_name(self) -> None:
        for words in WRITERS:
            wanted, name = self.result(words), "n" * 255
            self.assertEqual(self.run_tool(f"{words} {name}").status, 0, words)
            self.assertEqual(self.bytes_of(name), wanted)

    def test_an_empty_name(self) -> None:
        ran = self.run_tool(["export", "f.rls", "-o", ""])
        self.assertEqual((ran.status, ran.output), (2, b""))
        self.assertEqual(self.names(), self.given)


def at_most(size: int) -> Callable[[], None]:
    """No file may grow beyond a size: a write that would go beyond it fails halfway, or ends the run by a signal."""

    def limit() -> None:
        resource.setrlimit(resource.RLIMIT_CORE, (0, 0))
        resource.setrlimit(resource.RLIMIT_FSIZE, (size, size))

    return limit


class Halfway(FailureTest):
    """A write that fails after some bytes."""

    def assert_halfway(self, words: str) -> None:
        ran = self.run_tool(words, restore_signals=False, preexec_fn=at_most(10))
        self.assertEqual(ran, (2, b"", b"o: File too large (os error 27)\n"), words)

    def test_new_file(self) -> None:
        for words in WRITERS:
            self.assert_halfway(f"{words} o")
            self.assertEqual(self.names(), self.given)

    def test_old_file(self) -> None:
        for words in WRITERS:
            self.put("o", b"the old file, longer than ten bytes")
            self.assert_halfway(f"{words} o")
            self.assertEqual(self.bytes_of("o"), b"the old file, longer than ten bytes")
            self.assertEqual(self.names(), sorted([*self.given, "o"]))

    def test_edit(self) -> None:
        script = b"drop 100 200\nwrite\nwrite o\n"
        ran = self.run_tool("edit f.rls", script, restore_signals=False, preexec_fn=at_most(10))
        large = "File too large (os error 27)\n"
        errors = f"line 2: write: f.rls: {large}line 3: write o: o: {large}f.rls: 1 change is not written\n"
        self.assertEqual(ran, (2, b"ok\n", errors.encode()))
        self.assertEqual(self.bytes_of("f.rls"), SURVEY)
        self.assertEqual(self.names(), self.given)


    def test_ended_by_a_signal(self) -> None:
        """The old file is as it was, and beside it is the temporary, by its name."""
        self.put("o", b"old")
        command = [TOOL, "export", "f.rls", "-o", "o"]
        with subprocess.Popen(command, cwd=self.folder, preexec_fn=at_most(10)) as running:
            running.wait(SECONDS)
        self.assertEqual(running.returncode, -signal.SIGXFSZ)
        self.assertEqual(self.bytes_of("o"), b"old")
        self.assertEqual(self.names(), sorted([*self.given, "o", f".o.{running.pid}.tmp"]))
        (self.folder / f".o.{running.pid}.tmp").unlink()


class Strangers(FailureTest):
    """A run by somebody who may not write in the folder: as root by another user, else by the same one."""

    def setUp(self) -> None:
        super().setUp()
        self.put("o", b"old")
        self.put("secret", SURVEY)
        (self.folder / "o").chmod(0o666)
        (self.folder / "secret").chmod(0o000)
        self.folder.chmod(0o755 if os.geteuid() == 0 else 0o555)
        self.addCleanup(self.folder.chmod, 0o755)

    def assert_denied(self, words: str, name: str) -> None:
        other = {"user": NOBODY, "group": NOBODY, "extra_groups": []} if os.geteuid() == 0 else {}
        before = self.names()
        try:
            ran = self.run_tool(words, **other)
        except PermissionError:
            self.skipTest("others may not run the tool")
        self.assertEqual(ran, (2, b"", f"{name}: Permission denied (os error 13)\n".encode()), words)
        self.assertEqual(self.names(), before)

    def test_reading(self) -> None:
        for words in READERS:
            self.assert_denied(words.format("secret"), "secret")

    def test_writing(self) -> None:
        """A file that could be changed in place is not, since it cannot be replaced."""
        for words in WRITERS:
            self.assert_denied(f"{words} new", "new")
            self.assert_denied(f"{words} o", "o")
            self.assertEqual(self.bytes_of("o"), b"old")


class OneAfterTheOther(FailureTest):
    def test_both_statuses(self) -> None:
        """Where something is refused and something fails, 2."""
        self.put("bad", b"x" * 30)
        errors = f"bad: refused 10: {NEITHER_MAGIC}\nnone: {NOT_THERE}\n"
        self.assert_ran("check bad none", 2, errors=errors)

    def test_refused_input_leaves_the_old_file(self) -> None:
        self.put("o", b"old")
        self.put("bad", SURVEY[:-4] + b"RLS2")
        for words in ("export bad -o o", "grid bad -o o", "picture bad -o o"):
            ran = self.run_tool(words)
            self.assertEqual((ran.status, ran.output), (1, b""))
            self.assertEqual(self.bytes_of("o"), b"old")

    def test_output_over_the_input(self) -> None:
        """All is read before anything is written."""
        wanted = grid_file(files.FOUR_GRID, SURVEY)
        self.assert_written("grid f.rls -o f.rls", "f.rls: a grid of 5 columns and 3 rows\n", "f.rls", wanted)
        self.assert_written("import t.csv -o t.csv", "t.csv: a survey of 4 points\n", "t.csv", files.survey(files.FOUR))

    def test_a_changed_old_file_is_noticed(self) -> None:
        with self.assertRaises(AssertionError):
            self.assert_ran("export f.rls -o no/o", 2, errors=f"no/o: {NO_SPACE}\n")
        with self.assertRaises(AssertionError):
            self.put("left", b"")
            self.assert_failed("export f.rls -o no/o", f"no/o: {NOT_THERE}\n")


if __name__ == "__main__":
    unittest.main()
