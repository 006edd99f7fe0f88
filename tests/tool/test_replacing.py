"""Finds files replaced and never changed in place: permissions, links, devices, pipes and temporaries."""

from __future__ import annotations

import os
import stat
import threading
import unittest
from collections.abc import Callable
from pathlib import Path

import files
from failing import FOLDER, NOT_THERE, SURVEY, WRITERS, FailureTest


class Protected(FailureTest):
    def test_write_protected(self) -> None:
        for mode in (0o444, 0o400, 0o555, 0o000):
            self.put("o", b"old")
            (self.folder / "o").chmod(mode)
            for words in WRITERS:
                self.assert_ran(f"{words} o", 2, errors="o: it is write-protected\n")
                self.assertEqual(stat.S_IMODE((self.folder / "o").stat().st_mode), mode)
            (self.folder / "o").chmod(0o600)
            self.assertEqual(self.bytes_of("o"), b"old")
            self.assertEqual(self.names(), sorted([*self.given, "o"]))

    def test_edit(self) -> None:
        (self.folder / "f.rls").chmod(0o444)
        errors = "line 2: write: f.rls: it is write-protected\nf.rls: 1 change is not written\n"
        self.assert_ran("edit f.rls", 2, "ok\n", errors, b"clear\nwrite\n")
        self.assertEqual(self.bytes_of("f.rls"), SURVEY)

    def test_by_a_link(self) -> None:
        self.put("o", b"old")
        (self.folder / "o").chmod(0o444)
        os.symlink("o", self.folder / "l")
        self.assert_ran("export f.rls -o l", 2, errors="l: it is write-protected\n")
        self.assertEqual(self.bytes_of("o"), b"old")

    def test_permissions_are_kept(self) -> None:
        for mode in (0o600, 0o640, 0o664, 0o666, 0o755, 0o200, 0o420):
            for words in WRITERS:
                wanted = self.result(words)
                self.put("o", b"old")
                (self.folder / "o").chmod(mode)
                self.assertEqual(self.run_tool(f"{words} o").status, 0, words)
                self.assertEqual(stat.S_IMODE((self.folder / "o").stat().st_mode), mode, words)
                (self.folder / "o").chmod(0o600)
                self.assertEqual(self.bytes_of("o"), wanted, words)

    def test_permissions_of_a_new_file(self) -> None:
        for mask in (0o022, 0o027, 0o077, 0o000):
            self.run_tool("export f.rls -o o", umask=mask)
            self.assertEqual(stat.S_IMODE((self.folder / "o").stat().st_mode), 0o666 & ~mask)
            (self.folder / "o").unlink()


class Links(FailureTest):
    def test_the_target_is_replaced(self) -> None:
        for words in WRITERS:
            wanted = self.result(words)
            self.put("target", b"old")
            os.symlink("target", self.folder / "one")
            os.symlink("one", self.folder / "two")
            self.assertEqual(self.run_tool(f"{words} two").status, 0, words)
            self.assertEqual((os.readlink(self.folder / "two"), os.readlink(self.folder / "one")), ("one", "target"))
            self.assertFalse((self.folder / "target").is_symlink())
            self.assertEqual(self.bytes_of("target"), wanted)
            for name in ("two", "one", "target"):
                (self.folder / name).unlink()

    def test_the_message_names_the_link(self) -> None:
        os.symlink("target", self.folder / "l")
        self.assert_ran("import t.csv -o l", 0, "l: a survey of 4 points\n")

    def test_a_target_that_is_not_there(self) -> None:
        (self.folder / "d").mkdir()
        for target in ("target", "d/target", str(self.folder / "absolute")):
            os.symlink(target, self.folder / "l")
            self.assertEqual(self.run_tool("export f.rls -o l").status, 0)
            self.assertEqual(os.readlink(self.folder / "l"), target)
            self.assertEqual((self.folder / target).read_bytes(), files.exported(files.FOUR).encode())
            (self.folder / "l").unlink()

    def test_a_target_whose_folder_is_not_there(self) -> None:
        os.symlink("no/target", self.folder / "l")
        self.given.append("l")
        self.assert_failed("export f.rls -o l", f"l: {NOT_THERE}\n")
        self.assertEqual(os.readlink(self.folder / "l"), "no/target")

    def test_a_link_from_another_folder(self) -> None:
        """A relative target stands beside the link, not in the folder of the run."""
        (self.folder / "d").mkdir()
        os.symlink("target", self.folder / "d" / "l")
        self.assertEqual(self.run_tool("export f.rls -o d/l").status, 0)
        self.assertEqual(sorted(os.listdir(self.folder / "d")), ["l", "target"])
        self.assertTrue((self.folder / "d" / "l").is_symlink())
        self.assertNotIn("target", self.names())

    def test_a_link_to_a_folder(self) -> None:
        (self.folder / "d").mkdir()
        os.symlink("d", self.folder / "l")
        self.given += ["d", "l"]
        self.assert_failed("export f.rls -o l", f"l: {FOLDER}\n")
        self.assertEqual(os.readlink(self.folder / "l"), "d")

    def test_a_link_in_a_ring(self) -> None:
        os.symlink("l", self.folder / "l")
        self.given.append("l")
        self.assert_failed("export f.rls -o l", "l: Too many levels of symbolic links (os error 40)\n")
        self.assertEqual(os.readlink(self.folder / "l"), "l")

    def test_edit_of_a_link(self) -> None:
        os.symlink("f.rls", self.folder / "l")
        output = "ok\nl: a survey of 3 points\n"
        self.assert_ran("edit l", 0, output, "", b"drop 100 200\nwrite\n")
        self.assertEqual(os.readlink(self.folder / "l"), "f.rls")
        self.assertEqual(self.bytes_of("f.rls"), self.bytes_of("g.rls"))

    def test_edit_of_a_link_whose_target_is_not_there(self) -> None:
        """A new survey, which stands at the target once it is written."""
        os.symlink("target", self.folder / "l")
        output = "ok\nl: a survey of 1 point\n"
        self.assert_ran("edit l", 0, output, "l: a new survey\n", b"add 1 2 3\nwrite\n")
        self.assertEqual(os.readlink(self.folder / "l"), "target")
        self.assertEqual(self.bytes_of("target"), files.survey([(1, 2, 3)]))


def drained(path: Path, into: list[bytes]) -> threading.Thread:
    """A thread that reads a pipe to its end."""
    reader = threading.Thread(target=lambda: into.append(path.read_bytes()), daemon=True)
    reader.start()
    return reader


class Devices(FailureTest):
    """What is no regular file is written to, and stays what it is."""

    def test_null(self) -> None:
        null = self.device("null")
        for words in WRITERS:
            ran = self.run_tool(f"{words} {null}")
            self.assertEqual((ran.status, ran.errors), (0, b""), words)
            self.assertTrue(stat.S_ISCHR((self.folder / null).lstat().st_mode))

    def test_a_pipe(self) -> None:
        pipe = self.folder / "pipe"
        os.mkfifo(pipe)
        for words in WRITERS:
            came: list[bytes] = []
            reader = drained(pipe, came)
            ran = self.run_tool(f"{words} pipe")
            reader.join(5)
            self.assertEqual((ran.status, ran.errors), (0, b""), words)
            self.assertEqual(came, [self.result(words)], words)
            self.assertTrue(stat.S_ISFIFO(pipe.lstat().st_mode))

    def test_a_pipe_by_a_link(self) -> None:
        os.mkfifo(self.folder / "pipe")
        os.symlink("pipe", self.folder / "l")
        came: list[bytes] = []
        reader = drained(self.folder / "pipe", came)
        self.assertEqual(self.run_tool("export f.rls -o l").status, 0)
        reader.join(5)
        self.assertEqual(came, [files.exported(files.FOUR).encode()])
        self.assertTrue(stat.S_ISFIFO((self.folder / "pipe").lstat().st_mode))
        self.assertTrue((self.folder / "l").is_symlink())

    def test_nothing_is_opened_for_a_refused_input(self) -> None:
        """A pipe that nobody reads would keep the run waiting."""
        os.mkfifo(self.folder / "pipe")
        self.put("bad.csv", "1,2\n")
        for words in ("import bad.csv -o pipe", "export t.csv -o pipe", "grid t.csv -o pipe", "picture t.csv -o pipe"):
            self.assertEqual(self.run_tool(words).status, 1, words)

    def test_input_from_a_pipe(self) -> None:
        os.mkfifo(self.folder / "pipe")
        writer = threading.Thread(target=lambda: (self.folder / "pipe").write_bytes(SURVEY), daemon=True)
        writer.start()
        self.assert_ran("export pipe", 0, files.exported(files.FOUR))
        writer.join(5)

    def test_output_named_as_a_descriptor(self) -> None:
        """A link as /dev/stdout is one, to a pipe without a name: it is written to."""
        os.symlink("/proc/self/fd/1", self.folder / "out")
        ran = self.run_tool("export f.rls -o out")
        self.assertEqual(ran, (0, files.exported(files.FOUR).encode(), b""))
        self.assertEqual(os.readlink(self.folder / "out"), "/proc/self/fd/1")


def put_mine(path: str) -> None:
    Path(path).write_bytes(b"mine")


class Temporaries(FailureTest):
    def taken(self, make: Callable[[str], None]) -> Callable[[], None]:
        """Before the run, what its temporary would be called is there already."""
        return lambda: make(str(self.folder / f".o.{os.getpid()}.tmp"))

    def assert_left_alone(self, make: Callable[[str], None]) -> Path:
        """The run fails with the old file as it was, or is done; what was there stays."""
        self.put("o", b"old")
        ran = self.run_tool("export f.rls -o o", preexec_fn=self.taken(make))
        wanted = files.exported(files.FOUR).encode() if ran.status == 0 else b"old"
        self.assertEqual(self.bytes_of("o"), wanted)
        self.assertIn(ran.status, (0, 2))
        (left,) = self.folder.glob(".o.*.tmp")
        return left

    def test_a_file_of_that_name(self) -> None:
        left = self.assert_left_alone(put_mine)
        self.assertEqual(left.read_bytes(), b"mine")
        left.unlink()

    def test_a_link_of_that_name(self) -> None:
        left = self.assert_left_alone(lambda path: os.symlink("f.rls", path))
        self.assertEqual(os.readlink(left), "f.rls")
        self.assertEqual(self.bytes_of("f.rls"), SURVEY)
        left.unlink()

    def test_readers_see_whole_files(self) -> None:
        """While one file is written over and over, every reader sees one of two whole ones."""
        seen, done = set(), threading.Event()
        wholes = {files.survey(files.FOUR), files.survey(files.FOUR[1:])}
        self.put("u.csv", files.table(files.FOUR[1:]))
        self.run_tool("import t.csv -o o")

        def read() -> None:
            while not done.is_set():
                seen.add(self.bytes_of("o"))

        reader = threading.Thread(target=read)
        reader.start()
        for index in range(60):
            self.run_tool(("import t.csv -o o", "import u.csv -o o")[index % 2])
        done.set()
        reader.join()
        self.assertLessEqual(seen, wholes)

    def test_two_links_to_one_file(self) -> None:
        """The other name keeps the old file: it was never changed in place."""
        self.put("o", b"old")
        os.link(self.folder / "o", self.folder / "p")
        self.assertEqual(self.run_tool("export f.rls -o o").status, 0)
        self.assertEqual(self.bytes_of("p"), b"old")


if __name__ == "__main__":
    unittest.main()
