"""Holds import, export and edit to random tables and scripts, each of a seed that a failure shows."""

from __future__ import annotations

import unittest
from random import Random
from unittest import mock

import files
import scripts
import tables
import tool
from edit_model import Editor
from test_edit import EditTest
from texts import survey_of
from tool import SEED, Ran, ToolTest

import damage
import grids

TABLES = 150
SCRIPTS = 200
# What a script loads; one of them is refused, one is not there, and the last is at times not there.
OTHERS = ("one.rls", "none.rls", "bad.rls", "missing.rls", "f.rls")


class RandomTables(ToolTest):
    def assert_imported(self, table: tables.Table, end: bytes) -> None:
        """What is told and written, with and without bad lines, and what is exported after it."""
        self.put("t", table.text(end))
        good = not table.told and bool(table.points())
        if table.told or good:
            said = f"f: {survey_of(len(table.points()))}\n" if good else ""
            self.assert_ran("import t -o f", 0 if good else 1, said, table.messages("t", False))
            self.assertEqual("f" in self.names(), good)
        if table.points():
            said = f"f: {survey_of(len(table.points()))}\n"
            self.assert_ran("import t -o f --skip-bad", 0, said, table.messages("t", True))
            self.assertEqual(self.bytes_of("f"), table.file())
            self.assert_ran("export f", 0, files.exported(table.points()))
            (self.folder / "f").unlink()

    def assert_of_seed(self, seed: int) -> None:
        with self.subTest(seed=seed):
            rng = Random(seed)
            self.assert_imported(tables.random_table(rng), rng.choice((b"\n", b"\r\n")))

    def test_tables(self) -> None:
        for seed in range(SEED, SEED + TABLES):
            self.assert_of_seed(seed)

    def test_a_wrong_point_is_noticed(self) -> None:
        """The tool's file with one byte changed is not the table's."""
        table = tables.Table()
        table.point(5, 6, 7)
        sound = tool.run

        def wrong(*arguments: object, **more: object) -> Ran:
            ran = sound(*arguments, **more)
            data = bytearray(self.bytes_of("f"))
            data[4] ^= 1
            self.put("f", bytes(data))
            return ran

        with mock.patch.object(tool, "run", wrong), self.assertRaises(AssertionError):
            self.assert_imported(table, b"\n")


class RandomScripts(EditTest):
    def put_files(self, rng: Random) -> list[tuple[int, int, int]]:
        """A file to edit, two to load, and a bad one; at times the first is not there."""
        points = scripts.start(rng)
        before = rng.choice((b"", rng.randbytes(rng.randrange(40)), b"\0\0\0\0\0\1\0\1\0\2\0\2" + rng.randbytes(5)))
        numbers = grids.proper_grid(rng) if rng.randrange(2) else ()
        self.put("f.rls", files.survey(points, numbers, before))
        self.put("one.rls", damage.sound_file(rng, damage.few_points(rng)))
        self.put("none.rls", files.NO_POINT)
        self.put("bad.rls", files.survey(points, numbers, before)[:-6] + b"\xff\xffRLS1")
        if rng.randrange(4) == 0:
            (self.folder / "f.rls").unlink()
            return []
        return points

    def assert_of_seed(self, seed: int) -> None:
        with self.subTest(seed=seed):
            rng = Random(seed)
            for name in self.names():
                (self.folder / name).unlink()
            points = self.put_files(rng)
            self.assert_like_the_model("f.rls", scripts.make(rng, points, OTHERS))

    def test_scripts(self) -> None:
        for seed in range(SEED, SEED + SCRIPTS):
            self.assert_of_seed(seed)

    def test_a_wrong_model_is_noticed(self) -> None:
        """An undo of two changes, a drop of nothing, and a write without what stands before the records."""
        self.put("f.rls", files.survey(files.FOUR, files.FOUR_GRID))
        sound_undo = Editor.do_undo

        def undo_twice(editor: Editor, words: list[str]) -> None:
            sound_undo(editor, words)
            editor.state = editor.history.pop()[1]

        def drop_nothing(editor: Editor, words: list[str]) -> None:
            editor.output.append("ok\n")

        def write_bare(editor: Editor, words: list[str]) -> None:
            editor.disk["f.rls"] = files.survey(editor.points())
            editor.output.append(f"f.rls: {survey_of(len(editor.points()))}\n")

        lines = ["add 1 1 1", "drop 1 1", "add 2 2 2", "undo", "list", "write"]
        for name, wrong in (("do_undo", undo_twice), ("do_drop", drop_nothing), ("do_write", write_bare)):
            with mock.patch.object(Editor, name, wrong), self.assertRaises(AssertionError):
                self.assert_like_the_model("f.rls", lines)

    def told_of_seed(self, seed: int) -> str:
        """What a script of a seed is told, by the model without its lookups."""
        rng = Random(seed)
        points = self.put_files(rng)
        editor = Editor("f.rls", {each: self.bytes_of(each) for each in self.names()})
        editor.do_look = editor.do_list
        editor.cells = lambda: ""
        editor.run(scripts.make(rng, points, OTHERS))
        return "".join(editor.errors)

    def test_every_kind_of_line_is_met(self) -> None:
        """Among the scripts are all changes, done and refused, and undos past a write."""
        told = "".join(self.told_of_seed(seed) for seed in range(SEED, SEED + SCRIPTS))
        for why in ("refused 1:", "refused 2:", "refused 3:", "refused 4:", "refused 5:", "refused 7:", "refused 13:"):
            self.assertTrue(why in told, why)
        for why in ("nothing to undo", "No such file", "changes are not written", "change is not written", "needs X Y"):
            self.assertTrue(why in told, why)


if __name__ == "__main__":
    unittest.main()
