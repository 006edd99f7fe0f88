"""Runs edit on scripts: each command, what is refused, undo, and what is left unwritten."""

from __future__ import annotations

import re
import unittest
from collections.abc import Sequence

import files
from edit_model import Editor
from texts import BROKEN_FRONT, GRID_RULES, refused
from tool import ToolTest, grid_file

FRESH = "new.rls: a new survey\n"


class EditTest(ToolTest):
    def assert_edits(self, script: str, status: int, output: str, errors: str, name: str = "new.rls") -> None:
        """What a script says; of a survey that is new, without the line that says so."""
        fresh = "" if (self.folder / name).exists() else f"{name}: a new survey\n"
        self.assert_ran(["edit", name], status, output, fresh + errors, script.encode())

    def assert_like_the_model(self, name: str, lines: Sequence[str]) -> None:
        """The run, and all files after it, are the model's."""
        disk = {each: self.bytes_of(each) for each in self.names()}
        model = Editor(name, disk)
        model.run(lines)
        ran = self.run_tool(["edit", name], "".join(line + "\n" for line in lines).encode())
        shown = re.sub(r"(before its first record)[^\n]*", r"\1", ran.errors.decode())
        self.assertEqual(shown, "".join(model.errors), lines)
        self.assertEqual(ran.output.decode(), "".join(model.output), lines)
        self.assertEqual(ran.status, model.status, lines)
        self.assertEqual({each: self.bytes_of(each) for each in self.names()}, model.disk, lines)


class Commands(EditTest):
    def test_a_new_survey(self) -> None:
        self.assert_edits("add 10 20 -3\nwrite\n", 0, "ok\nnew.rls: a survey of 1 point\n", "")
        self.assertEqual(self.bytes_of("new.rls"), files.survey([(10, 20, -3)]))

    def test_a_new_survey_left_alone(self) -> None:
        """Nothing is asked for, and nothing is written."""
        for script in ("", "\n", "# nothing\n", "quit\n", "list\n", "add 1 2 3\nundo\nquit\n"):
            output = "ok\nok\n" if "add" in script else ""
            self.assert_edits(script, 0, output, "")
            self.assertEqual(self.names(), [])

    def test_an_empty_survey_is_written(self) -> None:
        self.assert_edits("write\n", 0, "new.rls: a survey of no points\n", "")
        self.assertEqual(self.bytes_of("new.rls"), files.NO_POINT)

    def test_words_and_their_separators(self) -> None:
        script = "add 10,20,-3\nadd 11 20 -3\nadd\t12\t20\t-3\n  add  13, 20 ,\t-3  \nadd 14,20,-3\nlist\nwrite\n"
        points = [(x, 20, -3) for x in range(10, 15)]
        output = "ok\n" * 5 + files.table(points) + "new.rls: a survey of 5 points\n"
        self.assert_edits(script, 0, output, "")
        self.assertEqual(self.bytes_of("new.rls"), files.survey(points))

    def test_comments_and_blank_lines(self) -> None:
        script = "# add 1 1 1\n\n   \nadd 2 2 2\n#list\nlist\nundo\n"
        self.assert_edits(script, 0, "ok\n2,2,2\nok\n", "")

    def test_last_line_without_its_end(self) -> None:
        self.assert_edits("add 2 2 2\nwrite", 0, "ok\nnew.rls: a survey of 1 point\n", "")

    def test_lines_that_end_as_on_other_systems(self) -> None:
        self.assert_edits("add 2 2 2\r\nlist\r\n\r\nwrite\r\n", 0, "ok\n2,2,2\nnew.rls: a survey of 1 point\n", "")

    def test_change_drop_and_clear(self) -> None:
        self.put("f.rls", files.survey(files.FOUR))
        script = "change 100 200 5\ndrop 900 250\nlist\nclear\nlist\nundo\nwrite\n"
        left = [(100, 200, 5), (1800, 2100, -30), (3900, 1200, -64)]
        output = "ok\nok\n" + files.table(left) + "ok\nok\nf.rls: a survey of 3 points\n"
        self.assert_edits(script, 0, output, "", "f.rls")
        self.assertEqual(self.bytes_of("f.rls"), files.survey(left))

    def test_what_stands_before_the_records_is_kept(self) -> None:
        before = bytes(range(256)) * 3
        self.put("f.rls", files.survey(files.FOUR, files.FOUR_GRID, before))
        self.assert_edits("drop 100 200\nwrite\n", 0, "ok\nf.rls: a survey of 3 points\n", "", "f.rls")
        self.assertEqual(self.bytes_of("f.rls"), files.survey(files.FOUR[1:], files.FOUR_GRID, before))
        self.assert_edits("clear\nwrite\n", 0, "ok\nf.rls: a survey of no points\n", "", "f.rls")
        self.assertEqual(self.bytes_of("f.rls"), files.survey([], files.FOUR_GRID, before))

    def test_load(self) -> None:
        """The points alone come, not what stands before them."""
        self.put("other name.rls", files.survey(files.EIGHT, (1, 2, 3, 4, 5, 6)))
        self.put("f.rls", files.survey(files.FOUR, files.FOUR_GRID))
        self.assert_edits("load other name.rls\nwrite\n", 0, "ok\nf.rls: a survey of 8 points\n", "", "f.rls")
        self.assertEqual(self.bytes_of("f.rls"), files.survey(files.EIGHT, files.FOUR_GRID))

    def test_look_and_list(self) -> None:
        self.put("f.rls", files.survey(files.EIGHT))
        shown = self.run_tool("look f.rls 100 50").output.decode()
        output = shown * 2 + files.table(files.EIGHT)
        self.assert_edits("look 100 50\nlook 100,50\nlist\n", 0, output, "", "f.rls")

    def test_cells(self) -> None:
        self.put("f.rls", files.survey(files.EIGHT, files.EIGHT_GRID))
        shown = self.run_tool("grid f.rls -o - --as csv").output.decode()
        self.assert_edits("grid\n", 0, shown, "", "f.rls")
        self.assertEqual(shown, files.csv_of(grid_file(files.EIGHT_GRID, files.survey(files.EIGHT))))

    def test_grid_in_front(self) -> None:
        """In place of a grid, and in front of all else."""
        own, other = (0, 0, 65, 65, 64, 64), bytes(11) + b"\x41" + b"tail"
        for before, after in ((b"", b""), (b"x", b"x"), (b"\0" * 12, b"\0" * 12), (other, other)):
            self.put("f.rls", files.survey(files.FOUR, (), before))
            self.assert_edits("grid 0,0,65,65,64,64\nwrite\n", 0, "ok\nf.rls: a survey of 4 points\n", "", "f.rls")
            self.assertEqual(self.bytes_of("f.rls"), files.survey(files.FOUR, own, after))
        self.put("f.rls", files.survey(files.FOUR, files.FOUR_GRID, b"tail"))
        self.assert_edits("grid 0 0 65 65 64 64\nwrite\n", 0, "ok\nf.rls: a survey of 4 points\n", "", "f.rls")
        self.assertEqual(self.bytes_of("f.rls"), files.survey(files.FOUR, own, b"tail"))

    def test_write_to_another_path(self) -> None:
        """It leaves the file and the unwritten changes as they are."""
        self.put("f.rls", files.survey(files.FOUR))
        errors = "f.rls: 1 change is not written\n"
        script = "drop 100 200\nwrite g h.rls\n"
        self.assert_edits(script, 1, "ok\ng h.rls: a survey of 3 points\n", errors, "f.rls")
        self.assertEqual(self.bytes_of("g h.rls"), files.survey(files.FOUR[1:]))
        self.assertEqual(self.bytes_of("f.rls"), files.survey(files.FOUR))

    def test_write_to_its_own_path_by_name(self) -> None:
        self.put("f.rls", files.survey(files.FOUR))
        self.assert_edits("clear\nwrite f.rls\n", 0, "ok\nf.rls: a survey of no points\n", "", "f.rls")

    def test_help(self) -> None:
        ran = self.run_tool("edit new.rls", b"help\n")
        self.assertEqual((ran.status, ran.errors.decode()), (0, FRESH))
        for word in ("add", "change", "drop", "clear", "load", "look", "list", "grid", "undo", "write", "help", "quit"):
            self.assertIn(word.encode(), ran.output)

    def test_quit_ends(self) -> None:
        self.assert_edits("add 1 1 1\nwrite\nquit\nadd 2 2 2\nx\n", 0, "ok\nnew.rls: a survey of 1 point\n", "")


class NotDone(EditTest):
    """What is refused or not understood is told, changes nothing, and the run goes on."""

    def assert_why(self, line: str, why: str, status: int = 1) -> None:
        self.put("f.rls", files.survey(files.FOUR, files.FOUR_GRID))
        shown = line.strip()
        output = "ok\n" + files.table([(1, 1, 1), *files.FOUR]) + "f.rls: a survey of 5 points\n"
        script = f"add 1 1 1\n# next\n{line}\nlist\nwrite\n"
        self.assert_edits(script, status, output, f"line 3: {shown}: {why}\n", "f.rls")
        self.assertEqual(self.bytes_of("f.rls"), files.survey([(1, 1, 1), *files.FOUR], files.FOUR_GRID))

    def test_refused_changes(self) -> None:
        self.assert_why("add 100 200 0", refused(3))
        self.assert_why("add 4096 200 0", refused(1))
        self.assert_why("add 1 -1 0", refused(1))
        self.assert_why("add 2 2 128", refused(2))
        self.assert_why("add 4096 0 128", refused(1))
        self.assert_why("add 2 2 -129", refused(2))
        self.assert_why("add 2 2 123456789012345678901234567890", refused(2))
        self.assert_why("add 18446744073709551616 2 0", refused(1))
        self.assert_why("change 2 2 0", refused(4))
        self.assert_why("change 100 200 128", refused(2))
        self.assert_why("drop 2 2", refused(4))
        self.assert_why("drop 4096 2", refused(1))

    def test_refused_lookups(self) -> None:
        self.assert_why("look 4096 0", refused(1))
        self.put("e.rls", files.NO_POINT)
        self.assert_edits("look 0 0\n", 1, "", f"line 1: look 0 0: {refused(6)}\n", "e.rls")

    def test_refused_grids(self) -> None:
        self.assert_why("grid 0,0,0,1,1,1", f"refused 7: {GRID_RULES}")
        self.assert_why("grid 0,0,1,1,65,1", f"refused 7: {GRID_RULES}")
        self.put("e.rls", files.survey([], files.FOUR_GRID))
        self.assert_edits("grid\n", 1, "", f"line 1: grid: {refused(6)}\n", "e.rls")
        self.put("b.rls", files.survey(files.FOUR, (), bytes(12)))
        broken = BROKEN_FRONT.replace("--grid", "grid")
        self.assert_edits("grid\n", 1, "", f"line 1: grid: refused 7: {broken}\n", "b.rls")
        self.assert_like_the_model("fresh.rls", ["grid"])

    def test_full_survey(self) -> None:
        points = [(x, y, 0) for x in range(16) for y in range(16)]
        self.put("f.rls", files.survey(points))
        errors = f"line 1: add 16 0 0: {refused(5)}\nline 2: add 0 0 0: {refused(3)}\n"
        script = "add 16 0 0\nadd 0 0 0\ndrop 0 0\nadd 16 0 0\nwrite\n"
        self.assert_edits(script, 1, "ok\nok\nf.rls: a survey of 256 points\n", errors, "f.rls")

    def test_not_understood(self) -> None:
        self.assert_why("x", "no command 'x'")
        self.assert_why("ADD 2 2 2", "no command 'ADD'")
        self.assert_why("2 2 2", "no command '2'")
        self.assert_why("add 2 2 a", "'a' is no whole number")
        self.assert_why("add a b c", "'a' is no whole number")
        self.assert_why("add 2.5 2 2", "'2.5' is no whole number")
        self.assert_why("change 100 200 +", "'+' is no whole number")
        self.assert_why("look 1e3 0", "'1e3' is no whole number")
        self.assert_why("   drop 1 y  ", "'y' is no whole number")

    def test_words_that_are_needed(self) -> None:
        for line, needs in (
            ("add", "add needs X Y Z"),
            ("add 2 2", "add needs X Y Z"),
            ("add 2 2 2 2", "add needs X Y Z"),
            ("change 100 200", "change needs X Y Z"),
            ("drop", "drop needs X Y"),
            ("drop 1", "drop needs X Y"),
            ("drop 1 1 1", "drop needs X Y"),
            ("look 1", "look needs X Y"),
            ("load", "load needs PATH"),
        ):
            self.assert_why(line, needs)

    def test_loads_that_fail(self) -> None:
        self.put("bad.rls", files.survey(files.EIGHT)[:-5] + b"\0RLS1")
        self.put("short.rls", b"RLS1")
        self.assert_why("load bad.rls", f"bad.rls: {refused(13)}")
        self.assert_why("load short.rls", f"short.rls: {refused(9)}")
        self.assert_why("load none.rls", "none.rls: No such file or directory (os error 2)", 2)
        self.assert_why("load .", ".: Is a directory (os error 21)", 2)

    def test_writes_that_fail(self) -> None:
        self.assert_why("write no/f.rls", "no/f.rls: No such file or directory (os error 2)", 2)
        self.assert_why("write .", ".: Is a directory (os error 21)", 2)
        full = self.device("full")
        self.assert_why(f"write {full}", f"{full}: No space left on device (os error 28)", 2)

    def test_control_characters_are_shown(self) -> None:
        ran = self.run_tool("edit new.rls", b"\x1b[2J\xff\n")
        self.assertEqual((ran.status, ran.output), (1, b""))
        self.assertNotIn(b"\x1b", ran.errors)
        self.assertIn(rb"line 1: \x1b[2J\xff: ", ran.errors)

    def test_a_refused_file(self) -> None:
        """Status 1 and nothing more."""
        data = files.survey(files.FOUR)[1:]
        self.put("f.rls", data)
        self.assert_edits("add 1 1 1\nwrite\nlist\n", 1, "", f"f.rls: {refused(12)}\n", "f.rls")
        self.assertEqual(self.bytes_of("f.rls"), data)

    def test_a_file_that_cannot_be_read(self) -> None:
        (self.folder / "d").mkdir()
        self.assert_ran("edit d", 2, "", "d: Is a directory (os error 21)\n", b"add 1 1 1\nwrite\n")
        self.put("f", "")
        self.assert_ran("edit f/g", 2, "", "f/g: Not a directory (os error 20)\n", b"list\n")

    def test_a_grid_file(self) -> None:
        data = files.made_grid_file((0, 0, 1, 1, 1, 1), [5])
        self.put("f.rlg", data)
        ran = self.run_tool("edit f.rlg", b"add 1 1 1\nwrite\n")
        self.assertEqual((ran.status, ran.output, ran.errors.count(b"\n")), (1, b"", 1))
        self.assertEqual(self.bytes_of("f.rlg"), data)

    def test_a_folder_that_is_not_there(self) -> None:
        """A survey that could not be written is not begun."""
        self.assert_ran("edit d/x.rls", 2, "", "d/x.rls: No such file or directory (os error 2)\n", b"clear\n")

    def test_a_file_that_has_no_room(self) -> None:
        """A file of 65,536 bytes with a point more would be refused by every reader, so it is not written."""
        data = files.survey(files.FOUR, (), bytes(65_536 - 32))
        self.put("f.rls", data)
        errors = "line 1: add 1 1 1: refused 9: the file would have over 65,536 bytes\n"
        self.assert_edits("add 1 1 1\nwrite\n", 1, "f.rls: a survey of 4 points\n", errors, "f.rls")
        self.assertEqual(self.bytes_of("f.rls"), data)
        said = "f.rls: a survey of 3 points\n"
        self.assert_edits("drop 100 200\nwrite\n", 0, "ok\n" + said, "", "f.rls")
        self.assert_edits("add 1 1 1\nwrite\n", 0, "ok\n" + said.replace("3", "4"), "", "f.rls")


class Undo(EditTest):
    def test_every_change(self) -> None:
        """Each kind of change is taken back, last first."""
        data = files.survey(files.FOUR, files.FOUR_GRID, b"tail")
        self.put("f.rls", data)
        self.put("o.rls", files.survey(files.EIGHT))
        changes = ["add 1 1 1", "change 1 1 2", "drop 1 1", "grid 0,0,1,1,1,1", "load o.rls", "clear"]
        lines = changes.copy()
        for _ in changes:
            lines += ["undo", "write g.rls", "list"]
        self.assert_like_the_model("f.rls", lines + ["undo"])
        self.assertEqual(self.bytes_of("g.rls"), data)

    def test_nothing_to_undo(self) -> None:
        script = "undo\nadd 1 1 1\nundo\nundo\n"
        self.assert_edits(script, 1, "ok\nok\n", "line 1: undo: nothing to undo\nline 4: undo: nothing to undo\n")

    def test_refused_lines_are_no_changes(self) -> None:
        self.assert_like_the_model("f.rls", ["add 1 1 1", "add 1 1 1", "x", "drop 2 2", "list", "undo", "list", "undo"])

    def test_past_a_write(self) -> None:
        lines = ["add 1 1 1", "add 2 2 2", "write", "undo", "list", "undo", "list", "write"]
        self.assert_like_the_model("f.rls", lines)

    def test_many(self) -> None:
        lines = [f"add {x} 0 0" for x in range(200)] + ["undo"] * 150 + ["list", "write"]
        self.assert_like_the_model("f.rls", lines)

    def test_changes_that_leave_all_as_it_was(self) -> None:
        """Each is a change and is taken back by one undo; none of them is unwritten."""
        self.put("f.rls", files.survey(files.FOUR, files.FOUR_GRID))
        same = ["change 100 200 -3", "grid 0,0,1000,1000,5,3", "load f.rls"]
        self.assert_like_the_model("f.rls", same)
        self.assert_like_the_model("f.rls", ["drop 100 200", *same[1:2], "undo", "undo", "list", "undo"])
        self.assert_like_the_model("g.rls", ["clear", "undo", "undo"])


class Unwritten(EditTest):
    def assert_left(self, count: str, *lines: str) -> None:
        """What is told at the end, whether by quit or by the end of input."""
        for end in ((), ("quit",)):
            self.put("f.rls", files.survey(files.FOUR))
            ran = self.run_tool("edit f.rls", "\n".join([*lines, *end]).encode())
            wanted = f"f.rls: {count} not written\n" if count else ""
            self.assertEqual((ran.status, ran.errors.decode()), (1 if count else 0, wanted), lines)

    def test_counts(self) -> None:
        self.assert_left("")
        self.assert_left("1 change is", "add 1 1 1")
        self.assert_left("3 changes are", "add 1 1 1", "add 2 2 2", "clear")
        self.assert_left("1 change is", "add 1 1 1", "add 2 2 2", "undo")
        self.assert_left("", "add 1 1 1", "undo")
        self.assert_left("", "add 1 1 1", "write")
        self.assert_left("1 change is", "add 1 1 1", "write", "add 2 2 2")
        self.assert_left("1 change is", "grid 0,0,1,1,1,1")
        self.assert_left("2 changes are", "add 1 1 1", "add 2 2 2", "write g.rls")

    def test_counts_after_an_undo_past_a_write(self) -> None:
        self.assert_left("1 change is", "add 1 1 1", "write", "undo")
        self.assert_left("2 changes are", "add 1 1 1", "add 2 2 2", "write", "undo", "undo")
        self.assert_left("3 changes are", "add 1 1 1", "add 2 2 2", "write", "undo", "undo", "add 3 3 3")

    def test_changes_that_come_to_nothing(self) -> None:
        """The bytes are those that were read: nothing is unwritten."""
        self.assert_left("", "add 1 1 1", "drop 1 1")
        self.assert_left("", "change 100 200 5", "change 100 200 -3")
        self.assert_left("", "load f.rls")

    def test_a_new_survey(self) -> None:
        self.assert_edits("add 1 1 1\n", 1, "ok\n", "new.rls: 1 change is not written\n")
        self.assertEqual(self.names(), [])

    def test_a_refused_line_and_a_failed_file_too(self) -> None:
        """2 comes before 1."""
        script = "add 1 1 1\nx\nload none.rls\n"
        errors = "line 2: x: no command 'x'\nline 3: load none.rls: none.rls: No such file or directory (os error 2)\n"
        self.assert_edits(script, 2, "ok\n", errors + "new.rls: 1 change is not written\n")

    def test_a_wrong_count_is_noticed(self) -> None:
        with self.assertRaises(AssertionError):
            self.assert_left("2 changes are", "add 1 1 1")


if __name__ == "__main__":
    unittest.main()
