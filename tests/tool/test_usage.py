"""Holds commands, options, help and wrong usage to their words."""

from __future__ import annotations

import os
import unittest

import files
from tool import ToolTest

SYNOPSES = {
    "import": "TABLE -o FILE",
    "export": "FILE",
    "check": "FILE..",
    "look": "FILE X Y",
    "edit": "FILE",
    "grid": "FILE -o OUT",
    "picture": "FILE -o MAP.svg",
    "diff": "A B",
}
WHOLE_USAGE = "usage: shepard COMMAND ..., or shepard --help"
NOT_A_GRID = (
    "",
    "x",
    "1,2,3",
    "0,0,1,1,1",
    "0,0,1,1,1,1,1",
    "0,0,1,1,1,",
    ",0,1,1,1,1",
    "0,0,1,1,1,1,",
    "0,0,1,1,1,65536",
    "0,0,1,1,1,18446744073709551617",
    "0,0,1,1,1,340282366920938463463374607431768211457",
    "+0,0,1,1,1,1",
    "-1,0,1,1,1,1",
    "0,0,1,1,1,1.0",
    "0, 0,1,1,1,1",
    "0;0;1;1;1;1",
    "0,0,1,1,1,0x1",
    "0,0,1,1,1,1\n",
    "٠,0,1,1,1,1",
)


class Usage(ToolTest):
    def setUp(self) -> None:
        super().setUp()
        self.put("f.rls", files.survey(files.FOUR, files.FOUR_GRID))
        self.put("t.csv", files.table(files.FOUR))

    def assert_usage(self, words: str | list[str], why: str) -> None:
        """Two lines on standard error, status 2, and a folder as it was."""
        before = {name: self.bytes_of(name) for name in self.names()}
        ran = self.run_tool(words)
        command = (words.split() if isinstance(words, str) else words)[0]
        self.assertEqual((ran.status, ran.output), (2, b""), words)
        lines = ran.errors.decode().split("\n")
        self.assertEqual(lines[0], f"shepard {command}: {why}", words)
        self.assertTrue(lines[1].startswith(f"usage: shepard {command} {SYNOPSES[command]}"), (words, lines))
        self.assertEqual(lines[2:], [""], words)
        self.assertEqual({name: self.bytes_of(name) for name in self.names()}, before)

    def test_no_command(self) -> None:
        self.assert_ran("", 2, errors=f"shepard: no command\n{WHOLE_USAGE}\n")

    def test_unknown_command(self) -> None:
        for word in ("x", "Import", "f.rls", "grids"):
            self.assert_ran(word, 2, errors=f"shepard: no command '{word}'\n{WHOLE_USAGE}\n")
        self.assert_ran([""], 2, errors=f"shepard: no command ''\n{WHOLE_USAGE}\n")

    def test_unknown_option_of_every_command(self) -> None:
        operands = {"look": "f.rls 1 1", "diff": "f.rls f.rls", "import": "t.csv -o o", "grid": "f.rls -o o"}
        for command in SYNOPSES:
            given = operands.get(command, "f.rls -o o.svg" if command == "picture" else "f.rls")
            self.assert_usage(f"{command} --x {given}", "no option '--x'")
            self.assert_usage(f"{command} {given} --x", "no option '--x'")
            self.assert_usage(f"{command} {given} -z", "no option '-z'")

    def test_options_of_other_commands(self) -> None:
        self.assert_usage("export f.rls --grid 0,0,1,1,1,1", "no option '--grid'")
        self.assert_usage("check f.rls --skip-bad", "no option '--skip-bad'")
        self.assert_usage("grid f.rls -o o --of answer", "no option '--of'")
        self.assert_usage("picture f.rls -o o --as csv", "no option '--as'")
        self.assert_usage("look f.rls 1 1 -o o", "no option '-o'")

    def test_option_without_its_value(self) -> None:
        self.assert_usage("import t.csv -o", "'-o' needs a value")
        self.assert_usage("import t.csv -o o --grid", "'--grid' needs a value")
        self.assert_usage("grid f.rls -o o --as", "'--as' needs a value")
        self.assert_usage("picture f.rls -o o --of", "'--of' needs a value")
        self.assert_usage("diff f.rls f.rls --grid", "'--grid' needs a value")
        self.assert_usage("export f.rls -o", "'-o' needs a value")

    def test_missing_output(self) -> None:
        self.assert_usage("import t.csv", "'-o' is missing")
        self.assert_usage("grid f.rls", "'-o' is missing")
        self.assert_usage("picture f.rls", "'-o' is missing")

    def test_missing_operands(self) -> None:
        self.assert_usage("import -o o", "TABLE is missing")
        self.assert_usage("export", "FILE is missing")
        self.assert_usage("check", "FILE is missing")
        self.assert_usage("look", "FILE is missing")
        self.assert_usage("look f.rls", "X is missing")
        self.assert_usage("look f.rls 1", "Y is missing")
        self.assert_usage("edit", "FILE is missing")
        self.assert_usage("grid -o o", "FILE is missing")
        self.assert_usage("picture -o o", "FILE is missing")
        self.assert_usage("diff", "A is missing")
        self.assert_usage("diff f.rls", "B is missing")

    def test_words_too_many(self) -> None:
        self.assert_usage("import t.csv more -o o", "'more' is one word too many")
        self.assert_usage("export f.rls more", "'more' is one word too many")
        self.assert_usage("look f.rls 1 1 more", "'more' is one word too many")
        self.assert_usage("edit f.rls more", "'more' is one word too many")
        self.assert_usage("grid f.rls more -o o", "'more' is one word too many")
        self.assert_usage("picture f.rls -o o more", "'more' is one word too many")
        self.assert_usage("diff f.rls f.rls f.rls", "'f.rls' is one word too many")

    def test_option_given_twice(self) -> None:
        grid = "0,0,1,1,1,1"
        self.assert_usage(f"import t.csv -o o --grid {grid} --grid={grid}", "'--grid' is given twice")
        self.assert_usage("import t.csv -o o -o p", "'-o' is given twice")
        self.assert_usage("grid f.rls -o o --as csv --as csv", "'--as' is given twice")
        self.assert_usage("picture f.rls --of answer -o o --of support", "'--of' is given twice")

    def test_what_is_no_grid(self) -> None:
        for word in NOT_A_GRID:
            why = f"'{word}' is no grid: X0,Y0,SX,SY,C,R, six whole numbers"
            if word.isprintable():
                self.assert_usage(["grid", "f.rls", "-o", "o", "--grid=" + word], why)
                self.assert_usage(["import", "t.csv", "-o", "o", "--grid=" + word], why)
            self.assertEqual(self.run_tool(["diff", "f.rls", "f.rls", "--grid", word]).status, 2, word)

    def test_form_and_kind_of_map(self) -> None:
        self.assert_usage("grid f.rls -o o --as x", "'x' is no form: rlg, csv or esri")
        self.assert_usage("grid f.rls -o o --as=CSV", "'CSV' is no form: rlg, csv or esri")
        self.assert_usage(["grid", "f.rls", "-o", "o", "--as", ""], "'' is no form: rlg, csv or esri")
        self.assert_usage("picture f.rls -o o --of x", "'x' is nothing to show: answer or support")

    def test_location_that_is_no_number(self) -> None:
        for word in ("x", "1.5", "1e3", "0x1", "+", "1,", "", " 1", "１"):
            self.assert_usage(["look", "f.rls", word, "1"], f"'{word}' is no whole number")
            self.assert_usage(["look", "f.rls", "1", word], f"'{word}' is no whole number")

    def test_nothing_is_read(self) -> None:
        """A file that is not there is not what is told where the usage is wrong."""
        self.assert_usage("check --x none.rls", "no option '--x'")
        self.assert_usage("look none.rls a 1", "'a' is no whole number")
        self.assert_usage("grid none.rls -o o --as x", "'x' is no form: rlg, csv or esri")

    def test_another_reason_is_noticed(self) -> None:
        for why in ("no option '--y'", "TABLE is missing"):
            with self.assertRaises(AssertionError):
                self.assert_usage("import --x t.csv -o o", why)


class Options(ToolTest):
    def setUp(self) -> None:
        super().setUp()
        self.put("f.rls", files.survey(files.FOUR, files.FOUR_GRID))
        self.put("t.csv", files.table(files.FOUR))

    def test_help(self) -> None:
        ran = self.run_tool("--help")
        self.assertEqual((ran.status, ran.errors), (0, b""))
        for command in SYNOPSES:
            self.assertIn(command.encode(), ran.output)

    def test_help_of_every_command(self) -> None:
        for command in SYNOPSES:
            ran = self.run_tool(f"{command} --help")
            self.assertEqual((ran.status, ran.errors), (0, b""), command)
            self.assertIn(f"shepard {command} {SYNOPSES[command]}".encode(), ran.output)

    def test_version(self) -> None:
        self.assert_ran("--version", 0, "shepard 0.1.0\n")

    def test_options_before_and_after_operands(self) -> None:
        """Every order and both ways to give a value write the same file."""
        said, wanted = "o.rls: a survey of 4 points\n", files.survey(files.FOUR, files.FOUR_GRID)
        for words in (
            "import t.csv -o o.rls --grid 0,0,1000,1000,5,3",
            "import t.csv -o o.rls --grid=0,0,1000,1000,5,3",
            "import --grid 0,0,1000,1000,5,3 -o o.rls t.csv",
            "import -o o.rls t.csv --grid=0,0,1000,1000,5,3",
            "import -o o.rls --grid=0,0,1000,1000,5,3 -- t.csv",
            "import --skip-bad -o o.rls t.csv --grid=0,0,1000,1000,5,3",
        ):
            self.assert_written(words, said, "o.rls", wanted)
            (self.folder / "o.rls").unlink()

    def test_end_of_options(self) -> None:
        """Behind it a word that looks like an option is a file."""
        self.put("--help", files.survey(files.FOUR))
        said = "--help: a survey of 4 points, x 100 to 3900, y 200 to 2100, z -64 to -3\n"
        self.assert_ran("check -- --help", 0, said)
        self.assert_ran("export -- --help", 0, files.exported(files.FOUR))

    def test_input_named_by_a_dash(self) -> None:
        data = files.survey(files.FOUR)
        self.assert_ran("export -", 0, files.exported(files.FOUR), data=data)
        self.assert_ran("export -- -", 0, files.exported(files.FOUR), data=data)
        self.assert_ran("import - -o -", 0, data, data=files.table(files.FOUR).encode())
        self.assertEqual(self.names(), ["f.rls", "t.csv"])

    def test_output_named_by_a_dash(self) -> None:
        """Nothing but the file goes to standard output."""
        self.assert_ran("import t.csv -o -", 0, files.survey(files.FOUR))
        self.assert_ran("export f.rls -o -", 0, files.exported(files.FOUR))
        self.assertEqual(self.names(), ["f.rls", "t.csv"])

    def test_a_name_with_a_line_feed(self) -> None:
        """A message is one line."""
        ran = self.run_tool(["check", "a\nb.rls"])
        self.assertEqual((ran.status, ran.output, ran.errors.count(b"\n")), (2, b"", 1), ran)

    def test_a_name_that_is_no_utf_8(self) -> None:
        name = b"\xff\xfe.rls"
        (self.folder / "f.rls").rename(self.folder / os.fsdecode(name))
        ran = self.run_tool([b"check", name])
        self.assertEqual((ran.status, ran.errors), (0, b""))
        self.assertIn(b": a survey of 4 points, ", ran.output)
        ran = self.run_tool([b"import", b"t.csv", b"-o", b"\xfe.rls"])
        self.assertEqual((ran.status, ran.errors), (0, b""))
        self.assertEqual((self.folder / os.fsdecode(b"\xfe.rls")).read_bytes(), files.survey(files.FOUR))


if __name__ == "__main__":
    unittest.main()
