"""Holds the pages of man/ to what the command shepard takes and says, to the calls of a journal, and to what the programs say of failed reads."""

from __future__ import annotations

import re
import unittest
from pathlib import Path
from typing import NamedTuple

import test_texts
from exact import LAST_REFUSAL
from operations import BY_LETTER, SIX, TABLE
from test_compare import REFUSALS

ROOT = Path(__file__).parent.parent
TOOL = ROOT / "rust" / "tool" / "src"
PROGRAMS = ("shepard_esri", "shepard_grid", "shepard_replay")

# The words in a picture are no messages, and of the crate lib.rs alone has texts that the tool says.
SOURCES = [ROOT / "rust/src/lib.rs", *(path for path in sorted(TOOL.rglob("*.rs")) if path.parent.name != "svg")]

# A string literal, and what stands before one that names a file or a variable, or is said of a fault in the program.
LITERAL = re.compile(r'(include_str!\(|env!\(|expect\()?"((?:[^"\\]|\\.)*)"')

# In the table of commands: a name, what stands behind it in the usage line, its operands and its options.
COMMAND = re.compile(
    r'name: "(\w+)",\s*takes: "([^"]*)",\s*operands: &\[([^]]*)\].*?options: &\[([^]]*)\]', re.S
)

# What may stand in a page for a placeholder.
GAP = ".{0,60}?"

# The requests of the pages: those that show nothing, those that show their words as one, and the others.
UNSEEN = ("TH", "ad", "nr", r"\"")
JOINED = ("BR", "IR", "RB")
OTHERS = ("B", "I", "SH", "SS", "SY", "YS", "TP", "TQ", "PP", "EX", "EE", "RS", "RE")

ESCAPES = {r"\-": "-", r"\(aq": "'", r"\e": "\\", r"\fB": "", r"\fI": "", r"\fR": ""}


class Command(NamedTuple):
    """A command of the tool; its words are its operands and options."""

    name: str
    takes: str
    words: list[str]


def shown_by(request: str, arguments: str) -> str:
    """What a request of a page shows."""
    words = [quoted or word for quoted, word in re.findall(r'"([^"]*)"|(\S+)', arguments)]
    if request in UNSEEN:
        return ""
    return ("" if request in JOINED else " ").join(words)


def plain(page: str) -> str:
    """A page as it reads, in one line."""
    text = re.sub(r"^\.(\S+) ?(.*)$", lambda found: shown_by(found[1], found[2]), page, flags=re.M)
    for escape, shown in ESCAPES.items():
        text = text.replace(escape, shown)
    return " ".join(text.split())


def pieces(text: str) -> list[str]:
    """What a literal says between its placeholders, where there are letters in it."""
    said = re.split(r"\{[^}]*\}", text.replace(r"\n", " ").replace(r"\\", "\\"))
    return [" ".join(piece.split()).strip(": ") for piece in said if re.search("[A-Za-z]", piece)]


def literals(source: str) -> list[str]:
    """The texts of a Rust source with a word of two letters or more, without those of its comments and tests."""
    code = re.sub(r"^\s*//.*$", "", source.partition("#[cfg(test)]")[0], flags=re.M)
    texts = [text for before, text in LITERAL.findall(code.replace("b'\"'", "")) if not before]
    return [text for text in texts if re.search("[A-Za-z]{2}", " ".join(pieces(text)))]


def pattern(text: str) -> str:
    """What finds a literal in a page."""
    return GAP.join(re.escape(piece) for piece in pieces(text))


def missing(texts: list[str], page: str) -> list[str]:
    """The texts that a page lacks."""
    shown = plain(page)
    return [text for text in texts if not re.search(pattern(text), shown)]


def commands() -> list[Command]:
    """The commands of the tool's table."""
    found = COMMAND.findall((TOOL / "commands.rs").read_text("utf-8"))
    return [Command(name, takes, re.findall('"(.*?)"', first + second)) for name, takes, first, second in found]


def part(page: str, heading: str) -> str:
    """What stands below a heading, up to the next one."""
    behind = page.partition(f"\n{heading}\n")[2]
    return re.split(r"^\.S[HS] ", behind, maxsplit=1, flags=re.M)[0]


def read(name: str) -> str:
    return (ROOT / "man" / f"{name}.1").read_text("utf-8")


class Manual(unittest.TestCase):
    def test_every_text_of_the_sources(self) -> None:
        for path in SOURCES:
            lacking = missing(literals(path.read_text("utf-8")), read("shepard"))
            self.assertEqual(lacking, [], f"{path.relative_to(ROOT)} has texts that are not in the page")

    def test_every_refusal_with_its_number(self) -> None:
        refusals = test_texts.in_crate((ROOT / "rust/src/lib.rs").read_text("utf-8"))
        for texts in (refusals.texts, refusals.grid_file_texts):
            told = [f"refused {refusals.numbers[name]}: {text}" for name, text in texts.items()]
            self.assertEqual(missing(told, read("shepard")), [])

    def test_every_command_with_its_operands_and_options(self) -> None:
        page = read("shepard")
        self.assertEqual(len(commands()), 8)
        for command in commands():
            self.assertIn(f"shepard {command.name} {command.takes}", plain(part(page, ".SH SYNOPSIS")))
            for word in command.words:
                alone = rf"(?<![\w-]){re.escape(word)}(?![\w-])"
                self.assertRegex(plain(part(page, f".SS {command.name}")), alone, command.name)

    def test_every_line_of_edit(self) -> None:
        shown = plain(part(read("shepard"), ".SH LINES OF EDIT"))
        lines = (TOOL / "help/edit_lines.txt").read_text("utf-8").splitlines()
        self.assertEqual(len(lines), 14)
        for line in lines:
            self.assertIn(" ".join(line.split()), shown)

    def test_failed_reads_and_writes_of_the_programs(self) -> None:
        source = (ROOT / "crates/print/src/lib.rt").read_text("utf-8")
        told = re.findall(r'tell\(\w+, b"(.*)\\n"\)', source)
        self.assertEqual(len(told), 2)
        for name in PROGRAMS:
            self.assertEqual(missing(told, part(read(name), ".SH DIAGNOSTICS")), [], name)

    def test_every_call_of_a_journal(self) -> None:
        page = part(read("shepard_replay"), ".SH DESCRIPTION")
        told = dict(re.findall(r"^\.T[PQ]\n\.B (\w)\n((?:(?!\.T[PQ]|\.PP).*\n)*)", page, re.M))
        self.assertEqual(set(told), set(BY_LETTER))
        for letter, text in told.items():
            shown, operation = plain(text), BY_LETTER[letter]
            reply = "as q" if letter == "n" else operation.reply
            self.assertRegex(shown, rf"Replies {reply}\b")
            self.assertEqual("the six numbers (2 each)" in shown, operation.fields == (SIX,), letter)
            self.assertEqual("lent" in shown, operation.lent is not None, letter)
            if operation.lent:
                self.assertIn(f"are lent, at most {operation.lent.most:,}.", shown)

    def test_every_refusal_of_a_journal(self) -> None:
        """With the calls that give it."""
        page = part(read("shepard_replay"), ".SH REFUSALS")
        told = re.findall(r"^\.T[PQ]\n(\d+)\n.*: ([\w, ]+)$", page, re.M)
        letters = {operation.name: operation.letter for operation in TABLE}
        given = {number: set() for number in range(1, LAST_REFUSAL + 1)}
        for name, numbers in REFUSALS.items():
            for number in numbers:
                given[number].add(letters[name])
        self.assertEqual({int(number): set(each.split(", ")) for number, each in told}, given)

    def test_the_pages_name_one_another(self) -> None:
        names = ("shepard", *PROGRAMS)
        for name in names:
            others = ", ".join(f"{other}(1)" for other in names if other != name)
            self.assertEqual(plain(part(read(name), ".SH SEE ALSO")), others)

    def test_no_line_is_a_request_by_chance(self) -> None:
        for name in ("shepard", *PROGRAMS):
            for line in read(name).splitlines():
                if line.startswith((".", "'")):
                    self.assertIn(line[1:].split(" ")[0], (*UNSEEN, *JOINED, *OTHERS), f"{name}: {line}")


class Catches(unittest.TestCase):
    def test_a_planted_text(self) -> None:
        source = """
            // no text is "a comment's"
            match name {
                b'"' | "add" => format!("{name}: it is planted\\n"),
                _ => "nothing to undo".to_string(),
            }
            #[cfg(test)]
            mod tests { const NO_TEXT: &str = "a test's"; }
        """
        planted = r"{name}: it is planted\n"
        self.assertEqual(literals(source), ["add", planted, "nothing to undo"])
        self.assertEqual(missing(literals(source), read("shepard")), [planted])

    def test_a_text_that_is_taken_out_of_the_page(self) -> None:
        shown = plain(read("shepard"))
        for path in SOURCES:
            for text in literals(path.read_text("utf-8")):
                self.assertEqual(missing([text], re.sub(pattern(text), "", shown)), [text])

    def test_pieces_that_do_not_stand_together(self) -> None:
        text = "'{}' is no form: rlg, csv or {last}"
        self.assertEqual(missing([text], r".B \(aqpdf\(aq is no form: rlg, csv or esri"), [])
        self.assertEqual(missing([text], "is no form: esri, csv or rlg"), [text])
        self.assertEqual(missing(["from {} to {}"], "from here" + " and on" * 12 + " to there"), ["from {} to {}"])


if __name__ == "__main__":
    unittest.main()
